//! The library as it was before, as a shared library that is named when the program runs.

use crate::contenders::{page_of, waits_of, Call, Contender};
use crate::loaded::Loaded;
use crate::Failure;
use std::ffi::{c_void, CString};
use std::mem::transmute;
use std::ptr::NonNull;
use twin::{Page, Waits, NO_STEP};

/// The variable of the environment that names it.
const NAMED_BY: &str = "ROADTHRUM_BEFORE";

/// The library's calls, as `include/roadthrum.h` has them.
type Check = unsafe extern "C" fn(*const u8, usize) -> u32;
type Rows = unsafe extern "C" fn(*const u8, usize, *const u8, usize, u32, *mut u32, usize, *mut [u32; 5]);
type Waiting = unsafe extern "C" fn(*const u8, usize, *const u32, usize, *mut [u64; 8]);

pub struct Before {
    check: Check,
    answer: Rows,
    evidence: Rows,
    /// A library from before the waiting table has no such call.
    waits: Option<Waiting>,
}

impl Before {
    /// The library that the environment names, or nothing if it names none.
    pub fn named() -> Result<Option<Before>, Failure> {
        match std::env::var(NAMED_BY) {
            Ok(name) if !name.is_empty() => Before::load(&name).map(Some).ok_or(format!("{name} does not have the calls of this library.")),
            _ => Ok(None),
        }
    }

    fn load(name: &str) -> Option<Before> {
        let name = CString::new(name).ok()?;
        // SAFETY: who runs the bench names a library of this project by it, which does nothing on being loaded; its calls have these types.
        unsafe {
            let library = Loaded::open(&name)?;
            Some(Before {
                check: transmute::<NonNull<c_void>, Check>(library.symbol(c"roadthrum_check")?),
                answer: transmute::<NonNull<c_void>, Rows>(library.symbol(c"roadthrum_answer")?),
                evidence: transmute::<NonNull<c_void>, Rows>(library.symbol(c"roadthrum_evidence")?),
                waits: library.symbol(c"roadthrum_waits").map(|symbol| transmute::<NonNull<c_void>, Waiting>(symbol)),
            })
        }
    }
}

impl Contender for Before {
    fn check(&self, index: &[u8]) -> u32 {
        // SAFETY: the pointer and the length are those of one slice, which is only read.
        unsafe { (self.check)(index.as_ptr(), index.len()) }
    }

    fn rows(&self, call: Call, index: &[u8], question: &[u8], out: &mut [u32]) -> Page {
        let call = match call {
            Call::Answer => self.answer,
            Call::Evidence => self.evidence,
        };
        // A library from before the fifth number writes four and leaves the last as it is lent. So that is right already: no step is
        // unknown, since each name in the bench's questions has a row in its day. Where one had none, the contenders would disagree.
        let mut result = [0, 0, 0, 0, NO_STEP];
        // SAFETY: each pointer and length are those of one slice; the buffer and the result are lent to this call alone.
        unsafe {
            call(index.as_ptr(), index.len(), question.as_ptr(), question.len(), 0, out.as_mut_ptr(), out.len(), &mut result);
        }
        page_of(result)
    }

    fn waits(&self, index: &[u8], times: &[u32]) -> Option<Waits> {
        let waits = self.waits?;
        let mut figures = [u64::MAX; 8];
        // SAFETY: each pointer and length are those of one slice; the figures are lent to this call alone.
        unsafe { waits(index.as_ptr(), index.len(), times.as_ptr(), times.len(), &mut figures) };
        Some(waits_of(figures))
    }
}
