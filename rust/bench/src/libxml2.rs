//! libxml2 where it is installed, found when the program runs.

use crate::loaded::Loaded;
use std::ffi::{c_char, c_int, c_void, CStr, CString};
use std::ptr::{null, NonNull};

/// Take away the limits that guard against hostile texts.
const XML_PARSE_HUGE: c_int = 1 << 19;

/// The type of an XPath result that is a set of nodes.
const XPATH_NODESET: c_int = 1;

type Any = *mut c_void;
type ReadMemory = unsafe extern "C" fn(*const c_char, c_int, *const c_char, *const c_char, c_int) -> Any;
type NewContext = unsafe extern "C" fn(Any) -> Any;
type Compile = unsafe extern "C" fn(*const c_char) -> Any;
type CompiledEval = unsafe extern "C" fn(Any, Any) -> *mut Object;
type FreeObject = unsafe extern "C" fn(*mut Object);

/// The beginning of an `xmlXPathObject`.
#[repr(C)]
struct Object {
    kind: c_int,
    nodes: *const NodeSet,
}

/// The beginning of an `xmlNodeSet`.
#[repr(C)]
struct NodeSet {
    number: c_int,
}

pub struct Library {
    read_memory: ReadMemory,
    new_context: NewContext,
    compile: Compile,
    compiled_eval: CompiledEval,
    free_object: FreeObject,
    version: String,
}

/// A compiled question and the tree that it is put to. Both are left to the end of the process, which is made for one question.
pub struct Prepared<'a> {
    library: &'a Library,
    context: NonNull<c_void>,
    question: NonNull<c_void>,
}

impl Library {
    /// The library, or nothing if it is not installed.
    pub fn load() -> Option<Library> {
        // SAFETY: libxml2 does nothing on being loaded that disturbs this program.
        let library = unsafe { Loaded::open(c"libxml2.so.2") }?;
        let symbol = |name: &CStr| library.symbol(name);
        // SAFETY: these are libxml2's functions, and the types are those that its headers declare for them, with pointers to things that
        // are only handed back to libxml2 as pointers to anything. `xmlParserVersion` is a pointer to characters that end with a zero byte.
        unsafe {
            Some(Library {
                read_memory: std::mem::transmute::<NonNull<c_void>, ReadMemory>(symbol(c"xmlReadMemory")?),
                new_context: std::mem::transmute::<NonNull<c_void>, NewContext>(symbol(c"xmlXPathNewContext")?),
                compile: std::mem::transmute::<NonNull<c_void>, Compile>(symbol(c"xmlXPathCompile")?),
                compiled_eval: std::mem::transmute::<NonNull<c_void>, CompiledEval>(symbol(c"xmlXPathCompiledEval")?),
                free_object: std::mem::transmute::<NonNull<c_void>, FreeObject>(symbol(c"xmlXPathFreeObject")?),
                version: dotted(CStr::from_ptr(symbol(c"xmlParserVersion")?.cast::<*const c_char>().read())),
            })
        }
    }

    pub fn version(&self) -> &str {
        &self.version
    }

    /// Reads the tree and compiles the question. Nothing if libxml2 takes one of them to be wrong.
    pub fn prepare(&self, xml: &str, question: &str) -> Option<Prepared<'_>> {
        let length = c_int::try_from(xml.len()).ok()?;
        let question = CString::new(question).ok()?;
        // SAFETY: the text has the length that is said, and the question ends with a zero byte; libxml2 keeps pointers to neither. The
        // context is made for a document that is not null and that is never freed.
        unsafe {
            let document = NonNull::new((self.read_memory)(xml.as_ptr().cast(), length, null(), null(), XML_PARSE_HUGE))?;
            let context = NonNull::new((self.new_context)(document.as_ptr()))?;
            let question = NonNull::new((self.compile)(question.as_ptr()))?;
            Some(Prepared { library: self, context, question })
        }
    }
}

impl Prepared<'_> {
    /// Puts the question to the tree, and gives the number of nodes found; nothing if libxml2 gives no set of nodes.
    pub fn count(&self) -> Option<usize> {
        // SAFETY: question and context were made by libxml2 and live. The result is null or an object, which is freed once and not used
        // after that; a set of nodes may be null if it is empty.
        unsafe {
            let object = NonNull::new((self.library.compiled_eval)(self.question.as_ptr(), self.context.as_ptr()))?;
            let Object { kind, nodes } = object.read();
            let number = if kind == XPATH_NODESET { Some(nodes.as_ref().map_or(0, |nodes| nodes.number)) } else { None };
            (self.library.free_object)(object.as_ptr());
            number.and_then(|number| usize::try_from(number).ok())
        }
    }
}

/// libxml2 says 20914 where it means 2.9.14.
fn dotted(version: &CStr) -> String {
    let text = version.to_string_lossy();
    match text.split(|c: char| !c.is_ascii_digit()).next().and_then(|digits| digits.parse::<u32>().ok()) {
        Some(number) => format!("{}.{}.{}", number / 10_000, number / 100 % 100, number % 100),
        None => text.into_owned(),
    }
}
