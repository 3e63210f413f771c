//! All contenders on the same index: that they agree, and how long each takes.

use crate::before::Before;
use crate::contenders::{Call, Contender, Library, Twin};
use crate::timing::{in_turn, Times};
use crate::Failure;
use twin::{Page, Waits};

/// What the buffers are filled with before a call.
const BLANK: u32 = 0xdead_beef;

/// A question's measurement: the number of records returned, and the times of the two calls.
#[derive(Clone, Copy)]
pub struct Asked {
    pub records: usize,
    pub answer: Times,
    pub evidence: Times,
}

/// The library, its twin and, where one is named, the library as it was before.
pub struct Contenders(Vec<Box<dyn Contender>>);

impl Contenders {
    pub fn named() -> Result<Contenders, Failure> {
        let mut contenders: Vec<Box<dyn Contender>> = vec![Box::new(Library), Box::new(Twin)];
        if let Some(before) = Before::named()? {
            contenders.push(Box::new(before));
        }
        Ok(Contenders(contenders))
    }

    /// Whether an earlier library is among them.
    pub fn with_before(&self) -> bool {
        self.0.len() > 2
    }

    /// The times of the check. The index has to be lawful.
    pub fn check(&self, index: &[u8]) -> Result<Times, Failure> {
        if self.0.iter().any(|contender| contender.check(index) != 0) {
            return Err("A lawful day is refused.".into());
        }
        Ok(in_turn(self.0.iter().map(|contender| move || contender.check(index)).collect()))
    }

    /// The times of the answer call and the evidence call.
    pub fn ask(&self, index: &[u8], question: &str) -> Result<Asked, Failure> {
        // No list has more labels than the index has parts of 8 bytes.
        let (records, answer) = self.call(Call::Answer, index, question, index.len() / 8)?;
        let (_, evidence) = self.call(Call::Evidence, index, question, (records + 1) * steps(question))?;
        Ok(Asked { records, answer, evidence })
    }

    /// The waiting table, and the times of the call. An earlier library without such a call takes no part.
    pub fn waits(&self, index: &[u8], times: &[u32]) -> Result<(Waits, Times), Failure> {
        let given: Vec<(&dyn Contender, Waits)> = self.0.iter().filter_map(|one| Some((one.as_ref(), one.waits(index, times)?))).collect();
        let waits = given[0].1;
        if given.iter().any(|(_, other)| *other != waits) {
            return Err("The contenders disagree about a waiting table.".into());
        }
        if waits.refusal != 0 {
            return Err(format!("The times of a waiting table were refused for {}.", waits.refusal));
        }
        Ok((waits, in_turn(given.iter().map(|(contender, _)| move || contender.waits(index, times)).collect())))
    }

    /// The rows that a call gives and its times, in buffers of the given length. The first call of each fills the buffers, which are compared.
    fn call(&self, call: Call, index: &[u8], question: &str, length: usize) -> Result<(usize, Times), Failure> {
        let text = question.as_bytes();
        let mut buffers = vec![vec![BLANK; length]; self.0.len()];
        let each = self.0.iter().zip(&mut buffers);
        let pages: Vec<Page> = each.map(|(contender, out)| contender.rows(call, index, text, out)).collect();
        if pages.iter().any(|page| *page != pages[0]) || buffers.iter().any(|buffer| *buffer != buffers[0]) {
            return Err(format!("The contenders disagree about {question}."));
        }
        if pages[0].refusal != 0 || pages[0].more {
            return Err(format!("The question {question} was refused or did not fit its buffer."));
        }
        let each = self.0.iter().zip(&mut buffers);
        Ok((pages[0].rows, in_turn(each.map(|(contender, out)| move || contender.rows(call, index, text, out)).collect())))
    }
}

/// The number of steps of a question: each begins with `//`, and nothing else in it does.
fn steps(question: &str) -> usize {
    question.matches("//").count()
}
