//! The question and the refusals 7 to 9.

use crate::name::{is_name, may_follow};

const LONGEST_TEXT: usize = 1_024;
const MOST_STEPS: usize = 32;
const DEEPEST_BRACKETS: usize = 8;

pub struct Step {
    pub name: Vec<u8>,
    /// The number of the step that this one hangs from. The first step of the whole text hangs from nothing.
    pub hangs_from: Option<usize>,
}

/// A question that is accepted. Steps are numbered from 0 in text order.
pub struct Question {
    pub steps: Vec<Step>,
    /// The number of the last step outside all brackets.
    pub returned: usize,
}

impl Question {
    /// The question, or the first refusal of the table that applies to it.
    pub fn read(text: &[u8]) -> Result<Question, u32> {
        if text.len() > LONGEST_TEXT {
            return Err(7);
        }
        let mut reading = Reading { steps: Vec::new(), deepest: 0 };
        let Some((returned, [])) = reading.path(text, None, 0) else {
            return Err(8);
        };
        if reading.steps.len() > MOST_STEPS || reading.deepest > DEEPEST_BRACKETS {
            return Err(9);
        }
        Ok(Question { steps: reading.steps, returned })
    }
}

/// What has been read so far: the steps in text order, and how deep the deepest bracket is.
struct Reading {
    steps: Vec<Step>,
    deepest: usize,
}

/// The number of a path's last step or of the step just read, and the text after it. Nothing where the notation is not followed.
type Read<'a> = Option<(usize, &'a [u8])>;

impl Reading {
    /// A path is one or more steps. Its first hangs from the given step, any other from the step before it.
    fn path<'a>(&mut self, text: &'a [u8], hangs_from: Option<usize>, depth: usize) -> Read<'a> {
        let (step, rest) = self.step(text, hangs_from, depth)?;
        if rest.starts_with(b"/") {
            self.path(rest, Some(step), depth)
        } else {
            Some((step, rest))
        }
    }

    /// A step is `//`, a name, then any number of brackets.
    fn step<'a>(&mut self, text: &'a [u8], hangs_from: Option<usize>, depth: usize) -> Read<'a> {
        let (name, mut rest) = split_after_name(text.strip_prefix(b"//")?);
        if !is_name(name) {
            return None;
        }
        let step = self.steps.len();
        self.steps.push(Step { name: name.to_vec(), hangs_from });
        while rest.starts_with(b"[") {
            rest = self.bracket(rest, step, depth + 1)?;
        }
        Some((step, rest))
    }

    /// A bracket is `[`, a path, `]`. Its first step hangs from the step that carries it. Gives the text after it.
    fn bracket<'a>(&mut self, text: &'a [u8], carrier: usize, depth: usize) -> Option<&'a [u8]> {
        self.deepest = self.deepest.max(depth);
        let (_, rest) = self.path(text.strip_prefix(b"[")?, Some(carrier), depth)?;
        rest.strip_prefix(b"]")
    }
}

/// The characters of a name, as many as there are, and the rest. No character of a name can follow a name, so that a name does not end
/// before they do.
fn split_after_name(text: &[u8]) -> (&[u8], &[u8]) {
    let length = text.iter().take_while(|character| may_follow(**character)).count();
    text.split_at(length)
}
