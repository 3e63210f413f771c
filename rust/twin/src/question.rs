//! The reading of a question: refusals 7 to 9.

use crate::name;

const MOST_BYTES: usize = 1024;
const MOST_STEPS: usize = 32;
const MOST_DEPTH: usize = 8;

/// A step: its name, and the number of the step that it hangs from.
pub struct Step<'a> {
    pub name: &'a [u8],
    pub hangs: Option<usize>,
}

/// A question that was read.
pub struct Question<'a> {
    pub steps: Vec<Step<'a>>,
    /// The number of the step that is returned.
    pub returned: usize,
}

/// Reads a question, or gives the number for which it is refused.
pub fn read(text: &[u8]) -> Result<Question<'_>, u32> {
    if text.len() > MOST_BYTES {
        return Err(7);
    }
    let mut reader = Reader { rest: text, steps: Vec::with_capacity(MOST_STEPS), deepest: 0 };
    let returned = reader.path(None, 0).filter(|_| reader.rest.is_empty()).ok_or(8u32)?;
    if reader.steps.len() > MOST_STEPS || reader.deepest > MOST_DEPTH {
        return Err(9);
    }
    Ok(Question { steps: reader.steps, returned })
}

/// How far the reading has come. It goes on past the limits, since a text that breaks the notation further on is refused for that.
struct Reader<'a> {
    rest: &'a [u8],
    steps: Vec<Step<'a>>,
    /// How many brackets stand around the deepest step.
    deepest: usize,
}

impl<'a> Reader<'a> {
    /// Reads a path in `depth` brackets up to the text's end or a `]`, and gives its last step. Nothing if no path stands here.
    fn path(&mut self, hangs: Option<usize>, depth: usize) -> Option<usize> {
        let mut last = self.step(hangs, depth)?;
        loop {
            match self.rest {
                [] | [b']', ..] => return Some(last),
                [b'[', inner @ ..] => {
                    self.rest = inner;
                    self.path(Some(last), depth + 1)?;
                    self.rest = self.rest.strip_prefix(b"]")?;
                }
                _ => last = self.step(Some(last), depth)?,
            }
        }
    }

    /// Reads the step that must stand here, and gives its number.
    fn step(&mut self, hangs: Option<usize>, depth: usize) -> Option<usize> {
        let after = self.rest.strip_prefix(b"//")?;
        let (name, rest) = after.split_at(name::run(after));
        if name.is_empty() || name.len() > name::MOST_BYTES {
            return None;
        }
        self.rest = rest;
        self.steps.push(Step { name, hangs });
        self.deepest = self.deepest.max(depth);
        Some(self.steps.len() - 1)
    }
}
