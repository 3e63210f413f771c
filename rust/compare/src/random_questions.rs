//! Questions that follow the notation.

use crate::damaged_name::damaged_name;
use days::Seeded;

/// What a random question is like.
pub struct Form<'a> {
    /// So many steps at most.
    pub steps: usize,
    /// So often, out of 8 times, a step carries one bracket more.
    pub brackets: usize,
    /// Brackets are so deep at most.
    pub deepest: usize,
    pub names: &'a [String],
    /// So often, out of 8 times, a step's name is a damaged one.
    pub damaged: usize,
    /// Whether each name stands later among the names than that of the step it hangs from, as in a day whose tags follow from depth.
    pub downwards: bool,
}

/// A question of this form.
pub fn random_question(random: &mut Seeded, form: &Form) -> Vec<u8> {
    let mut writing = Writing { form, left: form.steps, text: Vec::new() };
    writing.path(random, 0, 0);
    writing.text
}

/// A question as far as it is written.
struct Writing<'a> {
    form: &'a Form<'a>,
    /// So many steps may follow.
    left: usize,
    text: Vec<u8>,
}

impl Writing<'_> {
    /// Writes a path of one or more steps, inside so many brackets, with the first of the names to choose from.
    fn path(&mut self, random: &mut Seeded, depth: usize, mut first_name: usize) {
        loop {
            first_name = self.step(random, depth, first_name);
            let ends = if depth == 0 { random.chance(1, self.form.steps.max(4)) } else { random.chance(2, 5) };
            if ends || !self.may_go_on(first_name) {
                return;
            }
        }
    }

    /// Writes a step and gives the first of the names for those that hang from it.
    fn step(&mut self, random: &mut Seeded, depth: usize, first_name: usize) -> usize {
        let Form { names, damaged, downwards, brackets, deepest, .. } = self.form;
        let choice = names.len() - first_name;
        let name = first_name + random.below(if *downwards { choice.min(2) } else { choice });
        let first_below = if *downwards { name + 1 } else { 0 };
        self.text.extend(b"//");
        if random.chance(*damaged, 8) {
            self.text.extend(damaged_name(random, &names[name]));
        } else {
            self.text.extend(names[name].bytes());
        }
        self.left -= 1;
        while depth < *deepest && self.may_go_on(first_below) && random.chance(*brackets, 8) {
            self.text.push(b'[');
            self.path(random, depth + 1, first_below);
            self.text.push(b']');
        }
        first_below
    }

    fn may_go_on(&self, first_name: usize) -> bool {
        self.left > 0 && first_name < self.form.names.len()
    }
}
