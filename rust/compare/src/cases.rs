//! What one seed gives: an index, a question and where and how much to read.

use crate::damaged_index::damage_index;
use crate::damaged_question::damage_question;
use crate::random_days::{random_day, Shape, NAMES};
use crate::random_questions::{random_question, Form};
use days::Seeded;
use std::fmt;

pub struct Case {
    pub index: Vec<u8>,
    pub question: Vec<u8>,
    pub place: u32,
    /// The length of the buffer for the answer call.
    pub answer_room: usize,
    /// The length of the buffer for the evidence call, which need not be a whole number of rows.
    pub evidence_room: usize,
    /// How many records there were before any damage.
    records: usize,
}

/// A small case: a day of few records, seldom a deep one or one of many tags; a question of few steps, seldom of many; both sometimes
/// damaged.
pub fn small_case(seed: u64) -> Case {
    let random = &mut Seeded::new(seed);
    let (shape, mut question) = if random.chance(1, 16) {
        let shape = one_record_of_each_tag();
        let (steps, damaged) = (6 + random.below(27), any_damage(random));
        let form = Form { steps, brackets: 6, deepest: 8, names: &shape.names, damaged, downwards: true };
        let question = random_question(random, &form);
        (shape, question)
    } else {
        let shape = small_shape(random);
        let question = small_question(random, &shape.names);
        (shape, question)
    };
    let mut index = random_day(random, &shape).to_bytes();
    let (index_damages, question_damages) = *random.pick(&[(0, 0), (0, 0), (0, 0), (0, 0), (0, 0), (1, 0), (1, 0), (2, 0), (0, 1), (1, 1)]);
    for _ in 0..index_damages {
        damage_index(random, &mut index);
    }
    for _ in 0..question_damages {
        damage_question(random, &mut question);
    }
    Case::new(random, index, question, shape.records)
}

/// A lawful day of up to 5,000 records and a question that is accepted.
pub fn large_case(seed: u64) -> Case {
    let random = &mut Seeded::new(seed);
    let shape = large_shape(random);
    let index = random_day(random, &shape).to_bytes();
    let steps = if random.chance(1, 8) { 32 } else { 1 + random.below(6) };
    let (brackets, damaged) = (random.below(6), any_damage(random));
    let form = Form { steps, brackets, deepest: 8, names: &shape.names, damaged, downwards: shape.tag_by_depth };
    let question = random_question(random, &form);
    Case::new(random, index, question, shape.records)
}

impl Case {
    fn new(random: &mut Seeded, index: Vec<u8>, question: Vec<u8>, records: usize) -> Case {
        let mut case = Case { index, question, place: 0, answer_room: 0, evidence_room: 0, records };
        case.choose_page(random);
        case
    }

    /// Chooses a page that is likely to begin and to end among the records.
    pub fn choose_page(&mut self, random: &mut Seeded) {
        let most_steps = (self.question.iter().filter(|byte| **byte == b'/').count() / 2).clamp(1, 40);
        self.place = match random.below(16) {
            0 => random.number() as u32,
            1 => u32::MAX,
            2..=8 => 0,
            _ => random.below(self.records + 2) as u32,
        };
        let rows = if random.chance(1, 2) { 3 } else { self.records + 2 };
        self.answer_room = random.below(rows);
        self.evidence_room = random.below(rows * most_steps);
    }
}

fn small_shape(random: &mut Seeded) -> Shape {
    // Few tags and much nesting, so that there is something to find.
    let tags = 1 + random.below(4).min(random.below(4));
    let mut shape = Shape {
        records: random.below(13).max(random.below(13)),
        names: any_names(random, tags),
        deepest: 1 + random.below(12).max(random.below(12)),
        opening: 3 + random.below(5),
        tag_by_depth: random.chance(1, 4),
    };
    if random.chance(1, 32) {
        shape.records = 60 + random.below(12);
        shape.deepest = 63 + random.below(3);
        shape.opening = 8;
    }
    if random.chance(1, 256) {
        shape.names = (0..254 + random.below(5)).map(|tag| format!("tag{tag}")).collect();
    }
    shape
}

/// Nearly one record of each tag, each inside the one before: a day in which a question of many steps has few picks.
fn one_record_of_each_tag() -> Shape {
    let names: Vec<String> = NAMES.iter().map(|name| name.to_string()).collect();
    Shape { records: names.len(), deepest: names.len(), names, opening: 8, tag_by_depth: true }
}

fn large_shape(random: &mut Seeded) -> Shape {
    let records = *random.pick(&[50, 200, 1_000, 5_000]);
    let tags = 1 + random.below(6);
    Shape {
        records: if random.chance(1, 4) { records } else { records / 4 + random.below(3 * records / 4) },
        names: any_names(random, tags),
        // Flat, as in a day of lifts, or nested as deep as can be.
        deepest: *random.pick(&[1, 2, 3, 5, 8, 64]),
        opening: 2 + random.below(6),
        tag_by_depth: random.chance(1, 2),
    }
}

fn any_names(random: &mut Seeded, count: usize) -> Vec<String> {
    let first = random.below(NAMES.len());
    (0..count).map(|name| NAMES[(first + name) % NAMES.len()].to_string()).collect()
}

/// How often, out of 8 times, a name of a question is damaged. In most questions none is, so that there is something to find.
fn any_damage(random: &mut Seeded) -> usize {
    if random.chance(1, 8) {
        1 + random.below(4)
    } else {
        0
    }
}

fn small_question(random: &mut Seeded, tags: &[String]) -> Vec<u8> {
    let mut names = tags.to_vec();
    if random.chance(1, 8) {
        // Likely a name without a row, perhaps one that begins like a row's.
        names.push(random.pick(&NAMES).to_string());
    }
    let few = 1 + random.below(5);
    let (steps, brackets, deepest) = match random.below(16) {
        0 => (28 + random.below(8), random.below(7), 9),
        1 => (8 + random.below(4), 7, 10),
        _ => (few, random.below(7), 5),
    };
    let form = Form { steps, brackets, deepest, names: &names, damaged: any_damage(random), downwards: false };
    random_question(random, &form)
}

impl fmt::Display for Case {
    /// All that is needed to put the case again.
    fn fmt(&self, f: &mut fmt::Formatter<'_>) -> fmt::Result {
        writeln!(f, "question: {}", self.question.escape_ascii())?;
        writeln!(f, "place: {}, answer room: {}, evidence room: {}", self.place, self.answer_room, self.evidence_room)?;
        write!(f, "index of {} bytes: ", self.index.len())?;
        self.index.iter().try_for_each(|byte| write!(f, "{byte:02x}"))
    }
}
