//! The table of document 01, "A small day", typed from the paper: its rows in its order and in its words, each as one case or several.

use days::{small_day, Day, Label};
use evaluator::NO_STEP;
use std::fmt;

pub struct Case {
    /// The row's left side.
    pub row: &'static str,
    pub index: Vec<u8>,
    pub question: Vec<u8>,
    pub place: u32,
    /// The lengths of the two buffers.
    pub answer_room: usize,
    pub evidence_room: usize,
    pub told: Told,
}

/// The row's right side.
#[derive(Clone, Copy)]
pub enum Told {
    Refused(u32),
    /// Accepted or lawful, and no more is said.
    Accepted,
    /// Positions and rows. Where the row does not say it, whether more remain and the next place follow from the page rule. The first step
    /// whose name has no row is what change request C-16 adds to all of them.
    Gives {
        positions: &'static [u32],
        rows: &'static [&'static [u32]],
        more: bool,
        next: u32,
        unknown: u32,
    },
}

impl Told {
    /// The check knows 1 to 6.
    pub fn by_the_check(self) -> u32 {
        match self {
            Told::Refused(number @ 1..=6) => number,
            _ => 0,
        }
    }

    /// The numbers that the answer call writes, where the row says them.
    pub fn positions(self) -> Vec<u32> {
        match self {
            Told::Gives { positions, .. } => positions.to_vec(),
            _ => Vec::new(),
        }
    }

    /// The numbers that the evidence call writes, where the row says them.
    pub fn numbers_of_rows(self) -> Vec<u32> {
        match self {
            Told::Gives { rows, .. } => rows.concat(),
            _ => Vec::new(),
        }
    }
}

impl fmt::Display for Case {
    fn fmt(&self, f: &mut fmt::Formatter<'_>) -> fmt::Result {
        write!(f, "row \"{}\": question {}, place {}, index {:?}", self.row, self.question.escape_ascii(), self.place, self.index)
    }
}

/// The labels of the small day's lists, which the next place is where no record remains.
const BOARDS: u32 = 2;
const CALLS: u32 = 5;

pub fn table() -> Vec<Case> {
    let mut cases = questions_to_the_small_day();
    cases.extend(pages_of_the_small_day());
    cases.extend(indexes());
    cases.extend(questions());
    cases.extend(what_comes_first());
    cases
}

fn questions_to_the_small_day() -> Vec<Case> {
    let ask = |question, positions, rows, next| Case::new(question, &small_day(), question, gives(positions, rows, false, next));
    vec![
        ask("//call[//cancel]//board", &[0], &[&[0, 0, 0]], BOARDS),
        ask("//call[//board]", &[0, 1, 2, 3], &[&[0, 0], &[1, 0], &[2, 0], &[3, 1]], CALLS),
        ask("//call[//cancel]", &[0, 1], &[&[0, 0], &[1, 1]], CALLS),
        ask("//call//call//call", &[2], &[&[0, 1, 2]], CALLS),
        ask("//call//cancel//board", &[], &[], BOARDS),
        ask("//call[//cancel][//cancel]", &[0, 1], &[&[0, 0, 0], &[1, 1, 1]], CALLS),
        ask("//call[//call[//cancel]]//board", &[0], &[&[0, 1, 1, 0]], BOARDS),
        Case::new("//lobby", &small_day(), "//lobby", gives_nothing(0, 0)),
    ]
}

/// Rows of `//call[//board]` have two numbers; a buffer for the evidence with one number more has no more room.
fn pages_of_the_small_day() -> Vec<Case> {
    let page = |row, place, room: usize, told| {
        let whole = Case::new(row, &small_day(), "//call[//board]", told);
        Case { place, answer_room: room, evidence_room: 2 * room + 1, ..whole }
    };
    vec![
        page("//call[//board], place 2, answer room 1", 2, 1, gives(&[2], &[&[2, 0]], true, 3)),
        page("the same, place 3, room 0", 3, 0, gives(&[], &[], true, 3)),
        page("the same, place 9", 9, 100, gives(&[], &[], false, 5)),
    ]
}

fn indexes() -> Vec<Case> {
    let (short, labels, deep) =
        ("bytes 0 0 2 0; bytes 1 0 1 0; 3 bytes", "a label 4:4; labels 1:5 with 3:8; 1:5 with 5:8", "64 nested; 65 nested");
    let bytes = |row, index: &[u8], told| Case { index: index.to_vec(), ..Case::new(row, &Day::new(), "//call", told) };
    let lists = |row, calls: &[Label], cancels: &[Label], told| {
        let mut day = Day::new();
        calls.iter().for_each(|label| day.push("call", *label));
        cancels.iter().for_each(|label| day.push("cancel", *label));
        Case::new(row, &day, "//call", told)
    };
    vec![
        bytes("bytes 0 0 1 0 as index", &[0, 0, 1, 0], gives_nothing(0, 0)),
        bytes(short, &[0, 0, 2, 0], Told::Refused(2)),
        bytes(short, &[1, 0, 1, 0], Told::Refused(3)),
        bytes(short, &[0, 0, 1], Told::Refused(1)),
        bytes(short, &[9, 9, 9], Told::Refused(1)),
        lists(labels, &[(4, 4)], &[], Told::Refused(5)),
        // In one list, and in two.
        lists(labels, &[(1, 5), (3, 8)], &[], Told::Refused(6)),
        lists(labels, &[(1, 5)], &[(3, 8)], Told::Refused(6)),
        lists(labels, &[(1, 5), (5, 8)], &[], Told::Refused(6)),
        lists(labels, &[(1, 5)], &[(5, 8)], Told::Refused(6)),
        lists(deep, &nested(64), &[], Told::Accepted),
        lists(deep, &nested(65), &[], Told::Refused(6)),
        // The outermost and the innermost in another list.
        lists(deep, &nested(65)[1..64], &[(0, 1_000)], Told::Accepted),
        lists(deep, &nested(65)[1..], &[(0, 1_000)], Told::Refused(6)),
        lists(deep, &nested(65)[..64], &nested(65)[64..], Told::Refused(6)),
    ]
}

/// What is accepted is put to a day in which there is something to find.
fn questions() -> Vec<Case> {
    let (broken, names, limits) = ("empty text, /call, //call[], //call], //1a", "name of 16; of 17", "32 steps, 33; 8 deep, 9 deep");
    let refused = |row, question: &str, number| Case::new(row, &small_day(), question, Told::Refused(number));
    let mut cases: Vec<Case> = ["", "/call", "//call[]", "//call]", "//1a"].map(|text| refused(broken, text, 8)).into();

    let (sixteen, seventeen) = ("abcdefghijklmnop", "abcdefghijklmnopq");
    let mut named = Day::new();
    named.push(sixteen, (1, 2));
    cases.push(Case::new(names, &named, &format!("//{sixteen}"), Told::Accepted));
    cases.push(Case::new(names, &named, &format!("//{seventeen}"), Told::Refused(8)));
    cases.push(Case::new(names, &named, &format!("//{sixteen}[//{seventeen}]"), Told::Refused(8)));

    let mut stairs = Day::new();
    (0..33).for_each(|tag| stairs.push(&stair(tag), (tag, 100 - tag)));
    cases.push(Case::new(limits, &stairs, &chain(32), Told::Accepted));
    cases.push(Case::new(limits, &stairs, &chain(33), Told::Refused(9)));
    cases.push(Case::new(limits, &stairs, &inside_each_other(8), Told::Accepted));
    cases.push(Case::new(limits, &stairs, &inside_each_other(9), Told::Refused(9)));
    // The same where nothing can be found, and where the last step stands in a bracket.
    cases.push(refused(limits, &chain(33), 9));
    cases.push(refused(limits, &inside_each_other(9), 9));
    cases.push(Case::new(limits, &stairs, &format!("{}[//{}]", chain(31), stair(31)), Told::Accepted));
    cases.push(Case::new(limits, &stairs, &format!("{}[//{}]", chain(32), stair(32)), Told::Refused(9)));
    cases
}

fn what_comes_first() -> Vec<Case> {
    let (long, first) = ("1,025 bytes of anything, lawful index", "broken index and broken question");
    let mut cases = Vec::new();
    for day in [small_day(), Day::new()] {
        let slashes = "/".repeat(1_025);
        let zeros = "\0".repeat(1_025);
        let ends_in_a_slash = "//a".repeat(342)[..1_025].to_string();
        // This one follows the notation, with too many steps.
        let follows = "//abc".repeat(205);
        cases.extend([slashes, zeros, ends_in_a_slash, follows].map(|text| Case::new(long, &day, &text, Told::Refused(7))));
    }
    let mut level = Day::new();
    level.push("call", (4, 4));
    let mut deep = Day::new();
    nested(65).into_iter().for_each(|label| deep.push("call", label));
    let indexes = [
        (vec![0, 0, 1], 1),
        (vec![0, 0, 2, 0], 2),
        (vec![1, 0, 1, 0], 3),
        (vec![0, 0, 1, 0, 0], 4),
        (level.to_bytes(), 5),
        (deep.to_bytes(), 6),
    ];
    for (index, number) in indexes {
        for question in ["/call".to_string(), "//a".repeat(33), "/".repeat(1_025)] {
            cases.push(Case { index: index.clone(), ..Case::new(first, &Day::new(), &question, Told::Refused(number)) });
        }
    }
    cases
}

/// Change request C-16, typed from its words: the first step whose name has no row, or 32; a row with number 0 is one.
pub fn unknown_names() -> Vec<Case> {
    let mut with_alarms = small_day();
    with_alarms.lists.insert(b"alarm".to_vec(), Vec::new());
    let ask = |question, next, unknown| Case::new("C-16", &with_alarms, question, gives_nothing(next, unknown));
    vec![
        ask("//cancle", 0, 0),
        ask("//call//cancle", 0, 1),
        ask("//call[//cancle]", CALLS, 1),
        ask("//call[//call[//cancle]]//board", BOARDS, 2),
        ask("//call[//cancel]//bord", 0, 2),
        // The first of several.
        ask("//call[//cancle]//bord", 0, 1),
        ask("//lobby//call[//cancle]", CALLS, 0),
        // Rows with number 0, alone and before an unknown name.
        ask("//alarm", 0, 32),
        ask("//call[//alarm]", CALLS, 32),
        ask("//call[//alarm]//cancle", 0, 2),
        // No records, though every name is known.
        ask("//cancel//board", BOARDS, 32),
        Case::new("C-16", &with_alarms, "//cancle[", Told::Refused(8)),
    ]
}

impl Case {
    /// Place 0 and ample room: 100 rows of 32 steps.
    fn new(row: &'static str, day: &Day, question: &str, told: Told) -> Case {
        let question = question.as_bytes().to_vec();
        Case { row, index: day.to_bytes(), question, place: 0, answer_room: 100, evidence_room: 3_200, told }
    }
}

/// What is given where each name has a row.
fn gives(positions: &'static [u32], rows: &'static [&'static [u32]], more: bool, next: u32) -> Told {
    Told::Gives { positions, rows, more, next, unknown: NO_STEP }
}

/// What is given where there are no records, with the first unknown step.
fn gives_nothing(next: u32, unknown: u32) -> Told {
    Told::Gives { positions: &[], rows: &[], more: false, next, unknown }
}

/// So many labels, each but the first inside the one before.
fn nested(labels: u32) -> Vec<Label> {
    (0..labels).map(|label| (label, 1_000 - label)).collect()
}

/// The name of the tag whose one record lies inside those of the tags with lower numbers.
fn stair(tag: u32) -> String {
    format!("t{tag:02}")
}

/// So many steps, one below the other.
fn chain(steps: u32) -> String {
    (0..steps).map(|tag| format!("//{}", stair(tag))).collect()
}

/// A step inside so many brackets.
fn inside_each_other(depth: u32) -> String {
    let outer: String = (0..depth).map(|tag| format!("//{}[", stair(tag))).collect();
    outer + "//" + &stair(depth) + &"]".repeat(depth as usize)
}
