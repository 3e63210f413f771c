//! Days as large as the limits allow: the library ends on them, and agrees with the twin in every field and every number of the buffer.

use days::{apart_day, halves_day, lift_day, nested_day, Day, Label};
use roadthrum::Refusal;
use twin::{Page, NO_STEP};

const MOST_LABELS: usize = 1_048_576;
const MOST_NESTED: usize = 64;

/// What the buffers are filled with before a call.
const BLANK: u32 = 0xdead_beef;

/// The two calls for rows, which library and twin both have.
#[derive(Clone, Copy)]
enum Call {
    Answer,
    Evidence,
}

impl Call {
    const BOTH: [Call; 2] = [Call::Answer, Call::Evidence];

    fn of_library(self, index: &[u8], question: &str, place: u32, out: &mut [u32]) -> Page {
        let outcome = match self {
            Call::Answer => roadthrum::answer(index, question.as_bytes(), place, out),
            Call::Evidence => roadthrum::evidence(index, question.as_bytes(), place, out),
        };
        match outcome {
            Ok(page) => {
                let unknown = page.unknown.map_or(NO_STEP, |step| step as u32);
                Page { refusal: 0, rows: page.rows, more: page.more, next: page.next, unknown }
            }
            Err(refusal) => Page { refusal: refusal.number(), rows: 0, more: false, next: 0, unknown: NO_STEP },
        }
    }

    fn of_twin(self, index: &[u8], question: &str, place: u32, out: &mut [u32]) -> Page {
        match self {
            Call::Answer => twin::answer(index, question.as_bytes(), place, out),
            Call::Evidence => twin::evidence(index, question.as_bytes(), place, out),
        }
    }

    /// How many numbers a row has.
    fn width(self, question: &str) -> usize {
        match self {
            Call::Answer => 1,
            Call::Evidence => steps(question),
        }
    }
}

fn number_of(checked: Result<(), Refusal>) -> u32 {
    checked.map_or_else(Refusal::number, |()| 0)
}

/// The number of steps of a question: each begins with `//`, and nothing else in it does.
fn steps(question: &str) -> usize {
    question.matches("//").count()
}

/// The page that both give, and the buffer that both leave. Past the rows it has to be as it was.
fn agreed(call: Call, index: &[u8], question: &str, place: u32, length: usize) -> (Page, Vec<u32>) {
    let (mut one, mut other) = (vec![BLANK; length], vec![BLANK; length]);
    let page = call.of_library(index, question, place, &mut one);
    assert_eq!(page, call.of_twin(index, question, place, &mut other), "{question} from place {place} in a buffer of {length}");
    assert!(one == other, "the buffers differ: {question} from place {place} in a buffer of {length}");
    assert!(one[page.rows * call.width(question)..].iter().all(|number| *number == BLANK));
    (page, one)
}

/// Puts the question in both calls, for all records with ample room and for a page in the middle with little. Gives how many records are
/// returned.
fn put(index: &[u8], question: &str) -> usize {
    let (all, positions) = agreed(Call::Answer, index, question, 0, index.len() / 8);
    assert_eq!((all.refusal, all.more), (0, false), "{question}");
    assert!(all.unknown == NO_STEP || all.rows == 0, "{question}");
    assert!(positions[..all.rows].is_sorted_by(|a, b| a < b), "{question}");
    let width = steps(question);
    let (shown, _) = agreed(Call::Evidence, index, question, 0, (all.rows + 1) * width);
    assert_eq!(shown, all, "{question}");
    // A place that need not be that of a returned record, and room for ten rows and a half.
    for (call, length) in [(Call::Answer, 10), (Call::Evidence, 10 * width + width / 2)] {
        assert_eq!(agreed(call, index, question, all.next / 2, length).0.refusal, 0, "{question}");
    }
    all.rows
}

/// Puts a question with a name that has no row: no record is returned, and every page names the first step that has such a name.
fn put_unknown(index: &[u8], question: &str, step: u32) {
    assert_eq!(put(index, question), 0, "{question}");
    for (call, place) in [(Call::Answer, 0), (Call::Evidence, u32::MAX)] {
        assert_eq!(agreed(call, index, question, place, 100).0.unknown, step, "{question}");
    }
}

/// Pages without room for a row, and pages from a place past the list's end.
fn put_at_the_edges(index: &[u8], question: &str) {
    for call in Call::BOTH {
        let (none, _) = agreed(call, index, question, 1, call.width(question) - 1);
        assert_eq!((none.refusal, none.rows, none.more), (0, 0, true), "{question}");
        let (past, _) = agreed(call, index, question, u32::MAX, 100);
        assert_eq!((past.refusal, past.rows, past.more), (0, 0, false), "{question}");
    }
}

/// The index of a day that both take to be lawful.
fn lawful(day: &Day) -> Vec<u8> {
    let index = day.to_bytes();
    assert_eq!(roadthrum::check(&index), Ok(()));
    assert_eq!(twin::check(&index), 0);
    index
}

/// A step with brackets 8 deep, three times, and then five steps: 32 steps.
fn brackets(tag: &str, inner: &str) -> String {
    let carrying = format!("//{tag}{}//{tag}{}", format!("[//{inner}").repeat(7) + "[", "]".repeat(8));
    carrying.repeat(3) + &format!("//{tag}").repeat(5)
}

#[test]
fn nested_days_of_the_most_labels() {
    for tags in [1, 2, 17, 256] {
        let index = lawful(&nested_day(17, MOST_LABELS, tags, MOST_NESTED));
        let last = format!("t{:03}", tags - 1);
        assert!(put(&index, "//t000") > 0);
        assert!(put(&index, "//t000//t000[//t000]") > 0);
        assert!(put(&index, &format!("//t000[//{last}]//{last}")) > 0);
        let chain = put(&index, &"//t000".repeat(32));
        assert_eq!(chain > 0, tags <= 2);
        put(&index, &format!("//t000//{last}").repeat(16));
        put_unknown(&index, "//t000//t256", 1);
        put_at_the_edges(&index, "//t000//t000");
    }
}

#[test]
fn deep_brackets_of_thirty_two_steps() {
    for (records, tags) in [(100_000, 1), (200_000, 2), (MOST_LABELS, 17), (MOST_LABELS, 256)] {
        let index = lawful(&nested_day(19, records, tags, MOST_NESTED));
        let last = format!("t{:03}", tags - 1);
        for question in [brackets("t000", "t000"), brackets("t000", &last)] {
            assert_eq!(steps(&question), 32);
            put(&index, &question);
        }
    }
}

#[test]
fn lift_days_of_the_most_labels() {
    for (seed, records) in [(1, MOST_LABELS), (2, 77_777)] {
        let index = lawful(&lift_day(seed, records));
        for question in [
            "//call[//cancel]",
            "//call[//cancel]//board",
            "//call//call//call",
            "//call[//call[//cancel]]//board",
            "//stop//door",
            "//trip[//relevel//door][//call]//stop",
        ] {
            assert!(put(&index, question) > 0, "{question}");
        }
        assert_eq!(put(&index, &"//call".repeat(32)), 0);
        put_unknown(&index, "//lobby", 0);
        put_unknown(&index, "//call[//cancle]//bord", 1);
        put_at_the_edges(&index, "//call[//cancel]//board");
    }
}

#[test]
fn looks_near_and_far() {
    let index = lawful(&halves_day(MOST_LABELS));
    assert_eq!(put(&index, &format!("//half{}", "[//t]".repeat(31))), 1);
    assert_eq!(put(&index, "//half//t"), MOST_LABELS / 2);
    for distance in [1, 3, 20, 500, 30_000] {
        let day = apart_day(47, MOST_LABELS, distance);
        let around = day.lists[b"a".as_slice()].len();
        assert_eq!(put(&lawful(&day), "//a[//b]"), around);
        assert_eq!(put(&lawful(&day), "//a[//b]//b"), around);
        assert_eq!(put(&lawful(&day), "//b//a"), 0);
    }
}

#[test]
fn pages_put_together_are_all_records() {
    let index = lawful(&nested_day(23, MOST_LABELS, 2, MOST_NESTED));
    for (call, question, room) in [(Call::Answer, "//t000//t001", 100_000), (Call::Evidence, "//t000[//t001]//t000", 70_001)] {
        let width = call.width(question);
        let (all, whole) = agreed(call, &index, question, 0, MOST_LABELS * width);
        let mut together = Vec::new();
        let mut place = 0;
        loop {
            let (page, rows) = agreed(call, &index, question, place, room * width);
            together.extend_from_slice(&rows[..page.rows * width]);
            if !page.more {
                break;
            }
            assert!(page.next > place);
            place = page.next;
        }
        assert!(together == whole[..all.rows * width]);
    }
}

/// Both refuse the index with the number in the check and in both calls for rows, and leave the buffers as they were.
fn refused(index: &[u8], number: u32) {
    assert_eq!(number_of(roadthrum::check(index)), number);
    assert_eq!(twin::check(index), number);
    // The question is broken too, but the index comes first.
    for question in ["//call//t000", "//t000["] {
        for call in Call::BOTH {
            let (page, _) = agreed(call, index, question, 0, 1000);
            assert_eq!(page, Page { refusal: number, rows: 0, more: false, next: 0, unknown: NO_STEP });
        }
    }
}

/// The same day with free numbers between any two of its own.
fn spread(mut day: Day) -> Day {
    for label in day.lists.values_mut().flatten() {
        *label = (4 * label.0, 4 * label.1);
    }
    day
}

/// The innermost record around a label.
fn around(day: &Day, label: Label) -> Option<Label> {
    let labels = day.lists.values().flatten();
    labels.filter(|outer| outer.0 < label.0 && label.1 < outer.1).max().copied()
}

/// A record in the middle of the longest list that lies inside another: its tag, its position, and the record around it.
fn in_the_middle(day: &Day) -> (Vec<u8>, usize, Label) {
    let (tag, list) = day.lists.iter().max_by_key(|(_, list)| list.len()).expect("a day has lists");
    let found = (list.len() / 2..list.len()).find_map(|position| Some((position, around(day, list[position])?)));
    let (position, outer) = found.expect("a record in the second half lies inside another");
    (tag.clone(), position, outer)
}

/// The index of the day with a change to one list's labels from a position on.
fn changed(day: &Day, tag: &[u8], position: usize, change: impl Fn(&mut [Label])) -> Vec<u8> {
    let mut day = day.clone();
    change(&mut day.lists.get_mut(tag).expect("the tag is the day's")[position..]);
    day.to_bytes()
}

/// Every way to damage a record in the middle of a day with free numbers, or the day's end.
fn damage(day: &Day) {
    let lawful = lawful(day);
    let (tag, position, outer) = in_the_middle(day);
    let damaged = |change: fn(&mut [Label], Label)| changed(day, &tag, position, |labels| change(labels, outer));
    refused(&damaged(|labels, outer| labels[0].1 = outer.1 + 1), 6); // It crosses the record around it.
    refused(&damaged(|labels, outer| labels[0].1 = outer.1), 6); // It shares an end,
    refused(&damaged(|labels, _| labels[0].0 = labels[0].1), 5); // has no length,
    refused(&damaged(|labels, _| labels[0] = (labels[0].1, labels[0].0)), 5); // ends before it starts,
    refused(&damaged(|labels, _| labels.swap(0, 1)), 5); // or stands in the wrong order.
    refused(&lawful[..lawful.len() - 1], 4);
    refused(&[lawful.as_slice(), &[0]].concat(), 4);
}

#[test]
fn damaged_days_are_refused_for_the_same_reason() {
    damage(&spread(lift_day(29, MOST_LABELS)));
    for tags in [1, 2, 17, 256] {
        damage(&spread(nested_day(31, MOST_LABELS, tags, MOST_NESTED)));
    }
}

#[test]
fn a_start_that_two_lists_share() {
    let mut day = spread(nested_day(37, MOST_LABELS - 1, 17, MOST_NESTED));
    let (start, end) = day.lists[b"t008".as_slice()][30_000];
    let other = day.lists.get_mut(b"t009".as_slice()).expect("the day has 17 tags");
    // Shorter than the record with the same start, so that nothing else is wrong with it.
    other.push((start, end - 1));
    other.sort();
    refused(&day.to_bytes(), 6);
}

#[test]
fn sixty_five_deep() {
    for tags in [1, 17, 256] {
        refused(&nested_day(41, MOST_LABELS, tags, MOST_NESTED + 1).to_bytes(), 6);
    }
    // One record more inside the innermost of one chain in the middle.
    let mut day = spread(nested_day(43, MOST_LABELS - MOST_NESTED, 17, MOST_NESTED));
    let chains = MOST_LABELS / MOST_NESTED;
    let before = (chains / 2 * 2 * MOST_NESTED) as u32;
    let innermost = 4 * (before + MOST_NESTED as u32);
    let list = day.lists.get_mut(b"t005".as_slice()).expect("the day has 17 tags");
    list.push((innermost + 1, innermost + 2));
    list.sort();
    refused(&day.to_bytes(), 6);
}
