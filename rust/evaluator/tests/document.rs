//! The table of document 01, row by row, by both evaluators. What is expected is typed from the document.

mod days;

use days::{day, small_day};
use evaluator::{check, printed, Asked, Outcome, Way, NO_STEP};

const WAYS: [Way; 2] = [Way::AllPicks, Way::Sets];

/// The refusal of an index with a question, or 0.
fn refusal(index: &[u8], question: &str) -> u32 {
    Asked::read(index, question.as_bytes()).err().unwrap_or(0)
}

/// So many calls, each inside the one before.
fn nested(calls: u32) -> Vec<u8> {
    let labels: Vec<(u32, u32)> = (0..calls).map(|call| (call, 1_000 - call)).collect();
    day(&[("call", &labels)])
}

/// Whether, in the small day, the question gives these rows and no further record, in either way, and each of its names has a row.
fn gives(question: &str, positions: &[u32], rows: &[&[u32]], labels: u32) {
    gives_and_tells(question, positions, rows, labels, NO_STEP);
}

/// The same, with the first step whose name has no row.
fn gives_and_tells(question: &str, positions: &[u32], rows: &[&[u32]], labels: u32, unknown: u32) {
    let asked = Asked::read(&small_day(), question.as_bytes()).unwrap();
    for way in WAYS {
        let found = asked.found(way);
        let mut buffer = vec![77; 100];
        let outcome = Outcome { refusal: 0, rows: rows.len(), more: false, next: labels, unknown };
        assert_eq!(found.answer(0, &mut buffer), outcome, "{question}");
        assert_eq!(buffer[..positions.len()], *positions, "{question}");
        assert!(buffer[positions.len()..].iter().all(|number| *number == 77), "{question}");
        assert_eq!(found.evidence(0, &mut buffer), outcome, "{question}");
        let numbers = rows.concat();
        assert_eq!(buffer[..numbers.len()], numbers, "{question}");
        assert!(buffer[numbers.len().max(positions.len())..].iter().all(|number| *number == 77), "{question}");
    }
}

#[test]
fn the_small_day_has_the_length_of_the_document() {
    let index = small_day();
    assert_eq!(index.len(), 148);
    let offsets: Vec<u8> = (0..3).map(|row| index[4 + 24 * row + 16]).collect();
    assert_eq!(offsets, [76, 92, 132]);
    assert_eq!(check(&index), 0);
}

#[test]
fn questions_to_the_small_day() {
    gives("//call[//cancel]//board", &[0], &[&[0, 0, 0]], 2);
    gives("//call[//board]", &[0, 1, 2, 3], &[&[0, 0], &[1, 0], &[2, 0], &[3, 1]], 5);
    gives("//call[//cancel]", &[0, 1], &[&[0, 0], &[1, 1]], 5);
    gives("//call//call//call", &[2], &[&[0, 1, 2]], 5);
    gives("//call//cancel//board", &[], &[], 2);
    gives("//call[//cancel][//cancel]", &[0, 1], &[&[0, 0, 0], &[1, 1, 1]], 5);
    gives("//call[//call[//cancel]]//board", &[0], &[&[0, 1, 1, 0]], 2);
    gives_and_tells("//lobby", &[], &[], 0, 0);
}

#[test]
fn pages_of_the_small_day() {
    let asked = Asked::read(&small_day(), b"//call[//board]").unwrap();
    for way in WAYS {
        let found = asked.found(way);
        let mut buffer = [77];
        assert_eq!(found.answer(2, &mut buffer), Outcome { refusal: 0, rows: 1, more: true, next: 3, unknown: NO_STEP });
        assert_eq!(buffer, [2]);
        assert_eq!(found.answer(3, &mut []), Outcome { refusal: 0, rows: 0, more: true, next: 3, unknown: NO_STEP });
        let mut buffer = [77; 9];
        assert_eq!(found.answer(9, &mut buffer), Outcome { refusal: 0, rows: 0, more: false, next: 5, unknown: NO_STEP });
        assert_eq!(buffer, [77; 9]);
    }
}

#[test]
fn evidence_needs_room_for_whole_rows() {
    let asked = Asked::read(&small_day(), b"//call[//board]").unwrap();
    for way in WAYS {
        let mut buffer = [77; 5];
        assert_eq!(asked.found(way).evidence(1, &mut buffer), Outcome { refusal: 0, rows: 2, more: true, next: 3, unknown: NO_STEP });
        assert_eq!(buffer, [1, 0, 2, 0, 77]);
    }
}

#[test]
fn indexes_without_records() {
    assert_eq!(check(&[0, 0, 1, 0]), 0);
    let asked = Asked::read(&[0, 0, 1, 0], b"//call").unwrap();
    for way in WAYS {
        assert_eq!(asked.found(way).answer(0, &mut [77]), Outcome { refusal: 0, rows: 0, more: false, next: 0, unknown: 0 });
    }
    assert_eq!(check(&[0, 0, 2, 0]), 2);
    assert_eq!(check(&[1, 0, 1, 0]), 3);
    assert_eq!(check(&[0, 0, 1]), 1);
}

#[test]
fn labels() {
    assert_eq!(check(&day(&[("call", &[(4, 4)])])), 5);
    assert_eq!(check(&day(&[("call", &[(1, 5), (3, 8)])])), 6);
    assert_eq!(check(&day(&[("call", &[(1, 5), (5, 8)])])), 6);
    assert_eq!(check(&nested(64)), 0);
    assert_eq!(check(&nested(65)), 6);
}

#[test]
fn texts_that_do_not_follow_the_notation() {
    for text in ["", "/call", "//call[]", "//call]", "//1a", "//call ", "//call\n", "//call[//board", "//call/board", "//call[board]", "//"]
    {
        assert_eq!(refusal(&small_day(), text), 8, "{text}");
    }
}

#[test]
fn limits_of_a_question() {
    let of_name = |length: usize| format!("//{}", "a".repeat(length));
    assert_eq!(refusal(&small_day(), &of_name(16)), 0);
    assert_eq!(refusal(&small_day(), &of_name(17)), 8);

    assert_eq!(refusal(&small_day(), &"//a".repeat(32)), 0);
    assert_eq!(refusal(&small_day(), &"//a".repeat(33)), 9);
    assert_eq!(refusal(&small_day(), &("//a".repeat(33) + "/")), 8);

    let deep = |depth: usize| "//a[".repeat(depth) + "//a" + &"]".repeat(depth);
    assert_eq!(refusal(&small_day(), &deep(8)), 0);
    assert_eq!(refusal(&small_day(), &deep(9)), 9);

    assert_eq!(refusal(&small_day(), &"/".repeat(1_024)), 8);
    assert_eq!(refusal(&small_day(), &"/".repeat(1_025)), 7);
    assert_eq!(refusal(&small_day(), &"//a".repeat(342)), 7);
}

#[test]
fn the_number_of_the_index_comes_first() {
    for question in ["//call", "//call[]", &"//a".repeat(342)] {
        assert_eq!(refusal(&[0, 0, 2, 0], question), 2);
        assert_eq!(refusal(&nested(65), question), 6);
    }
}

#[test]
fn what_the_program_prints() {
    for way in WAYS {
        let text = printed(way, &small_day(), b"//call[//board]");
        assert_eq!(text, "1:20 8:9\n4:15 8:9\n7:12 8:9\n21:26 22:23\ndone 4\n");
        assert_eq!(printed(way, &small_day(), b"//call[//board]\n"), "refused 8\n");
    }
}
