//! Change request C-16: the result tells the first step whose name has no row, or 32 if there is none. What is expected is typed from its
//! words.

mod days;

use days::{day, small_day};
use evaluator::{noted, printed, Asked, Outcome, Way};

const WAYS: [Way; 2] = [Way::AllPicks, Way::Sets];

/// Whether the question, which returns no record, has this unknown step in both calls and both ways, from any place and with any room.
fn tells(index: &[u8], question: &str, labels: u32, unknown: u32) {
    let asked = Asked::read(index, question.as_bytes()).unwrap();
    let outcome = Outcome { refusal: 0, rows: 0, more: false, next: labels, unknown };
    for way in WAYS {
        let found = asked.found(way);
        for (place, room) in [(0, 100), (0, 0), (1, 100), (4_294_967_295, 100)] {
            let mut buffer = vec![77; room];
            assert_eq!(found.answer(place, &mut buffer), outcome, "{question}");
            assert_eq!(found.evidence(place, &mut buffer), outcome, "{question}");
            assert_eq!(buffer, vec![77; room], "{question}");
        }
    }
}

#[test]
fn a_name_without_a_row() {
    tells(&small_day(), "//cancle", 0, 0);
    tells(&small_day(), "//call//cancle", 0, 1);
    tells(&small_day(), "//cancle//call", 5, 0);
    tells(&small_day(), "//call//call//call//call//bord", 0, 4);
}

#[test]
fn steps_in_brackets_are_counted_too() {
    tells(&small_day(), "//call[//cancle]", 5, 1);
    tells(&small_day(), "//call[//cancel]//bord", 0, 2);
    tells(&small_day(), "//call[//call[//cancle]]//board", 2, 2);
    tells(&small_day(), "//call[//cancel][//board//bord]", 5, 3);
    tells(&small_day(), &format!("//call{}[//lobby]", "[//board]".repeat(30)), 5, 31);
}

#[test]
fn the_first_of_several() {
    tells(&small_day(), "//lobby[//cancle]//bord", 0, 0);
    tells(&small_day(), "//call[//cancle]//bord", 0, 1);
    tells(&small_day(), "//call[//cancel[//cancle]][//bord]//lobby", 0, 2);
    tells(&small_day(), &"//a".repeat(32), 0, 0);
}

#[test]
fn names_that_are_nearly_a_row() {
    for name in ["Call", "cal", "calls", "call.", "call_", "_call", "CALL", "callcallcallcall"] {
        tells(&small_day(), &format!("//call[//{name}]"), 5, 1);
    }
}

#[test]
fn no_record_though_every_name_is_known() {
    tells(&small_day(), "//call//cancel//board", 2, 32);
    tells(&small_day(), "//board[//board]", 2, 32);
}

#[test]
fn a_row_with_number_0_is_known() {
    let index = day(&[("board", &[]), ("call", &[(1, 20)]), ("cancel", &[])]);
    tells(&index, "//board", 0, 32);
    tells(&index, "//call[//board]", 1, 32);
    tells(&index, "//cancel//board", 0, 32);
    tells(&index, "//call[//board]//cancle", 0, 2);
    tells(&index, "//cancle//board", 0, 0);
    assert_eq!(noted(&index, b"//call[//board]"), "");
}

#[test]
fn an_index_without_rows() {
    tells(&[0, 0, 1, 0], "//call", 0, 0);
    tells(&[0, 0, 1, 0], "//call[//board]//cancel", 0, 0);
}

#[test]
fn with_records_there_is_none() {
    let found = Asked::read(&small_day(), b"//call[//board]").unwrap().found(Way::AllPicks);
    assert_eq!(found.answer(0, &mut [0; 2]), Outcome { refusal: 0, rows: 2, more: true, next: 2, unknown: 32 });
    assert_eq!(found.answer(3, &mut [0; 2]), Outcome { refusal: 0, rows: 1, more: false, next: 5, unknown: 32 });
}

#[test]
fn a_refusal_gives_32() {
    for refusal in 1..=9 {
        assert_eq!(Outcome::refused(refusal), Outcome { refusal, rows: 0, more: false, next: 0, unknown: 32 });
    }
}

#[test]
fn where_a_step_stands() {
    let asked = Asked::read(&small_day(), b"//call[//call[//cancel]//board]//call[//board]").unwrap();
    let outside: Vec<usize> = (0..6).filter(|step| asked.is_outside_brackets(*step)).collect();
    assert_eq!(outside, [0, 4]);
}

#[test]
fn what_the_program_says() {
    let day = small_day();
    assert_eq!(noted(&day, b"//call[//cancle]"), "note: step 2: no record of this day is called \"cancle\"\n");
    assert_eq!(noted(&day, b"//lobby"), "note: step 1: no record of this day is called \"lobby\"\n");
    assert_eq!(noted(&day, b"//call[//_.-9]//bord"), "note: step 2: no record of this day is called \"_.-9\"\n");
    for known in ["//call[//board]", "//call//cancel//board"] {
        assert_eq!(noted(&day, known.as_bytes()), "", "{known}");
    }
    // What is refused has no steps to speak of, and what is printed stays as it was.
    for refused in ["//call[//cancle]\n", "//cancle[", &"//a".repeat(33)] {
        assert_eq!(noted(&day, refused.as_bytes()), "", "{refused}");
    }
    assert_eq!(noted(&[0, 0, 2, 0], b"//cancle"), "");
    assert_eq!(printed(Way::AllPicks, &day, b"//call[//cancle]"), "done 0\n");
}
