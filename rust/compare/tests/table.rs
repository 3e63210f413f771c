//! Every row of document 01's table "A small day", marked or not: the library as C calls it and as Rust does, the twin and both evaluators
//! are put to each in all calls, and all have to give what the table says, in every field and every number of the buffer.
//! The cases of change request C-16, names without a row, are put to all of them as well.

mod rows;

use compare::{compare_page, Call, Library, PROVED, TWIN, WRAPPED};
use evaluator::{Asked, Found, Outcome, Way, NO_STEP};
use rows::{table, unknown_names, Case, Told};

/// What is put to the table.
const ALL: [(&str, Library); 5] = [
    ("the first evaluator", FIRST_EVALUATOR),
    ("the second evaluator", SECOND_EVALUATOR),
    ("the library from C", PROVED),
    ("the library from Rust", WRAPPED),
    ("the twin", TWIN),
];

const FIRST_EVALUATOR: Library = Library {
    check: evaluator::check,
    answer: |index, question, place, buffer| evaluated(Way::AllPicks, index, question, |found| found.answer(place, buffer)),
    evidence: |index, question, place, buffer| evaluated(Way::AllPicks, index, question, |found| found.evidence(place, buffer)),
    waits: evaluator::waits,
};

const SECOND_EVALUATOR: Library = Library {
    check: evaluator::check,
    answer: |index, question, place, buffer| evaluated(Way::Sets, index, question, |found| found.answer(place, buffer)),
    evidence: |index, question, place, buffer| evaluated(Way::Sets, index, question, |found| found.evidence(place, buffer)),
    waits: evaluator::waits,
};

fn evaluated(way: Way, index: &[u8], question: &[u8], page: impl FnOnce(&Found) -> Outcome) -> Outcome {
    match Asked::read(index, question) {
        Ok(asked) => page(&asked.found(way)),
        Err(refusal) => Outcome::refused(refusal),
    }
}

/// Puts a library to a case. Says what is wrong with what it gives, if anything is.
fn put(library: &Library, case: &Case) -> Result<(), String> {
    let Case { told, answer_room, evidence_room, .. } = case;
    let (expected, given) = (told.by_the_check(), (library.check)(&case.index));
    if expected != given {
        return Err(format!("check: expected {expected}, given {given}"));
    }
    let answer = compare_call(case, *answer_room, told.positions(), FIRST_EVALUATOR.answer, library.answer);
    let evidence = compare_call(case, *evidence_room, told.numbers_of_rows(), FIRST_EVALUATOR.evidence, library.evidence);
    answer.map_err(|difference| format!("answer: {difference}"))?;
    evidence.map_err(|difference| format!("evidence: {difference}"))
}

/// Compares a call with what the table says, or, where it only says that something is accepted, with the first evaluator.
fn compare_call(case: &Case, room: usize, numbers: Vec<u32>, evaluator: Call, given: Call) -> Result<(), String> {
    let expected = |buffer: &mut [u32]| match case.told {
        Told::Refused(number) => Outcome::refused(number),
        Told::Gives { rows, more, next, unknown, .. } => {
            buffer[..numbers.len()].copy_from_slice(&numbers);
            Outcome { refusal: 0, rows: rows.len(), more, next, unknown }
        }
        Told::Accepted => {
            let outcome = evaluator(&case.index, &case.question, case.place, buffer);
            assert!(outcome.refusal == 0 && outcome.rows > 0, "{case}: there is nothing to find");
            outcome
        }
    };
    compare_page(room, expected, |buffer| given(&case.index, &case.question, case.place, buffer)).map(|_| ())
}

#[test]
fn all_give_what_the_papers_say() {
    for case in table().into_iter().chain(unknown_names()) {
        for (name, library) in &ALL {
            if let Err(difference) = put(library, &case) {
                panic!("{case}\n{name}: {difference}");
            }
        }
    }
}

#[test]
fn every_row_of_the_table_is_here() {
    let mut rows: Vec<&str> = table().iter().map(|case| case.row).collect();
    rows.dedup();
    assert_eq!(rows.len(), 20, "{rows:?}");
    let small_day = days::small_day().to_bytes();
    assert_eq!((small_day.len(), [20, 44, 68].map(|offset| small_day[offset])), (148, [76, 92, 132]));
}

/// How many of the cases tell a library from the right one.
fn telling(cases: &[Case], library: &Library) -> usize {
    cases.iter().filter(|case| put(library, case).is_err()).count()
}

#[test]
fn a_wrong_library_is_told() {
    let tell = |library| telling(&table(), &library);
    assert_eq!(tell(PROVED), 0);
    let accepts_every_index = Library { check: |_| 0, ..PROVED };
    assert!(tell(accepts_every_index) >= 10);
    let refuses_everything = Library { answer: |_, _, _, _| Outcome::refused(8), ..PROVED };
    assert!(tell(refuses_everything) >= 30);
    let begins_anew = Library { evidence: |index, question, _, buffer| (PROVED.evidence)(index, question, 0, buffer), ..PROVED };
    assert_eq!(tell(begins_anew), 3);
    let never_says_more = Library {
        answer: |index, question, place, buffer| Outcome { more: false, ..(PROVED.answer)(index, question, place, buffer) },
        ..PROVED
    };
    assert_eq!(tell(never_says_more), 2);
    let forgets_the_next_place = Library {
        evidence: |index, question, place, buffer| Outcome { next: 0, ..(PROVED.evidence)(index, question, place, buffer) },
        ..PROVED
    };
    assert!(tell(forgets_the_next_place) >= 10);
    let changes_the_rest = Library {
        evidence: |index, question, place, buffer| {
            let outcome = (PROVED.evidence)(index, question, place, buffer);
            buffer.reverse();
            outcome
        },
        ..PROVED
    };
    assert_eq!(tell(changes_the_rest), table().len() - 1, "only a buffer of one number is the same from behind");
}

#[test]
fn a_library_that_is_wrong_about_unknown_names_is_told() {
    // How many cases of the table, and of the change request.
    let tell = |library| (telling(&table(), &library), telling(&unknown_names(), &library));
    assert_eq!(tell(PROVED), (0, 0));
    let never_says_one = Library {
        answer: |index, question, place, buffer| Outcome { unknown: NO_STEP, ..(PROVED.answer)(index, question, place, buffer) },
        ..PROVED
    };
    assert_eq!(tell(never_says_one), (2, 8));
    let never_says_none = Library {
        evidence: |index, question, place, buffer| {
            let outcome = (PROVED.evidence)(index, question, place, buffer);
            Outcome { unknown: outcome.unknown % NO_STEP, ..outcome }
        },
        ..PROVED
    };
    assert_eq!(tell(never_says_none), (table().len() - 2, 4));
}
