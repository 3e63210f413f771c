//! The comparison can fail: each library here is wrong in one way, and is told from the right one within few cases.

use compare::{compare_case, compare_page, small_case, Library, PROVED};
use evaluator::{Outcome, NO_STEP};

/// What the comparison says of the first case in which the library is found to be wrong.
fn told(library: Library) -> String {
    (0..2_000).find_map(|seed| compare_case(&library, &small_case(seed)).err()).expect("a wrong library is not told")
}

#[test]
fn the_right_library_is_not_told() {
    assert!((0..2_000).all(|seed| compare_case(&PROVED, &small_case(seed)).is_ok()));
}

#[test]
fn one_that_refuses_everything() {
    assert!(told(Library { check: |_| 3, ..PROVED }).starts_with("check: expected"));
    assert!(told(Library { answer: |_, _, _, _| Outcome::refused(8), ..PROVED }).starts_with("answer: expected Outcome"));
    assert!(told(Library { evidence: |_, _, _, _| Outcome::refused(8), ..PROVED }).starts_with("evidence: expected Outcome"));
}

#[test]
fn one_that_accepts_everything() {
    assert!(told(Library { check: |_| 0, ..PROVED }).starts_with("check: expected"));
}

#[test]
fn one_that_gives_the_same_records_to_each_question() {
    let same = Library { answer: |index, _, place, buffer| (PROVED.answer)(index, b"//a", place, buffer), ..PROVED };
    assert!(told(same).starts_with("answer: expected Outcome"));
}

#[test]
fn one_that_writes_nothing() {
    let silent = Library {
        answer: |index, question, place, buffer| (PROVED.answer)(index, question, place, &mut buffer.to_vec()),
        evidence: |index, question, place, buffer| (PROVED.evidence)(index, question, place, &mut buffer.to_vec()),
        ..PROVED
    };
    assert!(told(Library { evidence: PROVED.evidence, ..silent }).starts_with("answer: buffer[0]"));
    assert!(told(Library { answer: PROVED.answer, ..silent }).starts_with("evidence: buffer[0]"));
}

#[test]
fn one_whose_later_pages_are_empty() {
    let empty_later = Library {
        evidence: |index, question, place, buffer| match (PROVED.evidence)(index, question, place, buffer) {
            outcome if place > 0 && outcome.refusal == 0 => Outcome { rows: 0, more: false, ..outcome },
            outcome => outcome,
        },
        ..PROVED
    };
    assert!(told(empty_later).starts_with("evidence: expected Outcome"));
}

#[test]
fn one_that_writes_to_the_rest_of_the_buffer() {
    let careless = Library {
        answer: |index, question, place, buffer| {
            let outcome = (PROVED.answer)(index, question, place, buffer);
            buffer[outcome.rows..].fill(0);
            outcome
        },
        ..PROVED
    };
    assert!(told(careless).starts_with("answer: buffer["));
}

#[test]
fn one_that_writes_on_a_refusal() {
    let careless = Library {
        evidence: |index, question, place, buffer| {
            let outcome = (PROVED.evidence)(index, question, place, buffer);
            if let (Some(last), true) = (buffer.last_mut(), outcome.refusal > 0) {
                *last = 0;
            }
            outcome
        },
        ..PROVED
    };
    assert!(told(careless).starts_with("evidence: buffer["));
}

/// A step of an accepted question: how many labels the row of its name has, if there is one, and in how many brackets the step stands.
struct Step {
    labels: Option<u32>,
    brackets: usize,
}

impl Step {
    fn is_unknown(&self) -> bool {
        self.labels.is_none()
    }
}

/// The steps of an accepted question, with each name looked up by a question of its own.
fn steps(index: &[u8], question: &[u8]) -> Vec<Step> {
    let mut steps = Vec::new();
    let mut brackets = 0;
    for part in String::from_utf8_lossy(question).split("//").skip(1) {
        let name = part.trim_end_matches(['[', ']']);
        let alone = (PROVED.answer)(index, format!("//{name}").as_bytes(), u32::MAX, &mut []);
        steps.push(Step { labels: (alone.unknown == NO_STEP).then_some(alone.next), brackets });
        brackets = brackets + part.matches('[').count() - part.matches(']').count();
    }
    steps
}

/// The outcome with the unknown step that is chosen from all steps, if the question is accepted.
fn telling(outcome: Outcome, index: &[u8], question: &[u8], unknown: fn(&[Step]) -> Option<usize>) -> Outcome {
    if outcome.refusal > 0 {
        return outcome;
    }
    Outcome { unknown: unknown(&steps(index, question)).map_or(NO_STEP, |step| step as u32), ..outcome }
}

#[test]
fn one_that_tells_the_first_unknown_step_is_not_told() {
    let first = Library {
        answer: |index, question, place, buffer| {
            let outcome = (PROVED.answer)(index, question, place, buffer);
            telling(outcome, index, question, |steps| steps.iter().position(Step::is_unknown))
        },
        ..PROVED
    };
    assert!((0..2_000).all(|seed| compare_case(&first, &small_case(seed)).is_ok()));
}

#[test]
fn one_that_tells_the_last_unknown_step() {
    let last = Library {
        answer: |index, question, place, buffer| {
            let outcome = (PROVED.answer)(index, question, place, buffer);
            telling(outcome, index, question, |steps| steps.iter().rposition(Step::is_unknown))
        },
        ..PROVED
    };
    assert!(told(last).starts_with("answer: expected Outcome"));
}

#[test]
fn one_that_takes_a_row_with_number_0_for_none() {
    let no_labels = Library {
        evidence: |index, question, place, buffer| {
            let outcome = (PROVED.evidence)(index, question, place, buffer);
            telling(outcome, index, question, |steps| steps.iter().position(|step| step.labels.is_none_or(|labels| labels == 0)))
        },
        ..PROVED
    };
    assert!(told(no_labels).starts_with("evidence: expected Outcome"));
}

#[test]
fn one_that_never_says_that_no_step_is_unknown() {
    let first_step_instead = Library {
        answer: |index, question, place, buffer| {
            let outcome = (PROVED.answer)(index, question, place, buffer);
            telling(outcome, index, question, |steps| steps.iter().position(Step::is_unknown).or(Some(0)))
        },
        ..PROVED
    };
    assert!(told(first_step_instead).starts_with("answer: expected Outcome"));
}

#[test]
fn one_that_looks_for_unknown_steps_outside_brackets_only() {
    let outside = Library {
        evidence: |index, question, place, buffer| {
            let outcome = (PROVED.evidence)(index, question, place, buffer);
            telling(outcome, index, question, |steps| steps.iter().position(|step| step.is_unknown() && step.brackets == 0))
        },
        ..PROVED
    };
    assert!(told(outside).starts_with("evidence: expected Outcome"));
}

#[test]
fn one_that_tells_the_unknown_step_on_the_first_page_only() {
    let first_page = Library {
        answer: |index, question, place, buffer| match (PROVED.answer)(index, question, place, buffer) {
            outcome if place > 0 => Outcome { unknown: NO_STEP, ..outcome },
            outcome => outcome,
        },
        ..PROVED
    };
    assert!(told(first_page).starts_with("answer: expected Outcome"));
}

#[test]
fn one_that_tells_a_step_on_a_refusal() {
    let first_step = Library {
        evidence: |index, question, place, buffer| match (PROVED.evidence)(index, question, place, buffer) {
            outcome if outcome.refusal > 0 => Outcome { unknown: 0, ..outcome },
            outcome => outcome,
        },
        ..PROVED
    };
    assert!(told(first_step).starts_with("evidence: expected Outcome"));
}

#[test]
fn one_that_refuses_an_unknown_name() {
    let strict = Library {
        answer: |index, question, place, buffer| match (PROVED.answer)(index, question, place, buffer) {
            outcome if outcome.unknown != NO_STEP => Outcome::refused(8),
            outcome => outcome,
        },
        ..PROVED
    };
    assert!(told(strict).starts_with("answer: expected Outcome"));
}

#[test]
fn each_part_of_an_outcome_and_each_number_is_compared() {
    const RIGHT: Outcome = Outcome { refusal: 0, rows: 2, more: true, next: 7, unknown: 32 };
    let write = |outcome: Outcome, numbers: [u32; 3]| {
        move |buffer: &mut [u32]| {
            buffer.copy_from_slice(&numbers);
            outcome
        }
    };
    let compared = |outcome, numbers| compare_page(3, write(RIGHT, [4, 5, 6]), write(outcome, numbers));
    assert_eq!(compared(RIGHT, [4, 5, 6]), Ok(RIGHT));
    for wrong in [
        Outcome { refusal: 1, ..RIGHT },
        Outcome { rows: 3, ..RIGHT },
        Outcome { more: false, ..RIGHT },
        Outcome { next: 8, ..RIGHT },
        Outcome { unknown: 31, ..RIGHT },
    ] {
        assert!(compared(wrong, [4, 5, 6]).is_err(), "{wrong:?}");
    }
    for (place, wrong) in [[0, 5, 6], [4, 0, 6], [4, 5, 0]].into_iter().enumerate() {
        let difference = compared(RIGHT, wrong).unwrap_err();
        assert!(difference.starts_with(&format!("buffer[{place}]")), "{difference}");
    }
}
