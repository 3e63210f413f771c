//! The shortcuts that lose callers, and the refusals where the table's words leave room for a hasty reading.

mod days;

use days::{day, small_day, Tag};
use evaluator::{check, Asked, Row, Way};

/// The rows that a question gives in both ways.
fn rows(tags: &[Tag], question: &str) -> Vec<Row> {
    let asked = Asked::read(&day(tags), question.as_bytes()).unwrap();
    let found = asked.found(Way::AllPicks);
    assert_eq!(found, asked.found(Way::Sets));
    found.rows
}

const SMALL_DAY_CALLS: Tag = ("call", &[(1, 20), (4, 15), (7, 12), (21, 26), (27, 28)]);

#[test]
fn calls_around_a_boarding_need_not_be_neighbours() {
    let day: [Tag; 2] = [("board", &[(30, 31)]), ("call", &[(1, 100), (2, 10), (11, 20), (21, 90)])];
    assert_eq!(rows(&day, "//call[//board]"), [[0, 0], [3, 0]]);
}

#[test]
fn an_outer_call_is_needed_again_after_it_was_passed() {
    let day: [Tag; 3] = [("board", &[(8, 9)]), SMALL_DAY_CALLS, ("cancel", &[(2, 3)])];
    assert_eq!(rows(&day, "//call[//cancel]//board"), [[0, 0, 0]]);
}

#[test]
fn the_greatest_and_the_least_number_are_real_ones() {
    let day: [Tag; 2] = [("board", &[(4_294_967_293, 4_294_967_294)]), ("call", &[(0, 4_294_967_295)])];
    assert_eq!(rows(&day, "//call//board"), [[0, 0]]);
    assert_eq!(rows(&day, "//board//call"), Vec::<Row>::new());
}

#[test]
fn a_record_is_returned_once() {
    assert_eq!(rows(&[("board", &[(8, 9)]), SMALL_DAY_CALLS], "//call//board"), [[0, 0]]);
}

#[test]
fn evidence_is_the_outermost_call_and_belongs_together() {
    let day: [Tag; 3] = [("board", &[(8, 9)]), SMALL_DAY_CALLS, ("cancel", &[(5, 6), (22, 23)])];
    assert_eq!(rows(&day, "//call[//cancel]//board"), [[0, 0, 0]]);
    assert_eq!(rows(&day, "//call[//cancel]"), [[0, 0], [1, 0], [3, 1]]);
}

#[test]
fn no_record_lies_inside_itself() {
    assert_eq!(rows(&[("call", &[(1, 2)])], "//call//call"), Vec::<Row>::new());
    assert_eq!(rows(&[("call", &[(1, 4), (2, 3)])], "//call[//call][//call]"), [[0, 1, 1]]);
}

#[test]
fn labels_of_different_lists_can_cross_or_share_a_number() {
    assert_eq!(check(&day(&[("call", &[(1, 5)]), ("cancel", &[(3, 8)])])), 6);
    assert_eq!(check(&day(&[("call", &[(1, 5)]), ("cancel", &[(5, 8)])])), 6);
    assert_eq!(check(&day(&[("call", &[(1, 5)]), ("cancel", &[(1, 5)])])), 6);
    assert_eq!(check(&day(&[("call", &[(1, 5)]), ("cancel", &[(6, 8)])])), 0);
}

#[test]
fn the_whole_table_of_contents_is_judged_before_the_length() {
    let changed = |place: usize, byte: u8| {
        let mut index = small_day();
        index[place] = byte;
        check(&index)
    };
    // A name's first character, its last, and the zero bytes after it; the order of the names; an offset; the version's second byte.
    assert_eq!(changed(4, b'1'), 3);
    assert_eq!(changed(8, b' '), 3);
    assert_eq!(changed(19, b'a'), 3);
    assert_eq!(changed(4, b'd'), 3);
    assert_eq!(changed(4 + 24 + 16, 93), 3);
    assert_eq!(changed(3, 1), 2);
    // A label less or more in the last body, far more, and more than an index may have.
    let last_count = 4 + 2 * 24 + 20;
    assert_eq!(changed(last_count, 1), 4);
    assert_eq!(changed(last_count, 3), 4);
    assert_eq!(changed(last_count + 2, 15), 4);
    assert_eq!(changed(last_count + 2, 16), 3);
    // A label less in a body before the last makes the next offset wrong.
    assert_eq!(changed(4 + 24 + 20, 4), 3);
}

#[test]
fn most_labels_are_1_048_576() {
    let of = |labels: u32| {
        let mut index = day(&[("call", &[])]);
        index[24..28].copy_from_slice(&labels.to_le_bytes());
        check(&index)
    };
    assert_eq!(of(1_048_576), 4);
    assert_eq!(of(1_048_577), 3);
    assert_eq!(of(4_294_967_295), 3);
}

#[test]
fn most_tags_are_256() {
    let of = |tags: u16| {
        let mut index = tags.to_le_bytes().to_vec();
        index.extend([1, 0]);
        for tag in 0..tags {
            index.extend(format!("tag.{tag:012}").bytes());
            index.extend((4 + 24 * u32::from(tags)).to_le_bytes());
            index.extend([0; 4]);
        }
        check(&index)
    };
    assert_eq!(of(256), 0);
    assert_eq!(of(257), 3);
}

#[test]
fn a_list_is_judged_before_labels_are_judged_together() {
    // Crossing in the first list, not ascending in the second.
    assert_eq!(check(&day(&[("call", &[(1, 5), (3, 8)]), ("cancel", &[(20, 21), (10, 11)])])), 5);
}
