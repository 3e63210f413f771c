//! Waiting tables worked out by hand from the words of change request C-17, with the working beside each. The evaluator's own tests and
//! those that compare the library, the wrapper and the twin with it are all held to these.

/// A tag's name and the numbers of its records.
pub type Tag = (&'static str, &'static [(u32, u32)]);

pub struct Case {
    pub what: &'static str,
    /// The tags of the day in the order of their names.
    pub day: Vec<Tag>,
    pub times: Vec<u32>,
    /// The refusal or 0, calls, boarded, cancelled, open, total, longest, and what the total is divided by for the mean.
    pub told: [u64; 8],
}

/// The greatest number of 32 bits, as a time.
const MAX: u32 = 4_294_967_295;
const MAX_WAIT: u64 = 4_294_967_295;

const BOARDS: Tag = ("board", &[(8, 9), (22, 23)]);
const CALLS: Tag = ("call", &[(1, 20), (4, 15), (7, 12), (21, 26), (27, 28)]);
const CANCELS: Tag = ("cancel", &[(2, 3), (5, 6)]);

/// The small day of document 01. Of its calls 1:20 is made cancelled by 2:3 and 4:15 by 5:6; 7:12 is made boarded by 8:9 and 21:26 by 22:23;
/// 27:28 has nothing inside and is open.
const SMALL_DAY: [Tag; 3] = [BOARDS, CALLS, CANCELS];

/// Times of its 29 numbers, 0 to 28. Entries repeat: a cancellation takes no time, and numbers that no record has are at the time before.
const TIMES: [u32; 29] = [
    5, // no record has 0
    10, 40, 40, // call 1 starts, cancel 2:3
    45, 60, 60, // call 4 starts, cancel 5:6
    65, 74, 77, // call 7 starts, board 8:9
    77, 77, 77, 77, 77, 77, 77, 77, 77, 77, 77, // the calls end, at 12, 15 and 20
    130, 137, 140, // call 21 starts, board 22:23
    140, 140, 140, // it ends at 26
    190, 230, // call 27:28
];

/// The waits are 40 - 10 = 30 and 60 - 45 = 15 of those who gave up, and 74 - 65 = 9 and 137 - 130 = 7 of those who boarded: 61 together.
const TOLD: [u64; 8] = [0, 5, 2, 2, 1, 61, 30, 4];

/// A refusal: all figures are 0.
const fn refused(number: u64) -> [u64; 8] {
    [number, 0, 0, 0, 0, 0, 0, 0]
}

/// All of them, but for the indexes that are broken before their labels.
pub fn cases() -> Vec<Case> {
    let mut cases = times_of_the_small_day();
    cases.extend(times_that_are_refused());
    cases.extend(other_tags());
    cases.extend(missing_rows());
    cases.extend(what_is_inside());
    cases.extend(nested_calls());
    cases.extend(refused_labels());
    cases
}

fn case(what: &'static str, day: &[Tag], times: &[u32], told: [u64; 8]) -> Case {
    Case { what, day: day.to_vec(), times: times.to_vec(), told }
}

/// The small day's times with one entry changed.
fn changed(entry: usize, time: u32) -> [u32; 29] {
    let mut times = TIMES;
    times[entry] = time;
    times
}

fn times_of_the_small_day() -> Vec<Case> {
    let longer = [TIMES.as_slice(), &[230, 231, MAX]].concat();
    // Up to number 7 at 0, from 8 on at 4,294,967,295. Both cancellations start at 0, when the calls around them do; 7:12 starts at 0 and
    // 8:9 at the greatest; 21:26 and 22:23 both at the greatest. So one wait is as long as can be, and the others are 0.
    let leap: Vec<u32> = (0..29).map(|number| if number < 8 { 0 } else { MAX }).collect();
    vec![
        case("times that repeat, exactly as many as there are numbers", &SMALL_DAY, &TIMES, TOLD),
        case("more times than numbers in use", &SMALL_DAY, &longer, TOLD),
        // What no call starts at and no first record does is of no account: 20 is an end.
        case("another time of an end", &SMALL_DAY, &changed(20, 129), TOLD),
        // All waits are 0, and so is the longest, though four calls have one.
        case("all at 0", &SMALL_DAY, &[0; 29], [0, 5, 2, 2, 1, 0, 0, 4]),
        case("all at 4,294,967,295", &SMALL_DAY, &[MAX; 29], [0, 5, 2, 2, 1, 0, 0, 4]),
        case("from 0 to 4,294,967,295 between 7 and 8", &SMALL_DAY, &leap, [0, 5, 2, 2, 1, MAX_WAIT, MAX_WAIT, 4]),
    ]
}

fn times_that_are_refused() -> Vec<Case> {
    let small = |what, times: &[u32], number| case(what, &SMALL_DAY, times, refused(number));
    let behind = |last: u32| [TIMES.as_slice(), &[230, last]].concat();
    vec![
        // The last number is 28, an end, which 28 entries do not have.
        small("one entry too few", &TIMES[..28], 20),
        small("the last call without any entry", &TIMES[..27], 20),
        small("one entry", &TIMES[..1], 20),
        small("no entries", &[], 20),
        // No record has the number 0, but the entry counts: 11 before 10.
        small("the first entry is greater than the second", &changed(0, 11), 21),
        small("the second is smaller than the first", &changed(1, 4), 21),
        small("one in the middle is smaller than the one before", &changed(16, 76), 21),
        small("the last in use is smaller than the one before", &changed(28, 189), 21),
        small("one past the numbers in use is smaller than the one before", &behind(229), 21),
        small("4,294,967,295 and then 0, past the numbers in use", &[TIMES.as_slice(), &[MAX, 0]].concat(), 21),
        // Both apply, and 20 comes first.
        small("one entry too few, and one smaller than the one before", &changed(16, 76)[..28], 20),
        small("two entries that descend", &[2, 1], 20),
    ]
}

fn other_tags() -> Vec<Case> {
    // A door behind all others: the index now has the numbers 29 and 30, and needs 31 entries.
    let door_behind: [Tag; 4] = [BOARDS, CALLS, CANCELS, ("door", &[(29, 30)])];
    // Doors inside call 21:26 and around everything are neither a boarding nor a cancellation.
    let doors: [Tag; 4] = [BOARDS, CALLS, CANCELS, ("door", &[(0, 29), (24, 25)])];
    // Names that are nearly the three.
    let nearly: [Tag; 5] =
        [("Board", &[(2, 3)]), ("boards", &[(4, 5)]), ("call", &[(1, 8)]), ("call.", &[(10, 11)]), ("cancel-", &[(6, 7)])];
    vec![
        case("a door behind all other numbers, with entries", &door_behind, &[TIMES.as_slice(), &[231, 232]].concat(), TOLD),
        case("the door's end has no entry", &door_behind, &[TIMES.as_slice(), &[231]].concat(), refused(20)),
        case("neither of the door's numbers has an entry", &door_behind, &TIMES, refused(20)),
        case("the door has no entry, and the times descend", &door_behind, &changed(16, 76), refused(20)),
        case("doors inside a call and around all", &doors, &[TIMES.as_slice(), &[231]].concat(), TOLD),
        // One call, and nothing in it that counts.
        case("names that are nearly the three", &nearly, &[0; 12], [0, 1, 0, 0, 1, 0, 0, 0]),
        // 4,294,967,295 is a lawful number of a record, but no list here is so long that it has an entry.
        case("the greatest number", &[("trip", &[(0, MAX)])], &[1, 2, 3], refused(20)),
    ]
}

fn missing_rows() -> Vec<Case> {
    vec![
        case("no rows and no times", &[], &[], [0; 8]),
        case("no rows, and times", &[], &[3, 3, 4], [0; 8]),
        case("no rows, and times that descend", &[], &[2, 1], refused(21)),
        // The row of calls is missing, so that nobody waits.
        case("no calls", &[BOARDS, CANCELS], &TIMES, [0; 8]),
        case("a row of no calls", &[BOARDS, ("call", &[]), CANCELS], &TIMES, [0; 8]),
        // Neither boardings nor cancellations: all five calls are open.
        case("calls alone", &[CALLS], &TIMES, [0, 5, 0, 0, 5, 0, 0, 0]),
        case("calls, and two rows without records", &[("board", &[]), CALLS, ("cancel", &[])], &TIMES, [0, 5, 0, 0, 5, 0, 0, 0]),
        // Without cancellations the first inside 1:20, 4:15 and 7:12 is the boarding 8:9, at 74: 64 + 29 + 9, and 7 of 21:26, are 109.
        case("no cancellations", &[BOARDS, CALLS], &TIMES, [0, 5, 4, 0, 1, 109, 64, 4]),
        // Without boardings 7:12 and 21:26 are open, too: 30 + 15.
        case("no boardings", &[CALLS, CANCELS], &TIMES, [0, 5, 0, 2, 3, 45, 30, 2]),
    ]
}

fn what_is_inside() -> Vec<Case> {
    let squares = [0, 1, 4, 9, 16, 25, 36, 49, 64, 81, 100, 121, 144, 169, 196];
    vec![
        // Entry i is i times i. From 1 to 2: 4 - 1 = 3.
        case(
            "a cancellation before a boarding",
            &[("board", &[(4, 5)]), ("call", &[(1, 6)]), ("cancel", &[(2, 3)])],
            &squares,
            [0, 1, 0, 1, 0, 3, 3, 1],
        ),
        case(
            "a boarding before a cancellation",
            &[("board", &[(2, 3)]), ("call", &[(1, 6)]), ("cancel", &[(4, 5)])],
            &squares,
            [0, 1, 1, 0, 0, 3, 3, 1],
        ),
        // It starts at 2, before the boarding at 3, though it ends after it.
        case(
            "a boarding inside a cancellation",
            &[("board", &[(3, 4)]), ("call", &[(1, 6)]), ("cancel", &[(2, 5)])],
            &squares,
            [0, 1, 0, 1, 0, 3, 3, 1],
        ),
        case("a boarding after the call's end", &[("board", &[(3, 4)]), ("call", &[(1, 2)])], &squares, [0, 1, 0, 0, 1, 0, 0, 0]),
        case("a boarding before the call's start", &[("board", &[(1, 2)]), ("call", &[(3, 4)])], &squares, [0, 1, 0, 0, 1, 0, 0, 0]),
        case("a boarding around the call", &[("board", &[(1, 4)]), ("call", &[(2, 3)])], &squares, [0, 1, 0, 0, 1, 0, 0, 0]),
        case("a call from number 0", &[("board", &[(1, 2)]), ("call", &[(0, 3)])], &[7, 9, 9, 9], [0, 1, 1, 0, 0, 2, 2, 1]),
        // From 1 to 2 in 1:4 is 3, and in 5:8, from 5 to 6, 36 - 25 = 11; 9:10 is open; in 11:14, from 11 to 12, 144 - 121 = 23.
        // Together 37.
        case(
            "one call after the other",
            &[("board", &[(2, 3), (12, 13)]), ("call", &[(1, 4), (5, 8), (9, 10), (11, 14)]), ("cancel", &[(6, 7)])],
            &squares,
            [0, 4, 2, 1, 1, 37, 23, 3],
        ),
        // What lies between the calls is passed: from 7 to 8, 64 - 49 = 15.
        case(
            "boardings and cancellations outside all calls",
            &[("board", &[(3, 4), (8, 9), (11, 12)]), ("call", &[(1, 2), (7, 10)]), ("cancel", &[(5, 6), (13, 14)])],
            &squares,
            [0, 2, 1, 0, 1, 15, 15, 1],
        ),
        // 2 + 2, which stays 4 over 2 and is not made 2 over 1.
        case(
            "a mean that could be reduced",
            &[("board", &[(2, 3), (6, 7)]), ("call", &[(1, 4), (5, 8)])],
            &[0, 1, 3, 3, 4, 5, 7, 7, 7],
            [0, 2, 2, 0, 0, 4, 2, 2],
        ),
    ]
}

fn nested_calls() -> Vec<Case> {
    let squares = [0, 1, 4, 9, 16, 25, 36, 49, 64, 81, 100, 121, 144];
    vec![
        // Entry i is i times i. The boarding starts at 16, the calls at 1, 4 and 9: 15 + 12 + 7 = 34. The cancellation comes after it.
        case(
            "a boarding in the innermost of three calls counts for all",
            &[("board", &[(4, 5)]), ("call", &[(1, 10), (2, 9), (3, 6)]), ("cancel", &[(7, 8)])],
            &squares,
            [0, 3, 3, 0, 0, 34, 15, 3],
        ),
        // The outer call 1:10 is cancelled at 2: 4 - 1 = 3. The one inside, 4:9, is boarded at 5: 25 - 16 = 9.
        case(
            "given up, pressed again, and boarded",
            &[("board", &[(5, 6)]), ("call", &[(1, 10), (4, 9)]), ("cancel", &[(2, 3)])],
            &squares,
            [0, 2, 1, 1, 0, 12, 9, 2],
        ),
        // The inner call 2:3 has nothing inside. The boarding after it is the outer one's: 16 - 1 = 15.
        case(
            "a boarding after the inner call's end",
            &[("board", &[(4, 5)]), ("call", &[(1, 6), (2, 3)])],
            &squares,
            [0, 2, 1, 0, 1, 15, 15, 1],
        ),
        // In 1:12 the first is the cancellation at 3, inside the inner call 2:5: 9 - 1 = 8. In 2:5 it is the same: 9 - 4 = 5. In 6:11 it
        // is the boarding at 8, inside 7:10: 64 - 36 = 28, and in that one 64 - 49 = 15. Together 56.
        case(
            "two calls inside one, and one in the second",
            &[("board", &[(8, 9)]), ("call", &[(1, 12), (2, 5), (6, 11), (7, 10)]), ("cancel", &[(3, 4)])],
            &squares,
            [0, 4, 2, 2, 0, 56, 28, 4],
        ),
        // Three calls start at 0 and wait 4,294,967,295 each, which is more than 32 bits hold.
        case(
            "a total of over 32 bits",
            &[("board", &[(3, 4)]), ("call", &[(0, 7), (1, 6), (2, 5)])],
            &[0, 0, 0, MAX, MAX, MAX, MAX, MAX],
            [0, 3, 3, 0, 0, 12_884_901_885, MAX_WAIT, 3],
        ),
    ]
}

/// Labels that make the index unlawful: 5 and 6 come before what the times are refused for.
fn refused_labels() -> Vec<Case> {
    vec![
        case("a label 4:4, and no times", &[("call", &[(4, 4)])], &[], refused(5)),
        case("a label 4:4, and times that descend", &[("door", &[(4, 4)])], &[5, 4, 3, 2, 1], refused(5)),
        case("labels that cross, and no times", &[("call", &[(1, 5), (3, 8)])], &[], refused(6)),
        case("labels that cross, and times", &[("board", &[(3, 8)]), ("call", &[(1, 5)])], &[0; 9], refused(6)),
    ]
}

/// Indexes with something wrong before their labels, and their refusals. No list of times changes these.
pub fn broken_indexes() -> [(&'static [u8], u64); 5] {
    [(&[], 1), (&[0, 0, 1], 1), (&[0, 0, 2, 0], 2), (&[1, 0, 1, 0], 3), (&[0, 0, 1, 0, 0], 4)]
}

/// Times that are in order and that are not, to go with them.
pub fn any_times() -> [&'static [u32]; 4] {
    [&[], &[1, 2, 3], &[2, 1], &[MAX, 0]]
}
