//! The small day of document 01, and times for it.

use crate::Day;

/// `board` 8:9, 22:23; `call` 1:20, 4:15, 7:12, 21:26, 27:28; `cancel` 2:3, 5:6.
pub fn small_day() -> Day {
    let mut day = Day::new();
    for label in [(8, 9), (22, 23)] {
        day.push("board", label);
    }
    for label in [(1, 20), (4, 15), (7, 12), (21, 26), (27, 28)] {
        day.push("call", label);
    }
    for label in [(2, 3), (5, 6)] {
        day.push("cancel", label);
    }
    day
}

/// Times for the small day, in milliseconds since midnight: entry i is the time of the start or end i. Somebody presses at 8:00:00.000,
/// gives up after 30 seconds, presses again and gives up after 15 more, presses a third time and boards after 9. Somebody else boards 7
/// seconds after pressing, and the last call comes to nothing.
pub fn small_times() -> [u32; 29] {
    // What happens at which number, and when. A number that no record has is at the time of the one before it.
    let moments = [
        (1, (8, 0, 0)),   // the first call starts,
        (2, (8, 0, 30)),  // and is given up: its cancellation 2:3 takes no time
        (4, (8, 0, 35)),  // the second starts inside it,
        (5, (8, 0, 50)),  // and is given up
        (7, (8, 0, 55)),  // the third starts inside that,
        (8, (8, 1, 4)),   // its boarding starts,
        (9, (8, 1, 7)),   // and ends, and the three calls with it
        (21, (8, 2, 0)),  // somebody else's call,
        (22, (8, 2, 7)),  // the boarding in it,
        (23, (8, 2, 10)), // and the end of both
        (27, (8, 3, 0)),  // the last call
        (28, (8, 3, 40)), // ends
    ];
    let mut times = [milliseconds(8, 0, 0); 29];
    for (number, (hour, minute, second)) in moments {
        times[number..].fill(milliseconds(hour, minute, second));
    }
    times
}

fn milliseconds(hour: u32, minute: u32, second: u32) -> u32 {
    1_000 * (60 * (60 * hour + minute) + second)
}

#[cfg(test)]
mod tests {
    use super::small_times;

    #[test]
    fn times_of_the_first_and_the_last_number() {
        let times = small_times();
        assert_eq!([times[0], times[1], times[28]], [28_800_000, 28_800_000, 29_020_000]);
        assert!(times.is_sorted());
    }
}
