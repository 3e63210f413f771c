//! Times for the numbers of a day.

use crate::Seeded;

/// So many times that rise from 0, now and then not at all, and together by any part of what 32 bits hold. `count` has to be below 2^32.
pub fn rising_times(seed: u64, count: usize) -> Vec<u32> {
    // At most so much from one to the next, so that the last of them still has 32 bits.
    rising(&mut Seeded::new(seed), count, u32::MAX as usize / count.max(1))
}

/// So many times from 0 on, each at most so much later than the one before, and often not at all. The last has to have 32 bits.
pub fn rising(random: &mut Seeded, count: usize, most: usize) -> Vec<u32> {
    let mut now = 0;
    let step = |_| {
        let time = now;
        now += if random.chance(1, 4) { 0 } else { random.below(most + 1) as u32 };
        time
    };
    (0..count).map(step).collect()
}

#[cfg(test)]
mod tests {
    use super::rising_times;

    #[test]
    fn rise_and_repeat_and_go_far() {
        for count in [0, 1, 2, 3_000_000] {
            let times = rising_times(5, count);
            assert_eq!(times.len(), count);
            assert!(times.is_sorted());
        }
        let times = rising_times(5, 3_000_000);
        assert!(times.windows(2).filter(|pair| pair[0] == pair[1]).count() > 700_000);
        assert!(times[2_999_999] > 1 << 30);
    }
}
