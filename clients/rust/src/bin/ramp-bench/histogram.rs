//! Times of answers, counted so that each is known to one part in 64.

/// How many bits of a time are kept below its first one.
const BITS: u32 = 6;
const STEPS: usize = 1 << BITS;

/// How often each time came, in nanoseconds.
#[derive(Clone)]
pub struct Histogram {
    counts: Vec<u64>,
    total: u64,
    greatest: u64,
}

impl Histogram {
    pub fn new() -> Histogram {
        Histogram { counts: vec![0; (64 - BITS as usize + 1) * STEPS], total: 0, greatest: 0 }
    }

    pub fn add(&mut self, nanoseconds: u64) {
        self.counts[place(nanoseconds)] += 1;
        self.total += 1;
        self.greatest = self.greatest.max(nanoseconds);
    }

    pub fn join(&mut self, other: &Histogram) {
        for (count, more) in self.counts.iter_mut().zip(&other.counts) {
            *count += more;
        }
        self.total += other.total;
        self.greatest = self.greatest.max(other.greatest);
    }

    pub fn total(&self) -> u64 {
        self.total
    }

    pub fn greatest(&self) -> u64 {
        self.greatest
    }

    /// The least time, to one part in 64, that so many of 1,000 of the times do not exceed.
    pub fn at(&self, thousandths: u64) -> u64 {
        // In 128 bits, which no count of requests fills.
        let wanted = (u128::from(self.total) * u128::from(thousandths) + 999) / 1000;
        let mut passed = 0;
        for (place, count) in self.counts.iter().enumerate() {
            passed += u128::from(*count);
            if passed >= wanted && *count > 0 {
                return most_at(place).min(self.greatest);
            }
        }
        self.greatest
    }

    /// How many of the times lie in each range from a power of 2 of microseconds to the next, from the first to the last that has any.
    pub fn by_powers(&self) -> Vec<(u64, u64, u64)> {
        let mut ranges: Vec<(u64, u64, u64)> = Vec::new();
        for (place, count) in self.counts.iter().enumerate().filter(|(_, count)| **count > 0) {
            let microseconds = most_at(place) / 1000;
            let below = (microseconds + 1).next_power_of_two();
            let from = if below == 1 { 0 } else { below / 2 };
            match ranges.last_mut() {
                Some((_, last, sum)) if *last == below => *sum += count,
                _ => ranges.push((from, below, *count)),
            }
        }
        ranges
    }
}

fn place(time: u64) -> usize {
    if time < STEPS as u64 {
        return time as usize;
    }
    let shift = 63 - time.leading_zeros() - BITS;
    (shift as usize + 1) * STEPS + (time >> shift) as usize - STEPS
}

/// The greatest time that is counted there.
fn most_at(place: usize) -> u64 {
    if place < STEPS {
        return place as u64;
    }
    let shift = place / STEPS - 1;
    let least = ((place % STEPS + STEPS) as u64) << shift;
    least + ((1 << shift) - 1)
}

#[cfg(test)]
mod tests {
    use super::*;

    #[test]
    fn a_time_is_known_to_one_part_in_64() {
        let mut last = 0;
        for bit in 0..64 {
            for time in [1u64 << bit, (1 << bit) + (1 << bit >> 3), (1 << bit) - 1 + (1 << bit)] {
                let most = most_at(place(time));
                assert!(most >= time && most - time <= time / 64, "{time}: {most}");
                assert!(place(time) >= last, "{time}");
                last = place(time);
            }
        }
    }

    #[test]
    fn parts_of_the_times() {
        let mut histogram = Histogram::new();
        (1..=1000).for_each(|time| histogram.add(time * 1000));
        for (thousandths, wanted) in [(500, 500_000), (990, 990_000), (999, 999_000), (1000, 1_000_000)] {
            let at = histogram.at(thousandths);
            assert!(at >= wanted && at <= wanted + wanted / 60, "{thousandths}: {at}");
        }
        assert_eq!(histogram.by_powers().iter().map(|(_, _, count)| count).sum::<u64>(), 1000);
        assert_eq!(Histogram::new().at(999), 0);
    }
}
