//! Measures how long texts take.

use std::time::{Duration, Instant};

/// What one side does with a group of texts. It returns the sum of the calls' results, so that no
/// call is optimized away.
pub type Side<'a, Stretch> = Box<dyn Fn(&Stretch) -> u64 + 'a>;

/// How long the passes of a row are repeated.
const REPEATED: Duration = Duration::from_secs(10);

/// The shortest time that a side took for a group, and the sum that it returned each time.
struct Best {
    nanoseconds: f64,
    sum: Option<u64>,
}

/// Returns each side's nanoseconds for all texts. The sides take turns, each going over all groups,
/// again and again. For each group the best time counts, because a whole pass is too long to be
/// undisturbed by the machine's other work.
pub fn best<Stretch>(stretches: &[Stretch], sides: &[Side<'_, Stretch>]) -> Vec<f64> {
    let untimed = || stretches.iter().map(|_| Best { nanoseconds: f64::INFINITY, sum: None });
    let mut bests: Vec<Vec<Best>> = sides.iter().map(|_| untimed().collect()).collect();
    let begin = Instant::now();
    while begin.elapsed() < REPEATED {
        for (side, bests) in sides.iter().zip(&mut bests) {
            for (stretch, best) in stretches.iter().zip(bests) {
                best.time(|| side(stretch));
            }
        }
    }
    bests.iter().map(|bests| bests.iter().map(|best| best.nanoseconds).sum()).collect()
}

impl Best {
    /// Times a group once more. Panics if the sum differs from the one before.
    fn time(&mut self, pass: impl Fn() -> u64) {
        let start = Instant::now();
        let sum = pass();
        let nanoseconds = start.elapsed().as_nanos() as f64;
        assert_eq!(sum, *self.sum.get_or_insert(sum), "a pass returned a different sum");
        self.nanoseconds = self.nanoseconds.min(nanoseconds);
    }
}
