//! Two ways to do one thing, timed in turn.

use std::time::{Duration, Instant};

const ROUNDS: usize = 9;
/// What a round of either takes at least.
const ROUND: Duration = Duration::from_millis(60);

pub struct Clock {
    divisor: u32,
}

impl Clock {
    /// From the program's one argument: what all sizes are divided by.
    pub fn from_arguments() -> Clock {
        let divisor = std::env::args().nth(1).map_or(Ok(1), |word| word.parse());
        Clock {
            divisor: divisor.expect("a number to divide the sizes by"),
        }
    }

    pub fn scaled(&self, count: usize) -> usize {
        (count / self.divisor as usize).max(1)
    }

    /// Writes a line: the name, and for ours and the reference's the median
    /// of the nanoseconds of one of `count` things that a pass does.
    pub fn line(&self, name: &str, count: usize, mut ours: impl FnMut(), mut theirs: impl FnMut()) {
        let least = ROUND / self.divisor;
        let (our_passes, their_passes) = (passes(least, &mut ours), passes(least, &mut theirs));
        let (mut our_times, mut their_times) = (Vec::new(), Vec::new());
        for _ in 0..ROUNDS {
            our_times.push(pass_time(our_passes, &mut ours));
            their_times.push(pass_time(their_passes, &mut theirs));
        }
        let each = |times| median(times) / count as f64;
        println!("{name}\t{:.2}\t{:.2}", each(our_times), each(their_times));
    }
}

/// How many passes take that long; finding it warms both up.
fn passes(least: Duration, work: &mut impl FnMut()) -> u32 {
    let mut passes = 1;
    loop {
        let start = Instant::now();
        (0..passes).for_each(|_| work());
        if start.elapsed() >= least {
            return passes;
        }
        passes *= 2;
    }
}

/// The nanoseconds of a pass.
fn pass_time(passes: u32, work: &mut impl FnMut()) -> f64 {
    let start = Instant::now();
    (0..passes).for_each(|_| work());
    start.elapsed().as_nanos() as f64 / f64::from(passes)
}

fn median(mut times: Vec<f64>) -> f64 {
    times.sort_by(f64::total_cmp);
    times[times.len() / 2]
}
