//! Timing: contestants that take turns, round by round, and what is read off their times.

use std::time::Duration;

/// How many rounds, how long each is, and how long a walk of a peer may take before it is left out.
pub struct Plan {
    pub rounds: usize,
    pub round: Duration,
    pub patience: Duration,
}

pub const FULL: Plan = Plan { rounds: 41, round: Duration::from_millis(10), patience: Duration::from_secs(1) };
pub const QUICK: Plan = Plan { rounds: 5, round: Duration::from_millis(5), patience: Duration::from_millis(300) };

/// One of those that walk a text, how often it does so in a round, and the seconds of a walk, one entry a round.
pub struct Contestant<'a> {
    walk: Box<dyn FnMut() + 'a>,
    repeats: u32,
    seconds: Vec<f64>,
    /// Whether it sits out the rest once it has used up its time.
    may_rest: bool,
}

impl<'a> Contestant<'a> {
    /// One that has its turn in every round.
    pub fn steady(walk: impl FnMut() + 'a) -> Contestant<'a> {
        Contestant { walk: Box::new(walk), repeats: 1, seconds: Vec::new(), may_rest: false }
    }

    /// One that may be so slow that a few rounds must do.
    pub fn resting(walk: impl FnMut() + 'a) -> Contestant<'a> {
        Contestant { may_rest: true, ..Contestant::steady(walk) }
    }

    /// Seconds of one walk, over the number of walks given.
    fn timed(&mut self, walks: u32) -> f64 {
        let begin = processor_seconds();
        for _ in 0..walks {
            (self.walk)();
        }
        (processor_seconds() - begin) / f64::from(walks)
    }

    /// How many walks fill a round, after a walk to warm up.
    fn calibrated(&mut self, round: Duration) -> u32 {
        self.timed(1);
        let mut walks = 1;
        loop {
            let seconds = self.timed(walks) * f64::from(walks);
            if seconds > round.as_secs_f64() / 8.0 {
                return ((round.as_secs_f64() / seconds * f64::from(walks)) as u32).max(1);
            }
            walks *= 2;
        }
    }

    fn has_used_up(&self, time: Duration) -> bool {
        self.seconds.iter().sum::<f64>() * f64::from(self.repeats) > time.as_secs_f64()
    }
}

/// Rounds in which each contestant has its turn, another one first each time. The answer is the times of each.
pub fn race(mut contestants: Vec<Contestant>, plan: &Plan) -> Vec<Vec<f64>> {
    for c in contestants.iter_mut() {
        c.repeats = c.calibrated(plan.round);
    }
    let enough = 2 * plan.round * plan.rounds as u32;
    for round in 0..plan.rounds {
        for turn in 0..contestants.len() {
            let at = (round + turn) % contestants.len();
            let c = &mut contestants[at];
            if !(c.may_rest && c.has_used_up(enough)) {
                let seconds = c.timed(c.repeats);
                c.seconds.push(seconds);
            }
        }
    }
    contestants.into_iter().map(|c| c.seconds).collect()
}

unsafe extern "C" {
    fn clock_gettime(clock: i32, time: *mut [i64; 2]) -> i32;
}
const CLOCK_THREAD_CPUTIME_ID: i32 = 3;

/// The time that this thread has had a processor for, so that other work on the machine counts little. 64-bit Linux only.
fn processor_seconds() -> f64 {
    let mut time = [0; 2];
    // SAFETY: the time is two 64-bit numbers, seconds and nanoseconds.
    let failed = unsafe { clock_gettime(CLOCK_THREAD_CPUTIME_ID, &mut time) };
    assert_eq!(failed, 0, "the thread's clock");
    time[0] as f64 + time[1] as f64 / 1e9
}

/// The middle of some numbers, and the ends of their middle half.
pub struct Middle {
    pub low: f64,
    pub median: f64,
    pub high: f64,
}

impl Middle {
    fn of(mut numbers: Vec<f64>) -> Middle {
        numbers.sort_by(f64::total_cmp);
        let last = numbers.len() - 1;
        Middle { low: numbers[last / 4], median: numbers[last / 2], high: numbers[last - last / 4] }
    }

    /// Of the ratios of the times, round by round.
    pub fn of_ratios(times: &[f64], others: &[f64]) -> Middle {
        Middle::of(times.iter().zip(others).map(|(a, b)| a / b).collect())
    }
}

pub fn median(times: &[f64]) -> f64 {
    Middle::of(times.to_vec()).median
}
