//! The speed report: the proved code beside the independent implementation, turn by turn in one run, the best time of each.

mod calls;
mod machine;
mod parts;
mod plot;
mod slips;
mod table;

pub use table::Style;

use crate::pool::Pool;
use independent::keccak;
use std::time::{Duration, Instant};

/// How often jobs are done: in so many rounds over all jobs, in each until the budget is spent, but no fewer than `least` turns.
#[derive(Clone, Copy)]
pub struct Turns {
    rounds: usize,
    least: usize,
    budget: Duration,
}

impl Turns {
    pub const FULL: Turns = Turns { rounds: 6, least: 3, budget: Duration::from_millis(100) };
    pub const QUICK: Turns = Turns { rounds: 1, least: 2, budget: Duration::from_millis(20) };

    /// A job on both sides, turn by turn, in one round.
    fn best(&self, mut unit: impl FnMut(), mut independent: impl FnMut()) -> Best {
        let time = |job: &mut dyn FnMut()| {
            let start = Instant::now();
            job();
            start.elapsed().as_nanos() as f64
        };
        let mut best = Best { unit: f64::MAX, independent: f64::MAX, permutations: 0 };
        let (start, mut turn) = (Instant::now(), 0);
        while turn < self.least || start.elapsed() < self.budget {
            best.unit = best.unit.min(time(&mut unit));
            let before = keccak::permutations();
            best.independent = best.independent.min(time(&mut independent));
            best.permutations = keccak::permutations() - before;
            turn += 1;
        }
        best
    }
}

/// The best times of a job on both sides, in nanoseconds, and the permutations that the independent side took for it.
#[derive(Clone, Copy)]
struct Best {
    unit: f64,
    independent: f64,
    permutations: u64,
}

impl Best {
    fn ratio(&self) -> f64 {
        self.unit / self.independent
    }

    /// The best of two rounds.
    fn of(self, other: Best) -> Best {
        Best { unit: self.unit.min(other.unit), independent: self.independent.min(other.independent), ..self }
    }

    /// The times of one of `n` parts of the job.
    fn part(self, n: usize) -> Best {
        Best { unit: self.unit / n as f64, independent: self.independent / n as f64, ..self }
    }
}

/// Measures and writes the report; says on standard error how far it is.
pub fn report(turns: Turns, style: Style) -> String {
    let (lent, pool) = (calls::lent(), Pool::new(0));
    let rounds = (1..=turns.rounds).map(|round| {
        eprintln!("round {round} of {}", turns.rounds);
        [parts::measured(turns), calls::measured(&lent, turns), slips::measured(&pool, turns)]
    });
    let best = |a: Vec<Best>, b: Vec<Best>| a.into_iter().zip(b).map(|(a, b)| a.of(b)).collect();
    let [parts, calls, slips] = rounds.reduce(|[a, b, c], [x, y, z]| [best(a, x), best(b, y), best(c, z)]).unwrap();
    let pairs = calls::pairs(&lent, &calls);
    let tables = [parts::table(&parts), calls::times(&pairs), slips::table(&slips), calls::permutations(&pairs, parts[0].unit)];
    let tables: String = tables.iter().map(|table| style.table(table) + "\n").collect();
    format!("{}\n\n{tables}{}", machine::line(), style.plot(plot::CAPTION, &plot::growth(&pairs)))
}
