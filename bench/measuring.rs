//! Runs what is proved and its twin in plain Rust turn by turn, and prints a row of the table: its name, the seconds of each, and how often the work
//! was done in them. With `--once NAME ours` or `--once NAME twin` that alone runs, once, so that its instructions can be counted.

use std::fmt::Debug;
use std::hint::black_box;
use std::time::Instant;

const TURNS: usize = 9;

pub struct Bench {
    once: Option<(String, String)>,
}

/// What is counted stands below this function.
#[inline(never)]
fn counted<T>(run: &mut impl FnMut() -> T) -> T {
    black_box(run())
}

fn timed<T>(run: &mut impl FnMut() -> T) -> (f64, T) {
    let start = Instant::now();
    let result = counted(run);
    (start.elapsed().as_secs_f64(), result)
}

impl Bench {
    pub fn new() -> Bench {
        let words: Vec<String> = std::env::args().skip(1).collect();
        let once = match words.as_slice() {
            [] => None,
            [option, name, who] if option == "--once" => Some((name.clone(), who.clone())),
            _ => panic!("expected nothing, or --once NAME ours, or --once NAME twin"),
        };
        Bench { once }
    }

    /// How much is to be done where it is timed, and where it is counted.
    pub fn amount(&self, timed: usize, counted: usize) -> usize {
        if self.once.is_some() { counted } else { timed }
    }

    /// A row, if it is wanted; `times` is how often the work is done in one run.
    pub fn row<T: PartialEq + Debug>(
        &self,
        name: &str,
        times: usize,
        mut ours: impl FnMut() -> T,
        mut twin: impl FnMut() -> T,
    ) {
        match &self.once {
            Some((wanted, who)) if wanted == name && who == "ours" => drop(counted(&mut ours)),
            Some((wanted, who)) if wanted == name && who == "twin" => drop(counted(&mut twin)),
            Some(_) => {}
            None => {
                let (mut best, mut best_of_twin) = (f64::MAX, f64::MAX);
                for _ in 0..TURNS {
                    let (seconds, one) = timed(&mut ours);
                    let (seconds_of_twin, other) = timed(&mut twin);
                    assert_eq!(one, other, "{name}: the results differ");
                    best = best.min(seconds);
                    best_of_twin = best_of_twin.min(seconds_of_twin);
                }
                println!("{name}\t{best}\t{best_of_twin}\t{times}");
            }
        }
    }
}
