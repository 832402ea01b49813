//! Random tables and profiles for the reader, with labels, headings and CSV among them, and random command lines for the commands, with formats
//! and lists of files, from a seed, for some seconds. Each answer is held to a model written from document 01's list and docs/TABLES.md, and the first that differs ends the run with all that is needed to repeat it.
//!
//!     cargo run --offline --release -p fuzz -- 600 1

mod labelled;
mod lines;
mod model;
mod texts;

use std::fs;
use std::path::{Path, PathBuf};
use std::process::ExitCode;
use std::time::{Duration, Instant};

use chukkanalli::tables::Labels;
use chukkanalli::{Evaluator, Game};
use random::Random;

fn main() -> ExitCode {
    let numbers: Vec<u64> = std::env::args().skip(1).filter_map(|arg| arg.parse().ok()).collect();
    let [seconds, seed] = numbers[..] else {
        eprintln!("usage: fuzz SECONDS SEED");
        return ExitCode::from(2);
    };
    let folder = std::env::temp_dir().join(format!("chukkanalli-fuzz-{}", std::process::id()));
    fs::create_dir_all(&folder).expect("the folder for tables can be made");
    let counts = fuzz(Duration::from_secs(seconds), seed, &folder);
    fs::remove_dir_all(&folder).expect("the folder for tables can be removed");
    println!(
        "{} texts and {} command lines in {seconds} seconds with seed {seed}: all as the model has them",
        counts.0, counts.1
    );
    println!("statuses 0, 1, 2: {:?}; refusals 1 to 8: {:?}", counts.2.statuses, counts.2.refusals);
    ExitCode::SUCCESS
}

/// How often each status and each refusal came.
#[derive(Default)]
struct Seen {
    statuses: [u64; 3],
    refusals: [u64; 8],
}

impl Seen {
    fn count(&mut self, status: u8, err: &str) {
        self.statuses[usize::from(status)] += 1;
        for (number, count) in (1..).zip(&mut self.refusals) {
            *count += u64::from(err.contains(&format!("refused with {number}: ")));
        }
    }
}

fn fuzz(time: Duration, seed: u64, folder: &Path) -> (u64, u64, Seen) {
    let mut random = Random::new(seed);
    let start = Instant::now();
    let (mut texts, mut lines, mut seen) = (0, 0, Seen::default());
    let games = model::games();
    let labels: Vec<Labels> = games.iter().map(|listed| labels_of(listed.game)).collect();
    while start.elapsed() < time {
        for _ in 0..5 {
            texts::try_one(&mut random, &games, &labels);
            labelled::try_one(&mut random, &games, &labels);
            texts += 2;
        }
        lines::try_one(&mut random, &games, folder, &mut seen);
        lines += 1;
    }
    (texts, lines, seen)
}

fn labels_of(game: Game) -> Labels {
    Labels::new(&Evaluator::new(game).expect("the game has a tree"))
}

/// The path of the table number k.
fn path_of(folder: &Path, k: usize) -> PathBuf {
    folder.join(format!("{k}.txt"))
}
