//! What the tests share: random numbers, pools to try, and each call made by the proved code and the model together.
//! Each test binary uses a part of it only.
#![allow(dead_code)]

pub mod both;
pub mod changes;
pub mod cut;
pub mod damage;
pub mod every;
pub mod grow;
pub mod line;
pub mod random;
pub mod rubbish;
pub mod tall;
pub mod translate;

use std::ffi::OsStr;
use std::io::Write;
use std::process::Command;

/// By this cargo is told of the emulator that runs the tests, on a machine that is not x86-64.
const RUNNER: &str = "CARGO_TARGET_X86_64_UNKNOWN_LINUX_GNU_RUNNER";

/// A command that runs a program built with the tests, by the emulator that runs them if there is one.
pub fn run_of(program: &OsStr) -> Command {
    let runner = std::env::var(RUNNER).unwrap_or_default();
    let mut words = runner.split_whitespace().map(OsStr::new).chain([program]);
    let mut command = Command::new(words.next().expect("the program at least"));
    command.args(words);
    command
}

/// How many times longer a pause is under an emulator, beside which its own slowness is still little.
pub fn pace() -> u32 {
    match std::env::var_os(RUNNER) {
        Some(_) => 100,
        None => 1,
    }
}

/// How many rounds a test makes: its own count, times OMBYKAPE_ROUNDS if that is set, a number or a part such as 1/10; one at least.
pub fn rounds(count: u64) -> u64 {
    let told = std::env::var("OMBYKAPE_ROUNDS").unwrap_or_else(|_| "1".into());
    let (times, parts) = told.split_once('/').unwrap_or((&told, "1"));
    let number = |text: &str| text.parse::<u64>().expect("OMBYKAPE_ROUNDS is a number or a part");
    (count * number(times) / number(parts)).max(1)
}

/// Runs rounds of a test, each from its own seed; a round that fails prints its seed. Another count of rounds than the test's
/// own is told even of a test that passes.
pub fn each_seed(name: &'static str, count: u64, mut round: impl FnMut(&mut random::Random)) {
    let rounds = rounds(count);
    if rounds != count {
        writeln!(std::io::stderr(), "rounds of {name}: {rounds} in place of {count}").expect("a place to write");
    }
    for seed in 0..rounds {
        let _shown = Shown { name, seed };
        round(&mut random::Random::from_seed(seed));
    }
}

/// Prints the seed of a round when that fails.
struct Shown {
    name: &'static str,
    seed: u64,
}

impl Drop for Shown {
    fn drop(&mut self) {
        if std::thread::panicking() {
            eprintln!("{} failed with seed {}", self.name, self.seed);
        }
    }
}
