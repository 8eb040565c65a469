//! The benchmark of the pool: ratios to its peers within one run, instructions, flushes and fences, and how cost grows with the
//! records. It writes its tables and its plot into docs. With the word `quick` it is short and prints the tables.

mod allocation;
mod bounds;
mod clock;
mod counts;
mod direct;
mod instructions;
mod keys;
mod memory;
mod pages;
mod peer;
mod peers;
mod plot;
mod race;
mod report;
mod run;
mod wire;

use run::{Run, FULL, QUICK};
use std::os::unix::process::CommandExt;
use std::process::{Command, ExitCode};
use std::{env, io};

#[global_allocator]
static ALLOCATOR: allocation::Counted = allocation::Counted;

/// libpmem flushes a file in memory as it flushes a module only if this is set when the program starts.
const AS_MODULE: &str = "PMEM_IS_PMEM_FORCE";

fn main() -> ExitCode {
    let words: Vec<String> = env::args().skip(1).collect();
    let done = match words.first().map(String::as_str) {
        Some("count") => instructions::counted(&words[1..]),
        _ if env::var_os(AS_MODULE).is_none() => again(&words),
        Some("quick") => Run::new(&QUICK).map(|run| println!("{}", pages::text(&run))),
        None => Run::new(&FULL).and_then(|run| pages::write(&run)),
        Some(_) => Err(io::Error::other("the only word is quick")),
    };
    match done {
        Ok(()) => ExitCode::SUCCESS,
        Err(cause) => {
            eprintln!("ombykape-bench: {cause}");
            ExitCode::FAILURE
        }
    }
}

/// Starts this program anew with what libpmem reads at its start.
fn again(words: &[String]) -> io::Result<()> {
    Err(Command::new(env::current_exe()?).args(words).env(AS_MODULE, "1").exec())
}
