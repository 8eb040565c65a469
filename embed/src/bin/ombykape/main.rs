//! The command line: one pool file and one command on it.
//!
//! Exit status: 0 done; 1 refused, not well formed, or the file could not be used; 2 bad arguments, and nothing was changed.

mod arguments;
mod desk;
mod line;
mod number;

use arguments::{Action, Asked};
use ombykape::{Checked, Error, Outcome, PoolFile, Recovery, Request};
use std::ffi::OsString;
use std::io::{self, Write};
use std::process::ExitCode;

const FAILED: u8 = 1;
const BAD_ARGUMENTS: u8 = 2;

fn main() -> ExitCode {
    let words: Vec<OsString> = std::env::args_os().skip(1).collect();
    let asked = match arguments::read(&words) {
        Ok(asked) => asked,
        Err(sentence) => return failed(&sentence, BAD_ARGUMENTS),
    };
    match run(asked) {
        Ok(()) => ExitCode::SUCCESS,
        Err(error) => failed(&error.to_string(), FAILED),
    }
}

fn failed(sentence: &str, status: u8) -> ExitCode {
    eprintln!("ombykape: {sentence}");
    ExitCode::from(status)
}

fn run(asked: Asked) -> Result<(), Error> {
    let Asked::On(file, action) = asked else {
        return Ok(io::stdout().write_all(arguments::USAGE.as_bytes())?);
    };
    match action {
        Action::Format(capacity) => {
            let pool = PoolFile::create(&file, capacity)?;
            let words = pool.words().len();
            pool.close()?;
            say(&format!("formatted {capacity} nodes {words} words"))
        }
        Action::Ask(request) => ask(open(&file)?, request),
        Action::Check => match PoolFile::inspect(&file)? {
            Checked::Sound { nodes, records } => say(&format!("sound {nodes} nodes {records} records")),
            Checked::Fault { node } => Err(Error::Fault { node }),
        },
        Action::Recover => recover(PoolFile::open(&file)?),
        Action::Desk(members) => {
            let mut pool = open(&file)?;
            desk::serve(pool.desks(members)?, &mut io::stdin().lock(), &mut io::stdout())?;
            pool.close()
        }
    }
}

/// Opens a pool file, and says so if that finished a change which a cut had left.
fn open(file: &OsString) -> Result<PoolFile, Error> {
    let pool = PoolFile::open(file)?;
    if let Recovery::Recovered { pairs, .. } = pool.recovery() {
        eprintln!("ombykape: a change that a cut had left was finished: {pairs} pairs");
    }
    Ok(pool)
}

fn recover(pool: PoolFile) -> Result<(), Error> {
    let recovery = pool.recovery();
    pool.close()?;
    match recovery {
        Recovery::Clean => say("clean"),
        Recovery::Recovered { pairs, events } => say(&format!("recovered {pairs} pairs {events} events")),
    }
}

/// One request, answered in the fields of document 01's program.
fn ask(mut pool: PoolFile, request: Request) -> Result<(), Error> {
    let (outcome, events) = match request {
        Request::Fetch(key) => (pool.get(key)?.map_or(Outcome::Absent, Outcome::Found), 0),
        Request::Put(key, value) => pool.put(key, value).map(|answer| (answer.outcome, answer.events))?,
        Request::Delete(key) => pool.delete(key).map(|answer| (answer.outcome, answer.events))?,
    };
    pool.close()?;
    say(&line::fields(request, Ok(outcome), events))
}

fn say(text: &str) -> Result<(), Error> {
    Ok(writeln!(io::stdout(), "{text}")?)
}
