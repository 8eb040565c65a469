//! What the arguments ask.

use crate::number::number;
use ombykape::{Request, MEMBERS_MOST};
use std::ffi::OsString;

/// The text of `--help`.
pub const USAGE: &str = "\
ombykape: a proved map from 64-bit keys to 64-bit values in a pool file

  ombykape format FILE CAPACITY   make FILE with an empty pool of 1 to 40000 nodes; a file that is there is left alone
  ombykape put FILE KEY VALUE     put VALUE under KEY:   put new EVENTS, put replaced EVENTS
  ombykape get FILE KEY           fetch KEY:             get found:VALUE 0, get absent 0
  ombykape del FILE KEY           delete KEY:            del removed EVENTS, del absent 0
  ombykape check FILE             check the whole pool, changing nothing: sound N nodes N records
  ombykape recover FILE           finish the change that a cut left, then check: clean, or recovered N pairs N events
  ombykape desk FILE MEMBERS      serve 1 to 16 members from standard input, line by line:
                                  MEMBER put KEY VALUE, MEMBER get KEY, MEMBER del KEY
                                  and print MEMBER, then the answer as above, or refused:NUMBER 0, in the order served;
                                  a bad line (at most 64 bytes, fields parted by single blanks) prints ? badline 0
                                  when it is read, and changes nothing

Numbers have 64 bits, in decimal or after 0x in hexadecimal. All but format and check first finish a change that a cut left,
and check the whole pool. Where the file system has no DAX, a kill loses nothing that was answered, but a power cut while a
command runs may damage the pool.

Exit status: 0 done; 1 refused, not well formed, or the file could not be used; 2 bad arguments, and nothing was changed.
";

/// What is asked.
#[derive(Debug, PartialEq, Eq)]
pub enum Asked {
    /// The usage.
    Help,
    /// Something of a file.
    On(OsString, Action),
}

/// What is asked of a file.
#[derive(Debug, PartialEq, Eq)]
pub enum Action {
    /// Make it, with a pool of this capacity.
    Format(u64),
    /// Serve one request.
    Ask(Request),
    /// Check the pool.
    Check,
    /// Finish what a cut left.
    Recover,
    /// Serve so many members from standard input.
    Desk(usize),
}

/// Reads the arguments after the program's name, or says what is wrong with them.
pub fn read(words: &[OsString]) -> Result<Asked, String> {
    match words {
        [first, ..] if first == "--help" || first == "-h" => Ok(Asked::Help),
        [command, file, rest @ ..] => Ok(Asked::On(file.clone(), action(command, rest)?)),
        _ => Err("a command and a file are wanted; ombykape --help lists them".to_string()),
    }
}

fn action(command: &OsString, rest: &[OsString]) -> Result<Action, String> {
    let (wanted, count) = match command.to_str() {
        Some("format") => ("FILE CAPACITY", 1),
        Some("put") => ("FILE KEY VALUE", 2),
        Some("get" | "del") => ("FILE KEY", 1),
        Some("check" | "recover") => ("FILE", 0),
        Some("desk") => ("FILE MEMBERS", 1),
        _ => return Err(format!("{command:?} is no command; ombykape --help lists them")),
    };
    if rest.len() != count {
        return Err(format!("{} wants {wanted}", command.display()));
    }
    let numbers = rest.iter().map(number_of).collect::<Result<Vec<u64>, String>>()?;
    named(&command.to_string_lossy(), &numbers)
}

fn named(command: &str, numbers: &[u64]) -> Result<Action, String> {
    match (command, numbers) {
        ("format", &[capacity]) => Ok(Action::Format(capacity)),
        ("put", &[key, value]) => Ok(Action::Ask(Request::Put(key, value))),
        ("get", &[key]) => Ok(Action::Ask(Request::Fetch(key))),
        ("del", &[key]) => Ok(Action::Ask(Request::Delete(key))),
        ("check", []) => Ok(Action::Check),
        ("recover", []) => Ok(Action::Recover),
        ("desk", &[members]) => members_of(members).map(Action::Desk),
        _ => unreachable!("the command and the count of its numbers were looked at"),
    }
}

fn number_of(word: &OsString) -> Result<u64, String> {
    let read = word.to_str().and_then(number);
    read.ok_or_else(|| format!("{word:?} is not a number of 64 bits, in decimal or after 0x in hexadecimal"))
}

fn members_of(members: u64) -> Result<usize, String> {
    let counted = usize::try_from(members)
        .ok()
        .filter(|count| (1..=MEMBERS_MOST).contains(count));
    counted.ok_or_else(|| format!("{members} members: there are 1 to {MEMBERS_MOST}"))
}
