//! Several members' lines, served by submit and turn.
//!
//! A line lays its request on the member's desk. If the desk is full, turns are taken until it is empty; at the end of the
//! input turns are taken until none is full. The proved turn carries its events out by plain stores, without the flushes and
//! fences that keep a cut harmless. So it works on a private copy of the pool, and the events that it leaves in its list are
//! carried out on the mapped words by the real medium before the answer is printed (`ombykape::Desks`).

use crate::line::{fields, parse, BAD_LINE, LINE_MOST};
use ombykape::medium::Medium;
use ombykape::{Desks, Error, Refusal, Request, Turned};
use std::io::{self, BufRead, Read, Write};

/// Serves every line of the input, and prints an answer to each, in the order served; a bad line is answered when it is read.
pub fn serve<M: Medium>(mut desks: Desks<'_, M>, input: &mut impl BufRead, out: &mut impl Write) -> Result<(), Error> {
    let mut line = Vec::new();
    while next_line(input, &mut line)? {
        match parse(&line) {
            Some((member, request)) => submit(&mut desks, member, request, out)?,
            None => writeln!(out, "{BAD_LINE}")?,
        }
    }
    while turn(&mut desks, out)? {}
    Ok(())
}

/// Lays a request on a member's desk, after as many turns as it takes to empty it. A member without a desk is refused.
fn submit<M: Medium>(desks: &mut Desks<'_, M>, member: u64, request: Request, out: &mut impl Write) -> Result<(), Error> {
    loop {
        match desks.submit(member, request) {
            Ok(()) => return Ok(()),
            Err(Refusal::FullDesk) => turn(desks, out)?,
            Err(refusal) => return Ok(writeln!(out, "{member} {}", fields(request, Err(refusal), 0))?),
        };
    }
}

/// Takes a turn and prints its answer; false if no desk was full.
fn turn<M: Medium>(desks: &mut Desks<'_, M>, out: &mut impl Write) -> Result<bool, Error> {
    let waiting: Vec<Option<Request>> = desks.desks().iter().map(|desk| desk.holding()).collect();
    let turn = desks.turn()?;
    let Turned::Served(outcome) = turn.turned else {
        return Ok(false);
    };
    let request = waiting[turn.member as usize - 1].expect("the desk that was served held a request");
    writeln!(out, "{} {}", turn.member, fields(request, outcome, turn.events))?;
    Ok(true)
}

/// Reads the next line without its newline; of one that is too long, no more than shows it. False at the end of the input.
fn next_line(input: &mut impl BufRead, line: &mut Vec<u8>) -> io::Result<bool> {
    line.clear();
    let read = input.by_ref().take(LINE_MOST as u64 + 1).read_until(b'\n', line)?;
    if line.last() == Some(&b'\n') {
        line.pop();
    } else if line.len() > LINE_MOST {
        input.skip_until(b'\n')?;
    }
    Ok(read > 0)
}
