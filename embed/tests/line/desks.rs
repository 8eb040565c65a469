//! The command line's desks: lines of several members, answered as the model's submits and turns.

use crate::model::desks::{submit, turn, Desk, Request};
use crate::model::events::LIST_WORDS;
use crate::model::refusal::FULL_DESK;
use crate::model::Outcome;
use crate::support::each_seed;
use crate::support::line::{run, run_with, Own, DONE};
use crate::support::random::Random;

/// The line of a member's request, and the fields of its answer.
fn written(member: u64, request: Request) -> String {
    match request {
        Request::Put(key, value) => format!("{member} put {key} {value}\n"),
        Request::Fetch(key) => format!("{member} get {key}\n"),
        Request::Delete(key) => format!("{member} del {key}\n"),
    }
}

fn answered(member: u64, request: Request, answer: Result<Outcome, u64>, events: usize) -> String {
    let command = match request {
        Request::Put(..) => "put",
        Request::Fetch(_) => "get",
        Request::Delete(_) => "del",
    };
    let answer = match answer {
        Ok(Outcome::New) => "new".to_string(),
        Ok(Outcome::Replaced) => "replaced".to_string(),
        Ok(Outcome::Removed) => "removed".to_string(),
        Ok(Outcome::Absent) => "absent".to_string(),
        Ok(Outcome::Found(value)) => format!("found:{value}"),
        Err(number) => format!("refused:{number}"),
    };
    format!("{member} {command} {answer} {events}\n")
}

/// A turn of the model, with the line that it prints; none when idle.
fn model_turn(pool: &mut [u64], desks: &mut [Desk], last: &mut u64) -> Option<String> {
    let waiting = desks.to_vec();
    let turn = turn(pool, LIST_WORDS, desks, *last).expect("a turn");
    *last = turn.last;
    let request = waiting[turn.member.max(1) as usize - 1]?;
    turn.served
        .map(|answer| answered(turn.member, request, answer, turn.events.len()))
}

fn some_request(random: &mut Random) -> Request {
    let key = random.below(40);
    match random.below(3) {
        0 => Request::Fetch(key),
        1 => Request::Delete(key),
        _ => Request::Put(key, random.next()),
    }
}

/// Lines of several members: a full desk is emptied by turns, and at the end all are.
#[test]
fn desks_from_lines() {
    each_seed("desks_from_lines", 40, |random| {
        let own = Own::new("desks");
        assert_eq!(run(&["format", own.name(), "4"]).status, DONE);
        let members = random.between(1, 16);
        let (mut pool, mut desks, mut last) = (own.words(), vec![None; members as usize], 0);
        let (mut input, mut expected) = (String::new(), String::new());
        for _ in 0..60 {
            let (member, request) = (random.below(members + 2), some_request(random));
            input += &written(member, request);
            let mut answer = submit(&mut desks, member, request);
            while answer == Err(FULL_DESK) {
                expected += &model_turn(&mut pool, &mut desks, &mut last).expect("a full desk");
                answer = submit(&mut desks, member, request);
            }
            expected += &answer
                .err()
                .map_or(String::new(), |number| answered(member, request, Err(number), 0));
        }
        while let Some(line) = model_turn(&mut pool, &mut desks, &mut last) {
            expected += &line;
        }
        let ran = run_with(&["desk", own.name(), &members.to_string()], input.as_bytes());
        assert_eq!(
            (ran.status, ran.out.as_str(), ran.err.as_str()),
            (DONE, expected.as_str(), "")
        );
        assert!(own.words() == pool, "the file differs from the model's pool");
    });
}

#[test]
fn bad_lines_at_the_desks() {
    let own = Own::new("badlines");
    assert_eq!(run(&["format", own.name(), "100"]).status, DONE);
    let long = format!("1 get {}", "1".repeat(59));
    let bad = [
        "",
        "1",
        "put 7 70",
        "1 put 7",
        "1 put 7 70 ",
        "1  get 7",
        " 1 get 7",
        "1 get 7\r",
        "1 get 7 8",
        "1 pop 7",
        &long,
    ];
    let too_large = [
        "1 get 18446744073709551616",
        "1 put 1 18446744073709551616",
        "18446744073709551616 get 1",
    ];
    let before = own.bytes();
    for line in bad.iter().chain(&too_large) {
        let ran = run_with(&["desk", own.name(), "1"], format!("{line}\n").as_bytes());
        assert_eq!((ran.status, ran.out.as_str()), (DONE, "? badline 0\n"), "{line:?}");
    }
    assert!(own.bytes() == before, "a bad line changed the file");
    let ran = run_with(&["desk", own.name(), "1"], b"1 put 7 70\n1 get 7\n1 del 8");
    assert_eq!(ran.out, "1 put new 7\n1 get found:70 0\n1 del absent 0\n");
}
