//! A process that works on a pool file is killed, at any moment or behind a chosen event, and the file is opened again: it
//! stands at an event's end, recovers, is sound, and holds the map of the requests finished, with or without the one in flight.
//! A kill loses no store, so the words of the file are compared whole with the model's.

#[path = "../model/mod.rs"]
mod model;
#[path = "../support/mod.rs"]
mod support;

mod child;
mod watched;

use child::{BY_POOL_FILE, SLOWLY};
use model::header::{WORD_CAPACITY, WORD_COMMIT, WORD_USED};
use std::os::unix::process::ExitStatusExt;
use std::process::Child;
use std::time::{Duration, Instant};
use support::random::Random;
use support::{each_seed, pace};
use watched::{Counts, Watched};

/// SIGKILL, by which every child ends.
const KILLED: i32 = 9;

/// The child's way in: no test of its own, it does nothing unless a parent has started it.
#[test]
fn child() {
    child::run();
}

/// A new file in the place of one that is half full.
fn renewed(watched: Option<Watched>, name: &str, random: &mut Random) -> Watched {
    if let Some(watched) = watched.filter(|watched| watched.words[WORD_USED] < watched.words[WORD_CAPACITY] / 2) {
        return watched;
    }
    Watched::create(name, random.pick(&[3000, 10_000]))
}

fn assert_killed(mut child: Child) {
    let status = child.wait().expect("the child's end");
    assert_eq!(status.signal(), Some(KILLED), "the child ended by itself");
}

/// Waits until a child has begun its first request.
fn wait_for_work(watched: &Watched) {
    let began = Instant::now();
    while watched.noted() == 0 {
        assert!(began.elapsed() < Duration::from_secs(20), "the child does not begin");
        std::thread::sleep(Duration::from_micros(100));
    }
}

/// Kills a child at any moment of its first milliseconds of work, `pace` of them, round after round, on a file that is renewed
/// when it is half full.
fn kill_at_any_moment(name: &'static str, way: &str, pace: u32, count: u64) -> Counts {
    let mut counts = Counts::default();
    let mut kept = None;
    each_seed(name, count, |random| {
        let mut watched = renewed(kept.take(), name, random);
        let seed = random.below(1 << 16);
        let mut child = watched.start(seed, way);
        if random.percent(95) {
            wait_for_work(&watched);
        }
        std::thread::sleep(pace * Duration::from_micros(random.below(1000)));
        child.kill().expect("a child to kill");
        assert_killed(child);
        let (noted, found) = (watched.noted(), watched.found());
        let between = noted > 0 && noted % 2 == 0;
        let step = noted.div_ceil(2) + u64::from(between);
        watched.follow(seed, 0..step);
        let in_flight = watched.follow_to(seed, step, &found);
        assert!(
            !between || in_flight.done == 0,
            "a request was begun without a word in the diary"
        );
        in_flight.count(&found, &mut counts);
        if random.percent(70) {
            watched.open_again(&in_flight);
        }
        kept = Some(watched);
    });
    println!("{name}: {counts:?}");
    counts
}

#[test]
fn killed_at_any_moment() {
    kill_at_any_moment("killed_at_any_moment", BY_POOL_FILE, 1, 300);
}

/// With a pause behind each event, nearly every kill comes within a change.
#[test]
fn killed_while_slow() {
    let counts = kill_at_any_moment("killed_while_slow", SLOWLY, pace(), 400);
    assert!(
        counts.within_a_change > counts.kills / 3 && counts.committed > counts.kills / 20,
        "{counts:?}"
    );
}

/// The child ends itself behind an event, so that what it leaves is known word for word; also within a recovery.
#[test]
fn stopped_behind_any_event() {
    let mut counts = Counts::default();
    let mut kept = None;
    each_seed("stopped_behind_any_event", 500, |random| {
        let mut watched = renewed(kept.take(), "stopped", random);
        let seed = random.below(1 << 16);
        let unfinished = watched.words[WORD_COMMIT] != 0;
        let stop = random.between(1, if unfinished { 20 } else { 400 });
        assert_killed(watched.start(seed, &stop.to_string()));
        let in_flight = watched.follow_events(seed, stop);
        assert!(
            watched.found() == watched.words,
            "the file differs from the events carried out"
        );
        in_flight.count(&watched.words, &mut counts);
        if random.percent(60) {
            watched.open_again(&in_flight);
        }
        kept = Some(watched);
    });
    println!("stopped_behind_any_event: {counts:?}");
    assert!(
        counts.committed > counts.kills / 10 && counts.in_recovery > counts.kills / 50,
        "{counts:?}"
    );
}
