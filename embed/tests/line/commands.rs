//! The command line: what it prints, how it ends, and that bad arguments and refusals change no byte of the file.

use crate::model;
use crate::model::events::carry;
use crate::model::header::{WORD_COMMIT, WORD_USED};
use crate::support::changes::{deciding, split_of};
use crate::support::each_seed;
use crate::support::line::{leaves, prints, run, Own, BAD, DONE, FAILED};
use crate::support::random::Random;
use ombykape::PoolFile;
use std::fs;

#[test]
fn every_command_on_a_fresh_pool() {
    let own = Own::new("every");
    let file = own.name();
    prints(&["format", file, "100"], "formatted 100 nodes 1672 words\n");
    prints(&["put", file, "7", "70"], "put new 7\n");
    prints(&["get", file, "7"], "get found:70 0\n");
    prints(&["del", file, "8"], "del absent 0\n");
    prints(&["put", file, "7", "18446744073709551615"], "put replaced 3\n");
    prints(&["get", file, "0x7"], "get found:18446744073709551615 0\n");
    prints(&["put", file, "0xffffffffffffffff", "0"], "put new 7\n");
    prints(&["get", file, "18446744073709551615"], "get found:0 0\n");
    prints(&["check", file], "sound 1 nodes 2 records\n");
    prints(&["del", file, "007"], "del removed 3\n");
    prints(&["get", file, "7"], "get absent 0\n");
    prints(&["recover", file], "clean\n");
    assert_eq!(run(&["--help"]).status, DONE);
}

#[test]
fn bad_arguments_change_nothing() {
    let own = Own::new("bad");
    let file = own.name();
    assert_eq!(run(&["format", file, "3"]).status, DONE);
    let bad: [&[&str]; 28] = [
        &[],
        &["put"],
        &["put", file],
        &["put", file, "1"],
        &["put", file, "1", "2", "3"],
        &["get", file],
        &["get", file, "1", "2"],
        &["del", file],
        &["format", file],
        &["format", file, "1", "2"],
        &["format", file, "many"],
        &["check", file, "1"],
        &["check"],
        &["recover", file, "1"],
        &["desk", file],
        &["desk", file, "0"],
        &["desk", file, "17"],
        &["desk", file, "1", "1"],
        &["fetch", file, "1"],
        &["", file],
        &["PUT", file, "1", "2"],
        &["put", file, "x", "1"],
        &["put", file, "-1", "1"],
        &["put", file, "+1", "1"],
        &["put", file, "1", "18446744073709551616"],
        &["put", file, "", "1"],
        &["get", file, " 1"],
        &["del", file, "0x"],
    ];
    for arguments in bad {
        leaves(&own, arguments, BAD, "");
    }
}

#[test]
fn refusals_are_named_and_change_nothing() {
    let own = Own::new("refused");
    let file = own.name();
    leaves(&own, &["format", file, "0"], FAILED, "(refusal 7)");
    leaves(&own, &["format", file, "40001"], FAILED, "(refusal 7)");
    leaves(&own, &["get", file, "1"], FAILED, "");
    assert_eq!(run(&["format", file, "2"]).status, DONE);
    leaves(&own, &["format", file, "2"], FAILED, "");
    for key in 1..=7 {
        assert_eq!(run(&["put", file, &key.to_string(), "1"]).status, DONE);
    }
    leaves(&own, &["put", file, "8", "1"], FAILED, "(refusal 5)");
    let held = PoolFile::open(&own.0).expect("a pool file");
    leaves(&own, &["put", file, "1", "2"], FAILED, "");
    leaves(&own, &["check", file], FAILED, "");
    drop(held);
    prints(&["put", file, "1", "2"], "put replaced 3\n");
}

#[test]
fn files_that_hold_no_sound_pool_are_left_alone() {
    let mut random = Random::from_seed(0);
    let change = split_of(1, true, &mut random);
    let with = |word: usize, value: u64| {
        let mut words = change.start.clone();
        words[word] = value;
        words
    };
    let cases = [
        ("zeros", vec![0; 88], "(refusal 2)"),
        ("form", with(0, 2), "(refusal 2)"),
        ("used", with(WORD_USED, 0), "(refusal 4)"),
        ("commit", with(WORD_COMMIT, 32), "(refusal 6)"),
        ("fault", with(73, 1), "fault at node 1"),
        ("short", vec![1; 87], ""),
        ("empty", Vec::new(), ""),
    ];
    for (name, words, says) in cases {
        let own = Own::holding(name, &words);
        for command in [
            &["put", own.name(), "1", "1"][..],
            &["get", own.name(), "1"],
            &["del", own.name(), "1"],
        ] {
            leaves(&own, command, FAILED, says);
        }
        leaves(&own, &["recover", own.name()], FAILED, says);
        leaves(&own, &["desk", own.name(), "2"], FAILED, says);
        leaves(
            &own,
            &["check", own.name()],
            FAILED,
            if name == "commit" { "(refusal 3)" } else { says },
        );
    }
    let odd = Own::new("odd");
    fs::write(&odd.0, vec![1; 705]).expect("a file");
    leaves(&odd, &["get", odd.name(), "1"], FAILED, "");
}

#[test]
fn an_unfinished_change_is_finished() {
    each_seed("an_unfinished_change_is_finished", 10, |random| {
        let change = split_of(random.between(1, 2) as usize, true, random);
        let commits = deciding(&change.events);
        let mut words = change.start.clone();
        let done = random.between(commits as u64, change.events.len() as u64 - 3) as usize;
        carry(&mut words, &change.events[..done]);
        let pairs = words[WORD_COMMIT];
        let own = Own::holding("unfinished", &words);
        leaves(&own, &["check", own.name()], FAILED, "(refusal 3)");
        prints(
            &["recover", own.name()],
            &format!("recovered {pairs} pairs {} events\n", 2 * pairs + 4),
        );
        assert_eq!(model::formed::map_of(&own.words()), change.after);
        prints(&["recover", own.name()], "clean\n");
    });
}
