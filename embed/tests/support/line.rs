//! Runs of the command line, each on a file of its own.

use super::run_of;
use std::fs;
use std::io::Write;
use std::path::{Path, PathBuf};
use std::process::Stdio;

pub const DONE: i32 = 0;
pub const FAILED: i32 = 1;
pub const BAD: i32 = 2;

/// What a run of the command line left.
pub struct Ran {
    pub status: i32,
    pub out: String,
    pub err: String,
}

pub fn run_with(arguments: &[&str], input: &[u8]) -> Ran {
    let mut command = run_of(env!("CARGO_BIN_EXE_ombykape").as_ref());
    command
        .args(arguments)
        .stdin(Stdio::piped())
        .stdout(Stdio::piped())
        .stderr(Stdio::piped());
    let mut child = command.spawn().expect("the command line");
    child.stdin.take().expect("its input").write_all(input).ok();
    let output = child.wait_with_output().expect("its end");
    let text = |bytes: Vec<u8>| String::from_utf8(bytes).expect("text");
    Ran {
        status: output.status.code().expect("a status"),
        out: text(output.stdout),
        err: text(output.stderr),
    }
}

pub fn run(arguments: &[&str]) -> Ran {
    run_with(arguments, b"")
}

/// A file that a test has for itself, removed when it is done.
pub struct Own(pub PathBuf);

impl Own {
    pub fn new(name: &str) -> Own {
        let path = Path::new(env!("CARGO_TARGET_TMPDIR")).join(format!("line-{name}-{}.pool", std::process::id()));
        fs::remove_file(&path).ok();
        Own(path)
    }

    /// A file that holds these words.
    pub fn holding(name: &str, words: &[u64]) -> Own {
        let own = Own::new(name);
        let bytes: Vec<u8> = words.iter().flat_map(|word| word.to_le_bytes()).collect();
        fs::write(&own.0, bytes).expect("a file");
        own
    }

    pub fn name(&self) -> &str {
        self.0.to_str().expect("a name in letters")
    }

    pub fn bytes(&self) -> Option<Vec<u8>> {
        fs::read(&self.0).ok()
    }

    pub fn words(&self) -> Vec<u64> {
        let bytes = self.bytes().expect("a file");
        bytes
            .chunks_exact(8)
            .map(|word| u64::from_le_bytes(word.try_into().expect("eight bytes")))
            .collect()
    }
}

impl Drop for Own {
    fn drop(&mut self) {
        fs::remove_file(&self.0).ok();
    }
}

/// Runs a command that is done and prints this.
pub fn prints(arguments: &[&str], out: &str) {
    let ran = run(arguments);
    assert_eq!(
        (ran.status, ran.out.as_str(), ran.err.as_str()),
        (DONE, out, ""),
        "{arguments:?}"
    );
}

/// Runs a command that ends with this status, prints nothing, says this, and leaves the file as it was.
pub fn leaves(own: &Own, arguments: &[&str], status: i32, says: &str) {
    let before = own.bytes();
    let ran = run(arguments);
    assert_eq!((ran.status, ran.out.as_str()), (status, ""), "{arguments:?} said {}", ran.err);
    assert!(
        ran.err.starts_with("ombykape: ") && ran.err.contains(says),
        "{arguments:?} said {}",
        ran.err
    );
    assert!(own.bytes() == before, "{arguments:?} changed the file");
}
