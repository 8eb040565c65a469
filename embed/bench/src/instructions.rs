//! Instructions a request, counted by callgrind on this very program in its `count` mode, which runs one batch of one peer.

use crate::keys::{Asked, Random};
use crate::memory::Memory;
use crate::peer::{Op, Peer};
use crate::peers::{self, plain, Folder, Proved};
use crate::wire::Plain;
use std::path::Path;
use std::process::Command;
use std::{env, fs, io};

/// The peers whose instructions are counted.
pub const COUNTED: [&str; 4] = [peers::PROVED, peers::UNCHECKED, peers::SAFE, peers::BARE];

/// Instructions a request of each counted peer, in the order of [`COUNTED`], by operation.
pub struct Counts {
    pub records: usize,
    pub by_op: Vec<(Op, [f64; COUNTED.len()])>,
}

const BATCH: usize = 20_000;
const TOGGLE: &str = "ombykape_bench_counted";

/// The function inside which callgrind counts.
#[no_mangle]
#[inline(never)]
pub extern "Rust" fn ombykape_bench_counted(peer: &mut dyn Peer, op: Op, keys: &[u64]) -> u64 {
    peer.batch(op, keys, 1)
}

fn rows(records: usize) -> (Vec<u64>, Asked) {
    let mut random = Random::new(records as u64);
    let keys = random.row(records);
    let asked = Asked::new(&mut random, &keys, BATCH);
    (keys, asked)
}

/// Counts every peer and operation at this size; nothing where callgrind does not run.
pub fn count(records: usize, folder: &Folder) -> Option<Counts> {
    let (keys, _) = rows(records);
    let mut proved = Proved::new(peers::words(), Plain);
    keys.iter().for_each(|&key| proved.put(key, 1));
    let image = folder.file("image");
    let bytes: Vec<u8> = proved.pool.words().iter().flat_map(|word| word.to_le_bytes()).collect();
    fs::write(&image, bytes).ok()?;
    let mut by_op = Vec::new();
    for (at, op) in Op::ALL.into_iter().enumerate() {
        let mut counts = [0.0; COUNTED.len()];
        for (peer, count) in counts.iter_mut().enumerate() {
            *count = callgrind(peer, at, records, &image)? / op.keys(&rows(records).1).len() as f64;
        }
        by_op.push((op, counts));
    }
    Some(Counts { records, by_op })
}

/// The instructions of one batch.
fn callgrind(peer: usize, op: usize, records: usize, image: &Path) -> Option<f64> {
    let numbers = [peer, op, records].map(|number| number.to_string());
    let output = Command::new("valgrind")
        .args([
            "--tool=callgrind",
            "--callgrind-out-file=/dev/null",
            &format!("--toggle-collect={TOGGLE}"),
        ])
        .arg(env::current_exe().ok()?)
        .arg("count")
        .args(numbers)
        .arg(image)
        .output()
        .ok()?;
    let said = String::from_utf8_lossy(&output.stderr).into_owned();
    let collected = said.lines().find_map(|line| line.split_once("Collected : "))?;
    collected.1.trim().parse().ok().filter(|_| output.status.success())
}

/// The `count` mode: one batch of one peer on the pool of the image file.
pub fn counted(words: &[String]) -> io::Result<()> {
    let numbers: Vec<usize> = words.iter().map_while(|word| word.parse().ok()).collect();
    let (&[peer, op, records], [.., image]) = (&numbers[..], words) else {
        return Err(io::Error::other("count asks for a peer, an operation, records and an image"));
    };
    let (op, (_, asked)) = (Op::ALL[op], rows(records));
    let mut peer = plain(COUNTED[peer], read_words(&fs::read(image)?));
    if op == Op::PutBack {
        peer.batch(Op::Delete, &asked.deleted, 1);
    }
    println!("{}", ombykape_bench_counted(peer.as_mut(), op, op.keys(&asked)));
    Ok(())
}

fn read_words(bytes: &[u8]) -> &'static mut [u64] {
    let pool = Memory::new(bytes.len() / size_of::<u64>()).lend();
    for (word, bytes) in pool.iter_mut().zip(bytes.chunks_exact(size_of::<u64>())) {
        *word = u64::from_le_bytes(bytes.try_into().expect("eight bytes"));
    }
    pool
}
