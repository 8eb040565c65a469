//! Finds the archives of proved code, or has `rt` prove and build them, and links them.
//!
//! The archives lie in the folder that OMBYKAPE_ARCHIVES names, seen from this folder. Without that they are those that
//! `.ci/archives` writes in the parent folder. As `rt` looks at every crate again at each call, it is asked only when an
//! archive is missing or older than a file of the crates.

use std::path::{Path, PathBuf};
use std::process::{exit, Command};
use std::time::SystemTime;
use std::{env, fs, io};

const NAMED_BY: &str = "OMBYKAPE_ARCHIVES";
const BUILT_IN: &str = "target/staticlib";
const ARCHIVES: [&str; 2] = ["exports", "turns"];
/// What `rt` makes, in the folder of each crate.
const MADE: &str = "out";
/// The status of a shell that does not find a command: `rt` is not on the path.
const NOT_FOUND: i32 = 127;

fn main() {
    println!("cargo::rerun-if-changed=build.rs");
    println!("cargo::rerun-if-env-changed={NAMED_BY}");
    for name in ARCHIVES {
        if let Err(sentence) = archive(name).and_then(|archive| link(name, &archive)) {
            eprintln!("ombykape: {sentence}");
            exit(1);
        }
    }
}

/// The archive to link under a name.
fn archive(name: &str) -> Result<PathBuf, String> {
    let file = format!("lib{name}.a");
    match env::var_os(NAMED_BY) {
        Some(folder) => Ok(PathBuf::from(folder).join(file)),
        None => built_beside(&folder("CARGO_MANIFEST_DIR").join(".."), name, &file),
    }
}

/// The archive of the repository that this package stands in.
fn built_beside(repository: &Path, name: &str, file: &str) -> Result<PathBuf, String> {
    let sources = sources(repository);
    for source in &sources {
        println!("cargo::rerun-if-changed={}", source.display());
    }
    let archive = repository.join(BUILT_IN).join(file);
    let newest = sources.iter().filter_map(|source| newest(source)).max();
    match changed(&archive) {
        Some(built) if newest.is_some_and(|source| source <= built) => Ok(archive),
        _ => ask_rt(repository, name, archive),
    }
}

/// What the archives are made of: the list of crates and, of each crate, all but what `rt` made.
fn sources(repository: &Path) -> Vec<PathBuf> {
    let crates = entries(&repository.join("crates"));
    let parts = crates.iter().flat_map(|it| entries(it)).filter(|it| !it.ends_with(MADE));
    parts.chain([repository.join("crates.txt")]).collect()
}

/// Has `rt` prove the crates and write the archive. Without `rt` an archive that is there will do.
fn ask_rt(repository: &Path, name: &str, archive: PathBuf) -> Result<PathBuf, String> {
    let ran = Command::new("bash")
        .args([".ci/archives", name])
        .current_dir(repository)
        .output();
    let lacking = match ran {
        Ok(ran) if ran.status.success() => return Ok(archive),
        Ok(ran) if ran.status.code() != Some(NOT_FOUND) => {
            return Err(format!(
                "`.ci/archives {name}` failed, so there is no archive of proved code to link:\n{}{}",
                String::from_utf8_lossy(&ran.stdout),
                String::from_utf8_lossy(&ran.stderr)
            ))
        }
        Ok(_) => "it is not on the path".to_owned(),
        Err(cause) => cause.to_string(),
    };
    if archive.is_file() {
        println!("cargo::rerun-if-env-changed=PATH");
        println!("cargo::warning=`rt` does not run here: the archive is linked as it is, though the crates are newer");
        return Ok(archive);
    }
    Err(format!(
        "there is no archive of proved code: `rt` does not run here ({lacking}) and {} is missing. Install the Rattle kit, \
         or name a folder of archives by {NAMED_BY}.",
        archive.display()
    ))
}

/// Links a copy of the archive into this package and all that depend on it.
fn link(name: &str, archive: &Path) -> Result<(), String> {
    println!("cargo::rerun-if-changed={}", archive.display());
    let out = folder("OUT_DIR");
    fs::copy(archive, out.join(format!("libombykape_{name}.a")))
        .map_err(|cause| format!("the archive of proved code {} cannot be read: {cause}", archive.display()))?;
    println!("cargo::rustc-link-search=native={}", out.display());
    println!("cargo::rustc-link-lib=static=ombykape_{name}");
    Ok(())
}

/// When a file was changed, if it is there.
fn changed(file: &Path) -> Option<SystemTime> {
    fs::metadata(file).and_then(|about| about.modified()).ok()
}

/// When the newest file of a folder, or this file, was changed.
fn newest(path: &Path) -> Option<SystemTime> {
    if path.is_dir() {
        entries(path).iter().filter_map(|entry| newest(entry)).max()
    } else {
        changed(path)
    }
}

/// What stands in a folder; nothing, if this is none.
fn entries(folder: &Path) -> Vec<PathBuf> {
    let found = fs::read_dir(folder).into_iter().flatten();
    found.filter_map(io::Result::ok).map(|entry| entry.path()).collect()
}

/// A folder that cargo names.
fn folder(variable: &str) -> PathBuf {
    PathBuf::from(env::var_os(variable).expect("cargo names its folders to a build script"))
}
