//! Compiles the peers in C whose libraries are installed, and names those that are left out.

use std::env;
use std::ffi::OsString;
use std::path::{Path, PathBuf};
use std::process::Command;

/// Where Debian's package of libpmemobj keeps PMDK's example of a tree.
const PMDK_EXAMPLES: &str = "/usr/share/doc/libpmemobj-dev/examples/tree_map";

/// No such file: as long as cargo is told to watch it, it runs this script at each build, and so a library is found once it is installed.
const NEVER_THERE: &str = "c/never-there";

/// A peer in C: its cfg and its file's name, its library, and further sources with the folder of their headers.
struct Source {
    name: &'static str,
    library: &'static str,
    beside: Option<(&'static str, &'static str)>,
}

const SOURCES: [Source; 5] = [
    Source {
        name: "lmdb",
        library: "lmdb",
        beside: None,
    },
    Source {
        name: "berkeley",
        library: "db",
        beside: None,
    },
    Source {
        name: "sqlite",
        library: "sqlite3",
        beside: None,
    },
    Source {
        name: "pmemobj",
        library: "pmemobj",
        beside: None,
    },
    Source {
        name: "btree_map",
        library: "pmemobj",
        beside: Some((PMDK_EXAMPLES, "btree_map.c")),
    },
];

fn main() {
    println!("cargo::rerun-if-changed=build.rs");
    println!("cargo::rerun-if-changed=c");
    let out = PathBuf::from(env::var_os("OUT_DIR").expect("cargo names its folder to a build script"));
    for source in &SOURCES {
        println!("cargo::rustc-check-cfg=cfg({})", source.name);
        if built(source, &out) {
            println!("cargo::rustc-cfg={}", source.name);
            println!("cargo::rustc-link-search=native={}", out.display());
            println!("cargo::rustc-link-lib=static=peer_{}", source.name);
            println!("cargo::rustc-link-lib={}", source.library);
        } else {
            println!("cargo::rerun-if-changed={NEVER_THERE}");
            println!(
                "cargo::warning={} is left out: lib{} or its header is not there",
                source.name, source.library
            );
        }
    }
}

/// Whether the peer compiles and links here; if so its archive stands in `out`.
fn built(source: &Source, out: &Path) -> bool {
    let mut files = vec![(
        Path::new("c").join(source.name).with_extension("c"),
        out.join(source.name).with_extension("o"),
    )];
    if let Some((folder, file)) = source.beside {
        files.push((Path::new(folder).join(file), out.join(file).with_extension("beside.o")));
    }
    let include = source.beside.map(|(folder, _)| format!("-I{folder}"));
    let compiled = files.iter().all(|(from, to)| {
        ran(Command::new(compiler())
            .args(["-O3", "-fPIC", "-c"])
            .args(&include)
            .arg(from)
            .arg("-o")
            .arg(to))
    });
    let objects: Vec<&PathBuf> = files.iter().map(|(_, to)| to).collect();
    let trial = out.join(format!("{}.so", source.name));
    let links = || {
        let library = format!("-l{}", source.library);
        ran(Command::new(compiler())
            .arg("-shared")
            .args(&objects)
            .arg(library)
            .arg("-Wl,--no-undefined")
            .arg("-o")
            .arg(&trial))
    };
    let archive = out.join(format!("libpeer_{}.a", source.name));
    compiled && links() && ran(Command::new("ar").arg("rcs").arg(archive).args(&objects))
}

/// The C compiler: built for another machine, the one that cargo is told to link with.
fn compiler() -> OsString {
    let elsewhere = env::var_os("HOST") != env::var_os("TARGET");
    let linker = env::var_os("RUSTC_LINKER").filter(|_| elsewhere);
    linker.unwrap_or_else(|| "cc".into())
}

fn ran(command: &mut Command) -> bool {
    command.output().is_ok_and(|output| output.status.success())
}
