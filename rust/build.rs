//! Links the proved functions as a static library.
//!
//! Where the library was built before, NMEA_LIB names the folder that has
//! libcapi.a, and it is linked from there. Else Rattle's `rt` proves and
//! compiles it, for x86-64, which is what that toolchain compiles for.
//!
//! `rt` keeps what it proved, and lays what it makes, in the folder `out` of
//! each crate, which is no part of the sources. It is run where these stand,
//! and not in a copy in OUT_DIR: then nothing is proved twice, and `rt ci`,
//! which takes no second crates.txt below the repository, passes behind a
//! build. Whether something has to be proved again is left to `rt`, which
//! knows what it proved: that a library is newer than the sources would not
//! say that it was made of them.

use std::{
    env, fs, io,
    path::{Path, PathBuf},
    process::{exit, Command},
};

/// What of a crate `rt` makes the library of.
const PARTS: [&str; 3] = ["src", "specs", "proofs"];

fn main() {
    println!("cargo:rerun-if-env-changed=NMEA_LIB");
    match library() {
        Ok(folder) => {
            println!("cargo:rustc-link-search=native={}", folder.display());
            println!("cargo:rustc-link-lib=static=capi");
        }
        Err(why) => {
            eprintln!("proved-nmea: {why}");
            exit(1);
        }
    }
}

/// The folder with libcapi.a.
fn library() -> Result<PathBuf, String> {
    let arch = env::var("CARGO_CFG_TARGET_ARCH").unwrap_or_default();
    if arch != "x86_64" {
        return Err(format!(
            "the Rattle toolchain compiles for x86-64, and this target is {arch}"
        ));
    }
    if let Some(folder) = env::var_os("NMEA_LIB") {
        let folder = PathBuf::from(folder);
        let library = folder.join("libcapi.a");
        println!("cargo:rerun-if-changed={}", library.display());
        return match library.is_file() {
            true => Ok(folder),
            false => Err(format!("NMEA_LIB: there is no {}", library.display())),
        };
    }

    let folder = |name| env::var_os(name).map(PathBuf::from).ok_or("cargo runs it");
    let repository = folder("CARGO_MANIFEST_DIR")?.join("..");
    let sources = sources(&repository).map_err(|why| {
        format!(
            "{why}, of which the library is made: name the folder that has libcapi.a in NMEA_LIB"
        )
    })?;
    for source in sources {
        println!("cargo:rerun-if-changed={}", source.display());
    }
    let out = folder("OUT_DIR")?;
    let (made, library) = (prove(&repository)?, out.join("libcapi.a"));
    // One that may not be written is replaced too.
    let _ = fs::remove_file(&library);
    fs::copy(made, &library).map_err(|error| format!("{}: {error}", library.display()))?;
    Ok(out)
}

/// The files and folders of which the library is made, or what is missing.
fn sources(repository: &Path) -> Result<Vec<PathBuf>, String> {
    let list = repository.join("crates.txt");
    let crates = repository.join("crates");
    if !list.is_file() {
        return Err(format!("there is no {}", list.display()));
    }
    let parts = parts(&crates).map_err(|error| format!("{}: {error}", crates.display()))?;
    Ok([list].into_iter().chain(parts).collect())
}

fn parts(crates: &Path) -> io::Result<Vec<PathBuf>> {
    let mut parts = vec![];
    for folder in fs::read_dir(crates)? {
        let folder = folder?.path();
        parts.extend(PARTS.map(|part| folder.join(part)));
    }
    // Cargo would build anew each time for one that is not there.
    parts.retain(|part| part.exists());
    Ok(parts)
}

/// Runs `rt`, which proves and compiles the functions: the library.
fn prove(repository: &Path) -> Result<PathBuf, String> {
    let exports = repository.join("crates/capi_c");
    let library = exports.join("out/libcapi_c.a");
    if !library.exists() {
        // Cargo shows it when the script has ended, and `cargo build -vv` at once.
        println!(
            "cargo:warning=the functions come from `rt lib` in crates/capi_c, which proves and \
             compiles them: the first build waits some minutes for it"
        );
    }
    let output = Command::new("rt")
        .arg("lib")
        .current_dir(&exports)
        .output()
        .map_err(|error| {
            format!(
                "`rt` does not start ({error}). Put the Rattle toolchain's `rt` on the PATH, \
                 or name the folder that has libcapi.a in NMEA_LIB"
            )
        })?;
    if !output.status.success() {
        let [said, log] =
            [&output.stdout, &output.stderr].map(|text| String::from_utf8_lossy(text));
        return Err(format!("`rt lib` in crates/capi_c failed:\n{said}{log}"));
    }
    match library.is_file() {
        true => Ok(library),
        false => Err(format!(
            "`rt lib` in crates/capi_c left no {}",
            library.display()
        )),
    }
}
