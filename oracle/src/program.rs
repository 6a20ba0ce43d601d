//! Where our proved programs stand, and how they are run on this machine.

use std::{
    env::{self, consts::ARCH},
    ffi::OsString,
    fmt, fs,
    path::{Path, PathBuf},
    process::Command,
};

/// How a program is run.
#[derive(Clone, Debug)]
pub(crate) struct Program {
    words: Vec<OsString>,
    /// Whether the command keeps the environment. The proved program uses
    /// none, and the emulator and the loader would be turned aside by theirs.
    keeps_environment: bool,
}

impl Program {
    /// The program of that name. A command line in the environment's
    /// `NMEA_NAME` is run as it stands instead, its words parted by spaces.
    pub(crate) fn find(name: &str) -> Result<Self, String> {
        let instead = format!("NMEA_{}", name.to_uppercase());
        if let Ok(line) = env::var(&instead) {
            let words: Vec<OsString> = line.split_whitespace().map(OsString::from).collect();
            if words.is_empty() {
                return Err(format!("{instead} holds no command"));
            }
            return Ok(Program {
                words,
                keeps_environment: true,
            });
        }

        let repository = Path::new(env!("CARGO_MANIFEST_DIR")).join("..");
        let built = format!("crates/{name}/out/{name}");
        let program = repository.join(&built);
        if !program.is_file() {
            return Err(format!(
                "{built} is not there: `rt ci` makes it, and `rt run` in crates/{name}"
            ));
        }
        let mut words = match toolchain() {
            Some(tools) => under_the_loader(&tools),
            None if ARCH == "x86_64" => vec![],
            None => {
                return Err(format!(
                    "{built} is for x86-64, and no `rt` is there to run it on {ARCH}"
                ))
            }
        };
        words.push(program.into());
        Ok(Program {
            words,
            keeps_environment: false,
        })
    }

    pub(crate) fn command(&self) -> Command {
        let mut command = Command::new(&self.words[0]);
        command.args(&self.words[1..]);
        if !self.keeps_environment {
            command.env_clear();
        }
        command
    }
}

impl fmt::Display for Program {
    fn fmt(&self, f: &mut fmt::Formatter) -> fmt::Result {
        let words: Vec<_> = self
            .words
            .iter()
            .map(|word| word.to_string_lossy())
            .collect();
        f.write_str(&words.join(" "))
    }
}

/// The toolchain for this machine in the kit that `rt` belongs to.
fn toolchain() -> Option<PathBuf> {
    let home = match env::var_os("RATTLE_HOME") {
        Some(home) => PathBuf::from(home),
        None => home_of_rt()?,
    };
    let tools = home.join("on").join(ARCH).join("toolchain");
    tools.is_dir().then_some(tools)
}

/// The kit's folder: `rt` stands in its `bin`, and may be found by a link.
fn home_of_rt() -> Option<PathBuf> {
    let path = env::var_os("PATH")?;
    let rt = env::split_paths(&path)
        .map(|folder| folder.join("rt"))
        .find(|file| file.is_file())?;
    let rt = fs::canonicalize(rt).ok()?;
    Some(rt.parent()?.parent()?.to_path_buf())
}

/// As `rt` runs a program: by the kit's loader and C library, and by its
/// emulator where the kit has one for this machine.
fn under_the_loader(tools: &Path) -> Vec<OsString> {
    let emulator = tools.join("bin/qemu-x86_64");
    let lib = tools.join("lib");
    let mut words: Vec<OsString> = vec![];
    if emulator.is_file() {
        words.push(emulator.into());
    }
    words.push(lib.join("ld-linux-x86-64.so.2").into());
    words.push("--library-path".into());
    words.push(lib.into());
    words
}
