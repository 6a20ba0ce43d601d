use std::{
    env, fs, io,
    path::{Path, PathBuf},
};

use crate::Log;

/// A log of the corpus.
pub struct CorpusLog {
    pub name: String,
    pub bytes: Vec<u8>,
}

/// The logs of the corpus: those of the folder that the variable NMEA_CORPUS
/// names, else of the one beside the repository.
pub fn corpus() -> io::Result<Vec<CorpusLog>> {
    let folder = match env::var_os("NMEA_CORPUS") {
        Some(folder) => PathBuf::from(folder),
        None => Path::new(env!("CARGO_MANIFEST_DIR")).join("../../shared/corpus"),
    };
    let named = |error: io::Error| {
        let message = format!("{}: {error}", folder.display());
        io::Error::new(error.kind(), message)
    };
    let mut logs = vec![];
    for entry in fs::read_dir(&folder).map_err(named)? {
        let path = entry?.path();
        if path
            .extension()
            .is_some_and(|extension| extension == "nmea")
        {
            logs.push(path);
        }
    }
    logs.sort();
    logs.into_iter()
        .map(|path| {
            Ok(CorpusLog {
                name: path.display().to_string(),
                bytes: fs::read(path)?,
            })
        })
        .collect()
}

/// The lines of all these logs.
pub fn corpus_lines() -> io::Result<Vec<Vec<u8>>> {
    let mut lines = vec![];
    for log in corpus()? {
        lines.extend(Log::of(&log.bytes).lines.into_iter().map(<[u8]>::to_vec));
    }
    Ok(lines)
}
