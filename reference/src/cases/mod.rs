//! The cases: what the product's programs read from standard input, and what they must write.

pub mod batch;
pub mod batches;
pub mod bounds;
pub mod carried;
pub mod count_records;
pub mod counted_lists;
pub mod edits;
pub mod handful;
pub mod handful_run;
pub mod handful_tables;
pub mod jitter;
pub mod jitter_run;
pub mod jitter_tables;
pub mod lists;
pub mod make;
pub mod named_edits;
pub mod named_lists;
pub mod next;
pub mod next_tables;
pub mod onward;
pub mod port;
pub mod port_records;
pub mod recordings;
pub mod redundancy;
pub mod redundancy_calls;
pub mod redundancy_runs;
pub mod replay;
pub mod table;
pub mod table_files;
pub mod table_records;
pub mod tandem;
pub mod tandem_lists;
pub mod tandem_watch;

use std::fs;
use std::io;
use std::path::Path;

/// What a program reads, and what it must write.
pub struct Cases {
    pub stdin: Vec<u8>,
    pub stdout: Vec<u8>,
    /// How many cases there are of each kind, for a person to read.
    pub summary: String,
}

/// The files of a program's folder, by name.
pub type Files = Vec<(&'static str, Vec<u8>)>;

impl Cases {
    pub fn files(self) -> Files {
        vec![("stdin", self.stdin), ("stdout", self.stdout)]
    }
}

pub fn store(files: &[(impl AsRef<Path>, Vec<u8>)], folder: &Path) -> io::Result<()> {
    for (name, bytes) in files {
        let path = folder.join(name);
        fs::create_dir_all(path.parent().unwrap_or(folder))?;
        fs::write(path, bytes)?;
    }
    Ok(())
}

/// The name of the first file in the folder that is not what was computed.
pub fn differing(files: &Files, folder: &Path) -> io::Result<Option<&'static str>> {
    for (name, bytes) in files {
        if fs::read(folder.join(name))? != *bytes {
            return Ok(Some(name));
        }
    }
    Ok(None)
}
