//! Files that have to be there.

use std::ffi::OsString;

/// The bytes of all files that can be read; each other one is told on standard error.
pub fn read_all(program: &str, files: &[OsString]) -> Vec<Vec<u8>> {
    let read = |file: &OsString| {
        std::fs::read(file).map_err(|why| eprintln!("{program}: {}: {why}", file.to_string_lossy())).ok()
    };
    files.iter().filter_map(read).collect()
}
