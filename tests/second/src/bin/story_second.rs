//! story-second PLANFILE JOURNALFILE: prints the ways passed over, or why they can't be told.

use std::process::ExitCode;

fn main() -> ExitCode {
    let files: Vec<_> = std::env::args_os().skip(1).collect();
    if files.len() != 2 {
        eprintln!("usage: story-second PLANFILE JOURNALFILE");
        return ExitCode::from(2);
    }
    let read = second::files::read_all("story-second", &files);
    let [sheet, journal] = read.as_slice() else {
        return ExitCode::FAILURE;
    };
    print!("{}", second::story::story(sheet, journal));
    ExitCode::SUCCESS
}
