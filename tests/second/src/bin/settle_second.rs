//! settle-second PLANFILE FEESFILE JOURNALFILE: prints the report of a settlement, or why there is none.

use std::process::ExitCode;

fn main() -> ExitCode {
    let files: Vec<_> = std::env::args_os().skip(1).collect();
    if files.len() != 3 {
        eprintln!("usage: settle-second PLANFILE FEESFILE JOURNALFILE");
        return ExitCode::from(2);
    }
    let read = second::files::read_all("settle-second", &files);
    let [sheet, fees, journal] = read.as_slice() else {
        return ExitCode::FAILURE;
    };
    print!("{}", second::bill::bill(sheet, fees, journal));
    ExitCode::SUCCESS
}
