//! drill-second PLANFILE REPLIESFILE: prints what the drill must print.

use std::ffi::OsStr;
use std::io::ErrorKind;
use std::process::ExitCode;

fn is_missing(file: &OsStr) -> bool {
    std::fs::metadata(file).is_err_and(|why| why.kind() == ErrorKind::NotFound)
}

fn main() -> ExitCode {
    let files: Vec<_> = std::env::args_os().skip(1).collect();
    let [plan, replies] = files.as_slice() else {
        eprintln!("usage: drill-second PLANFILE REPLIESFILE");
        return ExitCode::from(2);
    };
    let input = second::files::read_all("drill-second", std::slice::from_ref(replies));
    // Only a missing sheet counts as empty.
    let sheet = if is_missing(plan) {
        vec![Vec::new()]
    } else {
        second::files::read_all("drill-second", std::slice::from_ref(plan))
    };
    let ([sheet], [input]) = (sheet.as_slice(), input.as_slice()) else {
        return ExitCode::FAILURE;
    };
    print!("{}", second::drill::drill(sheet, input));
    ExitCode::SUCCESS
}
