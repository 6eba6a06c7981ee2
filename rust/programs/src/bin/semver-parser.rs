//! The program `semver-parser`, and a line of help.

use std::io::Write;

fn main() -> std::process::ExitCode {
    let status = programs::semver_parser();
    explain_itself();
    status
}

/// If the only argument is `--help` or `--version`, writes to standard error what the program does.
/// To the program these are strings like any other, so its output and its status stay as they are.
fn explain_itself() {
    let mut arguments = std::env::args_os().skip(1);
    let asked = arguments
        .next()
        .is_some_and(|it| it == "--help" || it == "--version");
    if asked && arguments.next().is_none() {
        let _ = writeln!(
            std::io::stderr(),
            "semver-parser {} has no options: it prints how its argument is read as a version and \
             as a range; see the manual semver-parser(1)",
            env!("CARGO_PKG_VERSION")
        );
    }
}
