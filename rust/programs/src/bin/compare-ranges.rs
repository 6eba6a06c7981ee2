//! The program `compare-ranges`.

fn main() -> std::process::ExitCode {
    programs::compare_ranges()
}
