//! The program `release-filter`.

fn main() -> std::process::ExitCode {
    programs::release_filter()
}
