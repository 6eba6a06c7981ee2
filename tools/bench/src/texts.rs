//! The texts that are made, and the file of the stored ones; `texts/README.md` describes them.

use crate::generation::Make;
use std::fs;
use std::path::Path;

/// How many different texts a row is timed with: too many for a processor to remember their
/// branches.
pub const COUNT: usize = 100_000;

/// The file with the ranges that versions are filtered by.
const FILTERS: &str = "texts/filters.txt";

/// The directory that texts are written to, to be looked at.
const FOLDER: &str = "target/texts";

/// Returns the ranges that versions are filtered by, one on each line.
pub fn filters() -> Result<String, String> {
    fs::read_to_string(FILTERS).map_err(|error| format!("{FILTERS}: {error}"))
}

/// Writes the texts of each make to a file.
pub fn write_all(seed: u64) -> Result<(), String> {
    fs::create_dir_all(FOLDER).map_err(|error| format!("{FOLDER}: {error}"))?;
    for (name, make) in Make::ALL {
        let path = Path::new(FOLDER).join(format!("{name}.txt"));
        write(&path, &make.texts(seed, COUNT))?;
        println!("bench/{}", path.display());
    }
    Ok(())
}

/// Writes a file.
pub fn write(path: &Path, text: &str) -> Result<(), String> {
    fs::write(path, text).map_err(|error| format!("{}: {error}", path.display()))
}
