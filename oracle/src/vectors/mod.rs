//! The vector files: what this program answers, as antt text that is proved to agree with the
//! definitions.

mod bays;
mod calls;
pub mod fresh;
pub mod pins;
mod rescue;
mod runs;
pub mod sound;
pub mod source;
mod text;
mod uses;
mod why;
mod worlds;

use crate::stored::Stored;

pub use text::is_written;

/// Where the vector files stand, below `crates/`.
pub const FOLDER: &str = "cases/specs";

/// A file by its module name, which is also its name without `.antt`.
struct File {
    module: String,
    text: String,
}

impl File {
    fn new(module: &str, text: String) -> File {
        File {
            module: module.to_string(),
            text,
        }
    }

    fn stored(self) -> Stored {
        let path = format!("{FOLDER}/{}.antt", self.module);
        Stored::new(path, self.text.into_bytes())
    }
}

pub fn files() -> Vec<Stored> {
    let mut files: Vec<File> = runs::runs()
        .iter()
        .map(|run| File::new(run.name, run.text()))
        .collect();
    let calls = calls::texts().into_iter();
    files.extend(calls.map(|(name, text)| File::new(name, text)));
    files.push(File::new("SourceVectors", source::text()));
    files.push(File::new("PinVectors", pins::text()));
    files.push(File::new("BayVectors", bays::text()));
    files.push(File::new("RescueVectors", rescue::text()));
    files.push(File::new("WhyVectors", why::text()));
    files.push(File::new("SoundVectors", sound::text()));
    files.push(File::new("FreshVectors", fresh::text()));
    let modules: String = files
        .iter()
        .map(|file| format!("pub mod {}\n", file.module))
        .collect();
    files.push(File::new("Lib", format!("pub mod Vectors\n{modules}")));
    files.into_iter().map(File::stored).collect()
}
