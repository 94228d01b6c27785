//! The program's arguments, and where failing cases are kept.

use crate::library::Call;
use std::fs;
use std::path::{Path, PathBuf};

pub struct Options {
    pub seed: u64,
    pub cases: u64,
    /// Runs this case alone.
    pub only: Option<u64>,
    /// The case is one of this call on tables.
    pub call: Option<Call>,
    /// Runs this run of a program alone.
    pub run: Option<u64>,
    /// Only writes, to this file, what the program `vectors` must write.
    pub vectors: Option<PathBuf>,
}

const USAGE: &str = "second [--seed S] [--cases N] [--only CASE [--call CALL] | --run RUN | --vectors FILE]";

fn failures() -> PathBuf {
    Path::new(env!("CARGO_MANIFEST_DIR")).join("../../target/second-failures")
}

/// Failures of an earlier run would be taken for this one's.
pub fn forget_failures() {
    // Mostly there are none.
    let _ = fs::remove_dir_all(failures());
}

impl Options {
    pub fn from_arguments() -> Result<Options, String> {
        let mut options = Options {
            seed: 20071012,
            cases: 80_000,
            only: None,
            call: None,
            run: None,
            vectors: None,
        };
        let mut arguments = std::env::args().skip(1);
        while let Some(argument) = arguments.next() {
            let value = arguments.next().ok_or(USAGE)?;
            let number = || value.parse().map_err(|_| USAGE);
            match argument.as_str() {
                "--seed" => options.seed = number()?,
                "--cases" => options.cases = number()?,
                "--only" => options.only = Some(number()?),
                "--run" => options.run = Some(number()?),
                "--vectors" => options.vectors = Some(PathBuf::from(&value)),
                "--call" => options.call = Some(Call::named(&value).ok_or(USAGE)?),
                _ => return Err(USAGE.to_string()),
            }
        }
        Ok(options)
    }

    /// Writes a failing case out: files of one name, each with its end and its bytes.
    pub fn keep(&self, name: &str, files: &[(&str, &[u8])]) {
        let folder = failures();
        let path = folder.join(format!("seed-{}-{name}", self.seed));
        let kept = fs::create_dir_all(&folder).and_then(|()| {
            let mut files = files.iter();
            files.try_for_each(|(end, bytes)| fs::write(path.with_extension(end), bytes))
        });
        match kept {
            Ok(()) => println!("kept as {}", path.display()),
            Err(error) => println!("not kept: {error}"),
        }
    }
}
