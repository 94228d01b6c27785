//! The programs, each run in a folder with what is made for it, and every byte that they write compared.

use crate::aiger::programs::Program;
use crate::coverage::programs::RunCoverage;
use crate::ensure;
use crate::generate::renamed::{renamed, Renamed};
use crate::generate::runs::{self, Input, Plan, Run};
use crate::options::Options;
use crate::tally::Tally;
use std::fs::{self, File};
use std::io::{self, Seek, Write};
use std::path::PathBuf;
use std::process::{Command, Output, Stdio};
use std::thread;

/// What starts a program, and last the folder that has them, with spaces between.
const COMMAND: &str = "GOLVANZO_PROGRAMS";

/// A pipe is fed in pieces of so many bytes.
const PIECE: usize = 1500;

/// There is one pair of files in other numbers for so many cases.
const SHARE_OF_PAIRS: u64 = 3200;

pub struct Programs {
    starter: Vec<String>,
    folder: String,
    /// Holds the folder that the programs run in, and beside it what they are given as standard input.
    room: PathBuf,
}

/// The programs if their folder is named.
pub fn programs() -> Result<Option<Programs>, String> {
    let Ok(command) = std::env::var(COMMAND) else {
        return Ok(None);
    };
    let mut starter: Vec<String> = command.split_ascii_whitespace().map(str::to_string).collect();
    let folder = starter.pop().ok_or_else(|| format!("{COMMAND} is empty"))?;
    let room = std::env::temp_dir().join(format!("second-{}", std::process::id()));
    Ok(Some(Programs { starter, folder, room }))
}

pub fn run(tally: &mut Tally, options: &Options, programs: Option<&Programs>) {
    let mut coverage = RunCoverage::default();
    for number in runs::numbers(options.cases) {
        let run = runs::run(options.seed, number);
        coverage.add(&run);
        finish(tally, options, programs, number, &run);
    }
    coverage.report(tally);
    for number in 0..options.cases / SHARE_OF_PAIRS {
        pair(tally, options, programs, number);
    }
}

/// Both files of a pair in other numbers: the programs write the same bytes, or refuse both.
fn pair(tally: &mut Tally, options: &Options, programs: Option<&Programs>, number: u64) {
    let Renamed { files, .. } = renamed(options.seed, number);
    for program in [Program::Converter, Program::Reducer] {
        let [one, other] = files.each_ref().map(|file| Run::of(program, file));
        let same = if one.answer.is_ok() && other.answer.is_ok() && one.answer != other.answer {
            Err("other bytes".to_string())
        } else {
            Ok(())
        };
        tally.check(
            &format!("seed {} {} of pair {number}", options.seed, program.name()),
            same,
        );
        for run in [&one, &other] {
            finish(tally, options, programs, number, run);
        }
    }
}

pub fn only(tally: &mut Tally, options: &Options, programs: Option<&Programs>, number: u64) {
    finish(tally, options, programs, number, &runs::run(options.seed, number));
}

fn finish(tally: &mut Tally, options: &Options, programs: Option<&Programs>, number: u64, run: &Run) {
    let Run { plan, input, .. } = run;
    let expected = match &run.answer {
        Ok(written) => written.clone(),
        Err(refusal) => refusal.line().into_bytes(),
    };
    let name = format!("{} run {number}", run.program.name());
    let outcome = foretold(run).and_then(|()| programs.map_or(Ok(()), |programs| programs.compare(run, &expected)));
    if let (Err(why), true) = (&outcome, tally.tells()) {
        let told = format!("{why}\n{}\n", told(run));
        let files = [
            ("plan.in", plan.bytes().unwrap_or_default()),
            ("input", input.bytes().unwrap_or_default()),
            ("expected", &expected),
            ("txt", told.as_bytes()),
        ];
        options.keep(&name.replace(' ', "-"), &files);
    }
    tally.check(&format!("seed {} {name}", options.seed), outcome);
}

fn foretold(run: &Run) -> Result<(), String> {
    let Some(foretold) = run.foretold else {
        return Ok(());
    };
    let given = &run.answer;
    ensure!(*given == Err(foretold), "foretold {foretold:?}, given {given:?}");
    Ok(())
}

/// What the files that are kept don't show.
fn told(run: &Run) -> String {
    let plan = match run.plan {
        Plan::File(_) => "a file",
        Plan::Missing => "missing",
        Plan::Folder => "a folder",
    };
    let input = match run.input {
        Input::File(_) => "a file",
        Input::Pipe(_) => "a pipe",
        Input::Folder => "a folder",
        Input::ForWriting => "open for writing only",
        Input::Closed => "closed",
    };
    format!("plan.in is {plan}, standard input is {input}")
}

/// What came of a run.
struct Ended {
    output: Output,
    /// How far standard input was read, if it is a file.
    read: Option<u64>,
}

impl Programs {
    fn compare(&self, run: &Run, expected: &[u8]) -> Result<(), String> {
        let Ended { output, read } = self.start(run).map_err(|error| error.to_string())?;
        let written = &output.stdout;
        ensure!(
            written == expected,
            "{} bytes written, {} expected, different from byte {} on: {:?}",
            written.len(),
            expected.len(),
            written.iter().zip(expected).take_while(|(a, b)| a == b).count(),
            String::from_utf8_lossy(&written[..written.len().min(80)])
        );
        ensure!(output.status.success(), "ended by {}", output.status);
        ensure!(
            output.stderr.is_empty(),
            "said {:?}",
            String::from_utf8_lossy(&output.stderr)
        );
        let may_read = run.program.reads_vectors() && run.circuit.is_some();
        ensure!(
            may_read || read.is_none_or(|read| read == 0),
            "read {read:?} bytes of standard input though nothing is asked of it"
        );
        ensure!(self.stands(&run.plan), "the folder is not as it was");
        Ok(())
    }

    fn start(&self, run: &Run) -> io::Result<Ended> {
        self.lay_out(&run.plan)?;
        let fed = self.room.join("input");
        let mut file = None;
        let stdin = match &run.input {
            Input::File(bytes) => {
                fs::write(&fed, bytes)?;
                // The child's standard input is read on from the same place.
                file.insert(File::open(&fed)?).try_clone()?.into()
            }
            Input::Pipe(_) => Stdio::piped(),
            Input::Folder => File::open(&self.room)?.into(),
            Input::ForWriting => File::create(&fed)?.into(),
            Input::Closed => Stdio::null(),
        };
        let output = self.output(self.command(run).stdin(stdin), run)?;
        let read = file.map(|mut file| file.stream_position()).transpose()?;
        Ok(Ended { output, read })
    }

    fn command(&self, run: &Run) -> Command {
        let program = format!("{}/{}", self.folder, run.program.name());
        let mut words = self.starter.iter().chain([&program]);
        let mut command = match run.input {
            Input::Closed => {
                let mut shell = Command::new("sh");
                shell.args(["-c", "exec \"$@\" <&-", "sh"]);
                shell
            }
            _ => Command::new(words.next().expect("the program at least")),
        };
        command.args(words).current_dir(self.within());
        command
    }

    fn output(&self, command: &mut Command, run: &Run) -> io::Result<Output> {
        let mut child = command.stdout(Stdio::piped()).stderr(Stdio::piped()).spawn()?;
        thread::scope(|scope| {
            if let (Some(mut pipe), Some(bytes)) = (child.stdin.take(), run.input.bytes()) {
                // A program that refuses the plan ends without reading, and the pipe breaks.
                scope.spawn(move || bytes.chunks(PIECE).try_for_each(|piece| pipe.write_all(piece)));
            }
            child.wait_with_output()
        })
    }

    /// The folder that a program runs in.
    fn within(&self) -> PathBuf {
        self.room.join("within")
    }

    fn lay_out(&self, plan: &Plan) -> io::Result<()> {
        self.clear();
        fs::create_dir_all(self.within())?;
        let path = self.within().join("plan.in");
        match plan {
            Plan::File(bytes) => fs::write(path, bytes),
            Plan::Missing => Ok(()),
            Plan::Folder => fs::create_dir(path),
        }
    }

    /// Whether the folder holds what was laid out, and nothing else.
    fn stands(&self, plan: &Plan) -> bool {
        let entries = fs::read_dir(self.within()).map_or(0, Iterator::count);
        let file = fs::read(self.within().join("plan.in")).ok();
        match plan {
            Plan::File(bytes) => entries == 1 && file.as_ref() == Some(bytes),
            Plan::Missing => entries == 0,
            Plan::Folder => entries == 1 && file.is_none(),
        }
    }

    fn clear(&self) {
        // Before the first run there is none.
        let _ = fs::remove_dir_all(&self.room);
    }
}

impl Drop for Programs {
    fn drop(&mut self) {
        self.clear();
    }
}
