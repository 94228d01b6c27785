//! The plans below `examples/` at the project's root, for people: each in both forms, some with vectors and a trace.

use crate::aiger::programs::{output, Program};
use crate::ensure;
use crate::tally::Tally;
use std::fs;
use std::path::{Path, PathBuf};

/// At least so many plans must be found.
const FEWEST: usize = 5;

pub fn run(tally: &mut Tally) {
    let root = Path::new(env!("CARGO_MANIFEST_DIR")).join("../../examples");
    let entries = fs::read_dir(&root).into_iter().flatten();
    let paths = entries.filter_map(|entry| Some(entry.ok()?.path()));
    let mut plans: Vec<PathBuf> = paths
        .filter(|path| path.extension().is_some_and(|end| end == "aag"))
        .collect();
    plans.sort();
    let enough = if plans.len() < FEWEST {
        Err(format!("only {} found", plans.len()))
    } else {
        Ok(())
    };
    tally.check("plans for people", enough);
    for plan in plans {
        tally.check(&plan.display().to_string(), check(&plan));
    }
}

fn check(plan: &Path) -> Result<(), String> {
    let beside = |end: &str| fs::read(plan.with_extension(end)).map_err(|error| format!("{end}: {error}"));
    let [text, binary] = [beside("aag")?, beside("aig")?];
    let converted = output(Program::Converter, Some(&text), None);
    ensure!(converted == binary, "converts to {converted:02x?}");
    let (Ok(vectors), Ok(trace)) = (beside("vectors"), beside("trace")) else {
        return Ok(());
    };
    for form in [&text, &binary] {
        let given = output(Program::Tracer, Some(form), Some(&vectors));
        ensure!(given == trace, "trace: given {:?}", String::from_utf8_lossy(&given));
    }
    Ok(())
}
