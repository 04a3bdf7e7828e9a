//! `cableowl audit FOLDER..`: every NAME.trace with the NAME.log beside it, on all processors.

use std::{
    collections::BTreeMap,
    fs, io,
    path::{Path, PathBuf},
};

use super::{
    Verdict,
    evenings::{Evening, Evenings, Outcome},
    found, opened,
    page::creep_plot,
    words::{hourly, sentence},
};
use crate::{
    fault::{Fault, Result, reason},
    out::{Fresh, Out, free_for_a_page, shown},
    sounds::{Places, Sounds},
    workers,
};

/// An evening's files, by their name without `.trace` and `.log`.
struct Files {
    name: String,
    trace: Option<PathBuf>,
    log: Option<PathBuf>,
}

/// Audits every pair in the folders, and returns whether all agree. If sounds are given, a row says which sounds of a
/// trace were not found.
pub fn audit(
    folders: &[PathBuf],
    places: &Places,
    as_csv: bool,
    to: Option<&Path>,
    out: &mut Out<'_>,
) -> Result<bool> {
    if let Some(path) = to {
        free_for_a_page(path)?;
    }
    let files = files(folders)?;
    if files.is_empty() {
        return Err(Fault::Unknown(
            "no file NAME.trace or NAME.log in these folders: nothing is said of any box".into(),
        ));
    }
    let sounds = Sounds::given(places).map_err(|fault| match fault {
        Fault::Refused(words) => Fault::Unknown(format!("{words}: nothing is said of any box")),
        other => other,
    })?;
    let audited = |files: &Files| audited(files, sounds.as_ref(), to.is_some());
    let evenings = Evenings {
        rows: workers::each(&files, "audited", audited),
        with_sounds: sounds.is_some(),
    };
    match as_csv {
        true => out.put(evenings.csv())?,
        false => evenings.put_text(out)?,
    }
    if let Some(path) = to {
        let mut file = Fresh::begin(path)?;
        evenings.page(&mut |text| file.put(text.as_bytes()))?;
        file.replace()?;
    }
    let is = |outcome| move |evening: &Evening| evening.outcome == outcome;
    match evenings.rows.iter().any(is(Outcome::Differs)) {
        true => Ok(false),
        false if evenings.rows.iter().all(is(Outcome::Agrees)) => Ok(true),
        false => Err(Fault::Unsaid),
    }
}

/// The files of the folders, by name.
fn files(folders: &[PathBuf]) -> Result<Vec<Files>> {
    let mut named: BTreeMap<PathBuf, Files> = BTreeMap::new();
    for folder in folders {
        let unread = |error: &io::Error| {
            let (name, why) = (shown(folder), reason(error));
            Fault::Unknown(format!(
                "{name}: cannot be read: {why}: nothing is said of any box"
            ))
        };
        for entry in fs::read_dir(folder).map_err(|error| unread(&error))? {
            let path = entry.map_err(|error| unread(&error))?.path();
            let kind = path.extension().and_then(|kind| kind.to_str());
            let (bare, is_trace) = match kind {
                Some("trace") => (path.with_extension(""), true),
                Some("log") => (path.with_extension(""), false),
                _ => continue,
            };
            let files = named.entry(bare.clone()).or_insert_with(|| Files {
                name: shown(&bare),
                trace: None,
                log: None,
            });
            match is_trace {
                true => files.trace = Some(path),
                false => files.log = Some(path),
            }
        }
    }
    Ok(named.into_values().collect())
}

/// An evening's row, with its plot if it differs and a page was asked for.
fn audited(files: &Files, sounds: Option<&Sounds>, draws: bool) -> Evening {
    let evening = |outcome, says: String| Evening {
        name: files.name.clone(),
        outcome,
        block: None,
        creep: None,
        seconds: 0.0,
        says,
        missing: Vec::new(),
        plot: String::new(),
    };
    let (trace, log) = match (&files.trace, &files.log) {
        (Some(trace), Some(log)) => (trace, log),
        (None, _) => return evening(Outcome::Unpaired, "it has no trace".into()),
        (_, None) => return evening(Outcome::Unpaired, "it has no log".into()),
    };
    let compared = opened(trace, log, true)
        .and_then(|(trace, log)| found(trace, log, sounds, false, &mut |_, _, _| Ok(())));
    let found = match compared {
        Ok(found) => found,
        Err(fault) => return evening(Outcome::Unknown, fault.to_string()),
    };
    let outcome = match found.verdict() {
        Verdict::Agrees => Outcome::Agrees,
        Verdict::Differs => Outcome::Differs,
        Verdict::Unknown => Outcome::Unknown,
    };
    let differs = outcome == Outcome::Differs;
    Evening {
        missing: found.missing.clone(),
        block: found.first.first().map(|first| first.segment.said.first),
        creep: hourly(&found).filter(|_| differs),
        seconds: found.seconds,
        plot: match differs && draws {
            true => creep_plot(&found),
            false => String::new(),
        },
        ..evening(outcome, sentence(&found))
    }
}
