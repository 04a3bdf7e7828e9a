//! The command `cableowl` that people run, over the library (docs/guide/TOOLS.md has a section for each verb).
#![forbid(unsafe_code)]
#![warn(missing_docs)]

mod audit;
mod completions;
mod course;
mod explain;
mod fault;
mod figures;
mod help;
mod input;
mod interval;
mod log;
mod loops;
mod man;
mod out;
mod page;
mod plot;
mod replay;
mod report;
mod salvage;
mod settings;
mod sound;
mod sounds;
mod summary;
mod table;
mod verbs;
mod version;
mod words;
mod workers;

use std::{ffi::OsString, io::Write};

use fault::{Fault, Result};
use out::Out;
use verbs::VERBS;
use words::Asked;

/// Does what the words ask for, and returns the exit status: 0; 1 if a file was refused or an audit found a difference;
/// 2 if the words mean nothing; 3 if an audit cannot say anything about the box.
pub fn run(
    words: impl IntoIterator<Item = OsString>,
    out: impl Write,
    mut complaints: impl Write,
) -> u8 {
    let words: Vec<OsString> = words.into_iter().collect();
    let help = match verbs::find(&words) {
        Some((verb, _)) => format!("cableowl help {}", verb.name),
        None => "cableowl help".into(),
    };
    let mut out = Out::new(out);
    let mut complain = |fault: &Fault| {
        // There is nowhere to report that the message could not be written.
        let _ = match fault {
            Fault::Closed | Fault::Unsaid => Ok(()),
            Fault::Refused(_) | Fault::Unknown(_) => writeln!(complaints, "cableowl: {fault}"),
            Fault::Usage(_) => {
                writeln!(complaints, "cableowl: {fault}; '{help}' says more")
            }
        };
    };
    let done = obey(&words, &mut out, &mut complain);
    let flushed = out.flush();
    match done.and_then(|well| flushed.map(|()| well)) {
        Ok(true) => 0,
        Ok(false) => 1,
        Err(fault) => {
            complain(&fault);
            fault.status()
        }
    }
}

fn obey(words: &[OsString], out: &mut Out<'_>, complain: &mut dyn FnMut(&Fault)) -> Result<bool> {
    match words::asked(words)? {
        Asked::Help(verb) => {
            let text = of_verb(verb).map_or_else(help::all, help::of);
            out.put(text).map(|()| true)
        }
        Asked::Man(verb) => {
            let page = of_verb(verb).map_or_else(man::all, man::of);
            out.put(page).map(|()| true)
        }
        Asked::Completions(shell) => out.put(completions::of(shell)).map(|()| true),
        Asked::Explain(asked) => explain::explain(&asked, out).map(|()| true),
        Asked::Version => out.put(version::line()).map(|()| true),
        Asked::Summary { trace, sounds } => summary::summary(&trace, &sounds, out, complain),
        Asked::Replay {
            trace,
            form,
            sounds,
            heard,
        } => replay::replay(&trace, form, &sounds, heard.as_deref(), out, complain),
        Asked::Salvage { trace, to, version } => {
            salvage::salvage(version, &trace, &to, out).map(|()| true)
        }
        Asked::ShowSounds { files, rate } => sound::show(&files, rate, out, complain),
        Asked::ShowSettings { file, rate } => settings::show(&file, rate, out).map(|()| true),
        Asked::SaveSettings { save, to } => settings::save(&save, &to, out).map(|()| true),
        Asked::ShowLoops { folder, rate } => loops::show(&folder, rate, out, complain),
        Asked::ChangeLoops(change) => loops::change(&change, out, complain),
        Asked::MergeLoops { copies, rate } => loops::merge(&copies, rate, out).map(|()| true),
        Asked::Report(request) => report::report(&request, out, complain),
        Asked::AuditFolders {
            folders,
            csv,
            page,
            sounds,
        } => audit::folder::audit(&folders, &sounds, csv, page.as_deref(), out),
        Asked::Audit {
            trace,
            log,
            csv,
            page,
            sounds,
        } => audit::audit(&trace, &log, &sounds, csv, page.as_deref(), out, complain),
    }
}

/// The verb of this name.
fn of_verb(name: Option<&str>) -> Option<&'static verbs::Verb> {
    VERBS.iter().find(|verb| Some(verb.name) == name)
}
