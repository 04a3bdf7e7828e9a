//! `cableowl report`: the figures of evenings, one row for each log, and all of them together; or of groups of
//! evenings.

mod evening;
pub mod files;
pub mod grouping;
mod groups;
mod page;
mod plots;
mod rows;
mod text;
mod whiskers;

use std::path::{Path, PathBuf};

pub use evening::Rates;
pub use groups::per_100;

use crate::{
    fault::{Fault, Result},
    input::Input,
    out::{Fresh, Out, free_for_a_page},
    workers,
};
use evening::{Damage, is_whole, read};
use grouping::{Asked, Grouping};
use groups::Groups;
use page::Drawn;

/// What a report is asked for.
#[derive(Debug, PartialEq, Eq)]
pub struct Request {
    /// Logs and traces, or folders of logs.
    pub files: Vec<PathBuf>,
    /// Frames per second.
    pub rates: Rates,
    /// How the evenings are grouped, if they are.
    pub by: Option<Asked>,
    /// Whether to print comma separated values.
    pub csv: bool,
    /// Where the page is written.
    pub page: Option<PathBuf>,
}

/// A file that was read.
struct Session {
    drawn: Drawn,
    damage: Option<Damage>,
    group: Option<String>,
}

/// Reports on logs and traces. A file that is refused or has no group is left out, and `complain` gets a sentence. A
/// file that is given twice gets a sentence too.
pub fn report(
    request: &Request,
    out: &mut Out<'_>,
    complain: &mut dyn FnMut(&Fault),
) -> Result<bool> {
    let mut all_read = true;
    let files = files::logs_in(&request.files, &mut |fault| {
        complain(fault);
        all_read = false;
    });
    if let Some(page) = &request.page {
        files::not_an_input(page, &files)?;
        free_for_a_page(page)?;
    }
    let grouping = request.by.as_ref().map(Grouping::read).transpose()?;
    let of_many = files.len() > 1;
    let stretches = plots::stretches(files.len());
    let read = workers::each(&files, "read", |file| {
        session(file, request, grouping.as_ref(), stretches, of_many)
    });
    let mut evenings = Vec::new();
    let mut groups = request.by.as_ref().map(|by| Groups::new(by.name()));
    for (session, again) in read.into_iter().zip(files::again(&files)) {
        let mut session = match session {
            Ok(session) => session,
            Err(fault) => {
                complain(&fault);
                all_read = false;
                continue;
            }
        };
        let evening = &mut session.drawn.evening;
        evening.again = again;
        all_read &= is_whole(evening, session.damage.as_ref(), complain);
        if again {
            complain(&Fault::refused(format!(
                "{}: this file is given twice, and counts twice in the totals",
                evening.name
            )));
        }
        if let (Some(groups), Some(group)) = (&mut groups, session.group) {
            groups.add(group, &evening.figures);
        }
        evenings.push(session.drawn);
    }
    if evenings.is_empty() {
        return Ok(false);
    }
    put(&evenings, groups.as_ref(), request, out)?;
    Ok(all_read)
}

/// Reads a file, and draws its plots if they are asked for.
fn session(
    file: &Path,
    request: &Request,
    grouping: Option<&Grouping>,
    stretches: usize,
    of_many: bool,
) -> Result<Session> {
    let group = grouping
        .map(|grouping| grouping.of_file(file))
        .transpose()?;
    let input = Input::open(file)?.without_progress(of_many);
    let read = read(input, request.rates, stretches)?;
    let plots = match request.page.is_some() && read.evening.figures.frames > 0 {
        true => plots::drawn(&read.evening, &read.course, request.rates.device),
        false => String::new(),
    };
    Ok(Session {
        drawn: Drawn {
            evening: read.evening,
            plots,
        },
        damage: read.damage,
        group,
    })
}

fn put(
    evenings: &[Drawn],
    groups: Option<&Groups>,
    request: &Request,
    out: &mut Out<'_>,
) -> Result<()> {
    let rate = request.rates.device;
    let rows = rows::rows(evenings.iter().map(|drawn| &drawn.evening), rate);
    match (groups, request.csv) {
        (Some(groups), true) => out.put(groups.csv(rate))?,
        (Some(groups), false) => groups.put_text(rate, out)?,
        (None, true) => out.put(rows::csv(&rows, rate))?,
        (None, false) => match evenings {
            [one] => text::put_one(&one.evening, rate, out)?,
            _ => text::put_table(&rows, rate, out)?,
        },
    }
    if evenings.len() > 1 && !request.csv {
        text::put_misfits(evenings.iter().map(|drawn| &drawn.evening), out)?;
    }
    if let Some(path) = &request.page {
        let mut file = Fresh::begin(path)?;
        let mut sink = |text: &str| file.put(text.as_bytes());
        page::page(evenings, &rows, groups, request.rates, &mut sink)?;
        file.replace()?;
    }
    Ok(())
}
