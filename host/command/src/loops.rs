//! `cableowl loops`: the loops that two halls share through a folder, shown and changed.

use std::path::{Path, PathBuf};

use cableowl::{Hall, LoopHalf, LoopsFault, SharedLoops};

use crate::{
    fault::{Fault, Result},
    out::{Out, shown},
    plot::{counted, grouped},
    settings::Place,
};

/// A change of a slot by a hall.
#[derive(Debug, PartialEq)]
pub struct Change {
    /// The folder.
    pub folder: PathBuf,
    /// The hall.
    pub hall: Hall,
    /// The slot.
    pub slot: usize,
    /// The loop that it gets; `None` to empty it.
    pub loops: Option<Loop>,
    /// Frames of the sound, if they are given.
    pub frames: Option<u64>,
    /// Frames per second of the sound.
    pub rate: u32,
}

/// A loop and its name.
#[derive(Debug, PartialEq)]
pub struct Loop {
    /// Where it starts.
    pub start: Place,
    /// Where it ends, exclusive.
    pub end: Place,
    /// Its name.
    pub name: String,
}

/// Shows the loops of a folder. A hall's file that is refused is named, and the other hall's is shown.
pub fn show(
    folder: &Path,
    rate: u32,
    out: &mut Out<'_>,
    complain: &mut dyn FnMut(&Fault),
) -> Result<bool> {
    let mut halves = Vec::new();
    let mut well = true;
    for hall in [Hall::A, Hall::B] {
        match LoopHalf::read_from(folder, hall) {
            Ok(Some(half)) => {
                let says = counted(half.changes(), "change");
                halves.push((hall, says, Some(half)));
            }
            Ok(None) => halves.push((hall, "no file".into(), None)),
            Err(fault) => {
                complain(&refused(&fault));
                well = false;
                halves.push((hall, "cannot be shown".into(), None));
            }
        }
    }
    put(&halves, rate, out)?;
    Ok(well)
}

/// Makes a change, and shows the folder.
pub fn change(
    change: &Change,
    out: &mut Out<'_>,
    complain: &mut dyn FnMut(&Fault),
) -> Result<bool> {
    let num_frames = match change.frames {
        Some(frames) => frames,
        None => recorded(&change.folder)?,
    };
    let opened = SharedLoops::open(&change.folder, change.hall, num_frames, &[]);
    let mut loops = opened.map_err(|fault| refused(&fault))?;
    let changed = match &change.loops {
        Some(given) => {
            let frame = |place: Place| place.frame(change.rate).map(u64::from);
            let frames = frame(given.start)?..frame(given.end)?;
            loops.write(change.slot, frames, &given.name)
        }
        None => loops.clear(change.slot),
    };
    changed.map_err(|fault| refused(&fault))?;
    show(&change.folder, change.rate, out, complain)
}

/// Shows each hall's newest half among copies, and which copy has it.
pub fn merge(copies: &[PathBuf], rate: u32, out: &mut Out<'_>) -> Result<()> {
    let mut halves = Vec::new();
    for hall in [Hall::A, Hall::B] {
        let mut newest: Option<(LoopHalf, &Path)> = None;
        let mut older = Vec::new();
        for folder in copies {
            let read = LoopHalf::read_from(folder, hall).map_err(|fault| refused(&fault))?;
            let Some(half) = read else { continue };
            let Some((ours, from)) = &mut newest else {
                newest = Some((half, folder));
                continue;
            };
            let had = ours.changes();
            ours.merge(&half).map_err(|refusal| {
                Fault::refused(format!(
                    "hall {hall:?} in {} and in {}: {refusal}",
                    shown(from),
                    shown(folder)
                ))
            })?;
            match half.changes() {
                now if now > had => {
                    older.push(format!("{} has {had}", shown(from)));
                    *from = folder;
                }
                now if now < had => older.push(format!("{} has {now}", shown(folder))),
                _ => {}
            }
        }
        let says = match &newest {
            Some((half, from)) => {
                let older = match older.is_empty() {
                    true => String::new(),
                    false => format!("; older: {}", older.join(", ")),
                };
                let changes = counted(half.changes(), "change");
                format!("{changes}, from {}{older}", shown(from))
            }
            None => "no file".into(),
        };
        halves.push((hall, says, newest.map(|(half, _)| half)));
    }
    if let [(_, _, Some(a)), (_, _, Some(b))] = halves.as_slice()
        && a.num_frames() != b.num_frames()
    {
        return Err(Fault::refused(format!(
            "hall A and hall B: {}",
            cableowl::Refusal::OtherFrames
        )));
    }
    put(&halves, rate, out)
}

/// The frames of the sound, as a half in the folder records them.
fn recorded(folder: &Path) -> Result<u64> {
    for hall in [Hall::A, Hall::B] {
        if let Ok(Some(half)) = LoopHalf::read_from(folder, hall) {
            return Ok(half.num_frames());
        }
    }
    Err(Fault::usage(format!(
        "{}: has no loops yet: give the sound's frames with --frames",
        shown(folder)
    )))
}

/// A line for each hall, and the slots with a loop.
fn put(halves: &[(Hall, String, Option<LoopHalf>)], rate: u32, out: &mut Out<'_>) -> Result<()> {
    let seconds = |frames: u64| format!("{:.3} s", frames as f64 / f64::from(rate));
    let both = |frames: u64| format!("{} ({})", grouped(frames), seconds(frames));
    let mut rows = Vec::new();
    for (hall, says, half) in halves {
        out.put(format!("{:<10}{says}\n", format!("hall {hall:?}")))?;
        let Some(half) = half else { continue };
        for slot in 0..16 {
            if let Some(held) = half.read(slot) {
                let length = held.end - held.start;
                let name = shown(Path::new(half.name(slot)));
                rows.push((slot, both(held.start), both(held.end), both(length), name));
            }
        }
    }
    let sound = halves.iter().find_map(|(_, _, half)| half.as_ref());
    if let Some(half) = sound {
        let frames = counted(half.num_frames(), "frame");
        let length = seconds(half.num_frames());
        out.put(format!("{:<10}{frames} ({length})\n", "sound"))?;
    }
    out.put(format!(
        "{:<10}at {} frames a second; --rate HZ gives another\n",
        "seconds",
        grouped(rate.into())
    ))?;
    if rows.is_empty() {
        return out.put("no slot holds a loop\n");
    }
    out.put(format!(
        "{:>4}  {:>22}  {:>22}  {:>22}  name\n",
        "slot", "start", "end", "length"
    ))?;
    for (slot, start, end, length, name) in rows {
        let row = format!("{slot:>4}  {start:>22}  {end:>22}  {length:>22}  {name}");
        out.put(format!("{}\n", row.trim_end()))?;
    }
    Ok(())
}

fn refused(fault: &LoopsFault) -> Fault {
    Fault::refused(fault.to_string())
}
