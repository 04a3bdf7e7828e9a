//! `cableowl salvage`: the complete records of a damaged trace, in a new file.

use std::path::Path;

use cableowl::trace::TraceVersion;

use crate::{
    fault::Result,
    input::{Input, working},
    out::{Fresh, Out, free, shown},
    plot::counted,
};

/// Copies the complete records of a version. The new file gets its name only when it is complete, and it replaces no
/// other file. So the trace itself cannot be overwritten, whatever name it is given by.
pub fn salvage(version: TraceVersion, trace: &Path, to: &Path, out: &mut Out<'_>) -> Result<()> {
    free(to)?;
    let mut input = Input::open(trace)?;
    let bytes = input.all()?;
    let mut kept = Vec::new();
    let room = kept.try_reserve_exact(bytes.len());
    room.map_err(|_| input.wrong("is too long: there is no room for a second copy in memory"))?;
    kept.resize(bytes.len(), 0);
    let salvaged = working(input.name(), || version.salvage(&bytes, &mut kept));
    let salvaged = salvaged.map_err(|refusal| input.wrong(refusal))?;
    let mut file = Fresh::begin(to)?;
    file.put(kept.get(..salvaged.kept).unwrap_or_default())?;
    file.keep()?;
    let skipped = match salvaged.skipped {
        0 => "nothing skipped".into(),
        skipped => format!(
            "{} skipped, the first at byte {}",
            counted(skipped as u64, "byte"),
            salvaged.first_skipped
        ),
    };
    out.put(format!(
        "{}: {} kept, {skipped}; written to {}\n",
        input.name(),
        counted(salvaged.records as u64, "record"),
        shown(to)
    ))
}
