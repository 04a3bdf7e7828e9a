// Writes the two files that cannot be included unchanged: the edited sound.rs, and the file that its `mod resampler;`
// looks for. It also builds host/judges/timed, the variant for the benchmark.

use std::{env, error::Error, fs, path::Path};

#[path = "src/edit.rs"]
mod edit;

const SOUND: &str = "../oracle/kira/src/sound/static_sound/sound.rs";
const RESAMPLER: &str = "../oracle/src/sound/static_sound/resampler.rs";

fn main() -> Result<(), Box<dyn Error>> {
    let here = env::var("CARGO_MANIFEST_DIR")?;
    let out = env::var("OUT_DIR")?;
    let (here, out) = (Path::new(&here), Path::new(&out));
    let edited = edit::apply(&fs::read_to_string(here.join(SOUND))?);
    fs::write(out.join("sound.rs"), edited)?;
    let resampler = format!("include!({:?});\n", here.join(RESAMPLER));
    fs::write(out.join("resampler.rs"), resampler)?;
    if env::var("CARGO_PKG_NAME")? == "timed" {
        println!("cargo::rustc-cfg=timed");
    }
    for file in [
        SOUND,
        RESAMPLER,
        "../oracle/src/edit.rs",
        "../oracle/build.rs",
    ] {
        println!("cargo::rerun-if-changed={file}");
    }
    Ok(())
}
