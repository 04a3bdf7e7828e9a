// The times as a table, a page and a plot.

use std::{fmt::Write, fs, process::Command};

use crate::{
    measure::{BLOCKS, FORWARD, Row},
    workload::{HZ, LaneKind, Looped},
};

/// The table, one line per workload.
#[must_use]
pub fn table(rows: &[Row]) -> String {
    let mut text = String::from(
        "| loop | lanes | block | rate | ours: least | median | safe crate: least | kira: least | median | ours / kira | safe / kira | our voices a core |\n|---|---|---|---|---|---|---|---|---|---|---|---|\n",
    );
    for row in rows {
        let looped = row.workload.looped.name();
        let voices = 1e9 / (row.ours.least * f64::from(HZ));
        writeln!(
            text,
            "| {looped} | {} | {} | {} | {:.2} | {:.2} | {:.2} | {:.2} | {:.2} | {:.2} | {:.2} | {voices:.0} |",
            row.workload.lanes.name(),
            row.workload.block,
            row.workload.rate,
            row.ours.least,
            row.ours.median,
            row.safe.least,
            row.kira.least,
            row.kira.median,
            row.ours.least / row.kira.least,
            row.safe.least / row.kira.least,
        )
        .expect("a string takes all");
    }
    text
}

/// The rates, in both directions, over which the ratios of a kind of lane are computed.
const SLOW: [f64; 3] = [0.5, 0.93, 1.0];

/// The time of our code divided by that of kira's text for each kind of lane: the smallest and the largest of its
/// cells, for blocks of 512 and 4,096, and for blocks of 64.
#[must_use]
pub fn ratios(rows: &[Row]) -> String {
    let mut text = String::from("| lanes | 512 and 4,096 | 64 |\n|---|---|---|\n");
    let mut line = |name: &str, is_of: &dyn Fn(&Row) -> bool| {
        let cell = |is_small: bool| {
            let is_cell = |row: &&Row| is_of(row) && (row.workload.block == 64) == is_small;
            let ratios = rows
                .iter()
                .filter(is_cell)
                .map(|row| row.ours.least / row.kira.least);
            let ends = (f64::INFINITY, f64::NEG_INFINITY);
            let (least, most) =
                ratios.fold(ends, |(low, high), ratio| (low.min(ratio), high.max(ratio)));
            format!("{least:.2} to {most:.2}")
        };
        writeln!(text, "| {name} | {} | {} |", cell(false), cell(true))
            .expect("a string takes all");
    };
    let is_at = |row: &Row, rates: &[f64]| rates.contains(&row.workload.rate.abs());
    for lanes in LaneKind::ALL {
        line(lanes.name(), &|row| {
            row.workload.looped == Looped::Long && row.workload.lanes == lanes && is_at(row, &SLOW)
        });
    }
    line("rate 2, any of these", &|row| {
        row.workload.looped == Looped::Long && is_at(row, &[2.0])
    });
    line("loops of 3 frames, per frame", &|row| {
        row.workload.looped == Looped::Three && is_at(row, &SLOW)
    });
    text
}

/// The second processor of the page, and its lines of the table of ratios: 512 and 4,096 frames, and 64.
const OTHER: (&str, [[&str; 2]; 6]) = (
    "Neoverse V1",
    [
        ["0.40 to 0.49", "0.52 to 0.61"],
        ["0.43 to 0.51", "0.58 to 0.67"],
        ["0.54 to 0.64", "0.65 to 0.77"],
        ["0.63 to 0.75", "0.73 to 0.84"],
        ["0.37 to 0.58", "0.48 to 0.64"],
        ["0.70 to 0.83", "0.79 to 0.93"],
    ],
);

/// The table of ratios, with the second processor's beside it.
fn ratios_of_both(rows: &[Row]) -> String {
    let (name, others) = OTHER;
    let head = format!("{name}: 512 and 4,096 | 64");
    let others = others.map(|cells| cells.join(" | "));
    let others = [head, "--- | ---".into()].into_iter().chain(others);
    ratios(rows)
        .lines()
        .zip(others)
        .map(|(line, other)| format!("{line} {other} |\n"))
        .collect()
}

/// The nanoseconds of a call that do not depend on its frames, at rate 0.93 in the long loop, from the times of blocks
/// of 64 and of 4,096.
#[must_use]
pub fn fixed_parts(rows: &[Row]) -> String {
    let mut text = String::from("| lanes | ours | safe crate | kira's text |\n|---|---|---|---|\n");
    for lanes in LaneKind::ALL {
        let found = |block: usize| {
            rows.iter().find(|row| {
                let workload = row.workload;
                workload.looped == Looped::Long
                    && (workload.lanes, workload.block, workload.rate) == (lanes, block, 0.93)
            })
        };
        let (Some(few), Some(many)) = (found(64), found(4_096)) else {
            continue;
        };
        // A call takes the fixed part plus a time per frame.
        let fixed = |few: f64, many: f64| (few - many) / (1.0 / 64.0 - 1.0 / 4_096.0);
        writeln!(
            text,
            "| {} | {:.0} | {:.0} | {:.0} |",
            lanes.name(),
            fixed(few.ours.least, many.ours.least),
            fixed(few.safe.least, many.safe.least),
            fixed(few.kira.least, many.kira.least),
        )
        .expect("a string takes all");
    }
    text
}

/// All tables of the page, in Markdown.
#[must_use]
pub fn tables(rows: &[Row], players: &str) -> String {
    format!(
        "Measured on {}.\n\n{}\n{}\n{}\n{players}",
        machine(),
        ratios(rows),
        fixed_parts(rows),
        table(rows),
    )
}

/// The page.
#[must_use]
pub fn document(rows: &[Row], players: &str) -> String {
    format!(
        "# Benchmark

This page has nanoseconds per stereo frame at 48 kHz. Our code makes every check; it is called through the C entry and through the safe crate, which sets the float mode of each call. kira's own text (`host/judges/timed`) makes no checks, counts or copies. All are timed in turn in one process, with 200 repetitions of 8,192 frames. A negative rate plays backward. The last column is how many of our voices one core plays at 48 kHz. Machines differ, so use the ratios.

\"Subnormal\" is the long loop over samples of about 2^-130, the tail of a decay. On x86-64 such a frame costs about forty times as much, for kira's text and for ours. A host's flush-to-zero does not help, since each call of the safe crate runs in the plain mode. So clear subnormal samples when a sound is loaded.

Measured on {}.

```
cd host && cargo run --release --offline -p benches -- --write ../docs/performance    # writes this page and the plot
cd host && cargo run --release --offline -p benches -- --tables           # prints its tables alone
cd host && cargo run --release --offline -p benches -- --modes            # what the float mode costs a call
cd host && cargo run --release --offline -p benches -- --players          # many players into one buffer, below
tools/instructions                                                        # instructions a frame, by callgrind
tools/divisions                                                           # divisions in a loop of 3 frames, by callgrind
```

Our time divided by that of kira's text: the smallest and the largest ratio of rates 0.5, 0.93 and 1, forward and backward, in the long loop. \"Given once\" is held lanes, `cableowl_process_held` with amplitudes and gains of 1, 0.5, 0.8 and 0.9; \"constant\" are lanes of ones through `cableowl_process`; \"per frame\" are lanes of random amplitudes and gains, the rate one number or a number for each frame. Ratios depend on the processor: kira's text gained more than ours from a Neoverse N1 to a Neoverse V1, so a ratio of 0.65 on the one was 0.85 on the other. The last two columns are of a Neoverse V1 (Linux aarch64, rustc 1.95.0, 2026-11-16).

{}
The nanoseconds of a call that do not depend on its frames, at rate 0.93 in the long loop, from the times of blocks of 64 and of 4,096:

{}
![Nanoseconds a frame, ours and kira's text](benchmark.svg)

{}
{}
{REST}",
        machine(),
        ratios_of_both(rows),
        fixed_parts(rows),
        table(rows),
        players_section(players)
    )
}

fn players_section(table: &str) -> String {
    format!(
        "## Many players into one buffer

64 voices per call, with loops of a second at rate 0.93, are added to one buffer. The table has voices per core at 48 kHz, and nanoseconds per frame of one voice: the shortest call of 819,200 frames a voice, all timed in turn. A bare voice has constant lanes and is played into its own buffer, then added. A player at rest is `Player::mix` with no moving parameter. For a player in motion, fade, volume, rate and panning all move for hours, so that every lane has a number for each frame.

Measured on {}.

{table}",
        machine()
    )
}

/// Where the rest of the time is, and what others take.
const REST: &str = "## Where the time is

Instructions per frame, counted by callgrind in blocks of 512 at rate 0.93:

| | Arm | x86-64 |
|---|---|---|
| one rate for the whole block | 46.6 | 65.3 |
| rates that vary | 52.3 | 67.9 |
| a loop of 3 frames, at rate -0.93 | 75.9 | 99.6 |
| constant lanes | 39.8 | 52.0 |
| held lanes | 37.7; 50.9 in blocks of 64 | 49.7; 67.0 in blocks of 64 |
| kira's text | 121 | 135 in each |

A call costs about 1,000 more instructions: the check and the translation of the state, the check of the window, the answer. Much of a call's fixed time is spent on copies of the voice between functions, so the archive is compiled with more inlining than clang's default. On the AMD EPYC this took the fixed part of a call with one rate from 170 to 98 ns. `cableowl_process` needs 2,243 bytes of stack there; on x86-64 without this inlining it needed 3,973. A loop of fewer than 16 frames is played two frames per iteration, by the path whose rates may differ.

What is still above half of kira's time: a rate below 1 saves kira's text some updates, and our code nothing, so the highest ratios are at 0.5. Constant lanes cost 2 to 3 instructions per frame to recognise; gains of 1 are then not multiplied. With one rate for the whole block, each rate is compared with the first twice: when the lanes are checked, and before they are played. In blocks of 64 the fixed part of a call is a third of our time.

A block is played frame by frame, on the AMD EPYC at 1.4 to 1.6 of kira's time at rate 1 and 1.0 to 1.1 at rate 2 (docs/performance/BUDGET.md), if its window is not contiguous: the first block after creation, one after a seek, the last frames of a sound without a loop, a window with a NaN.

Ratios differ between processors more than instructions do. With an earlier version a Neoverse N1 took 0.65 of kira's time at 0.93 and 512, and a Neoverse V1 0.85: kira's text is twice as fast on the V1, ours 1.45 times.

On the V1 the part of a call that does not depend on its frames took 74 to 96 ns. A player in motion took 2.52 to 2.91 times its bare voice there, and a player at rest 1.06 to 1.08 times, in calls of 64 frames 1.22 times. That was before a player at rest passed its five numbers directly to the voice. On the AMD EPYC this took the ratio in calls of 64 frames from 1.18 to 1.11.

## Beside others

Time per frame divided by that of kira's text in the same run: stereo, looped, rate 0.93. All rows except the last two were measured together on x86-64 with Debian 12's packages, one more voice each. The last column says what each does.

| | blocks 64 / 512 / 4,096 | does |
|---|---|---|
| kira's static sound, its text with lanes | 1 | the rate and the gains of each frame, 4-point Hermite |
| libsamplerate linear | 1.00 / 0.97 / 0.94 | less: no loop, no gains, linear |
| OpenAL Soft cubic | 1.12 / 0.91 / 0.86 | less: the rate is fixed in a block |
| libxmp spline | 0.48 / 0.49 / 0.48 | less: 16 bit, the rate is fixed in a tick |
| libopenmpt cubic | 0.40 / 0.37 / 0.36 | less: 16 bit, the rate is fixed in a tick |
| fluidsynth 4th order | 1.47 / 1.42 / 1.38 | more: a filter, envelopes |
| ours, on a Neoverse V1, one rate | 0.65 / 0.55 / 0.54 | as kira's, with every check, proved |
| ours, on an AMD EPYC, one rate | 0.63 / 0.47 / 0.45 | the same |
";

/// Processor, system, compiler and day of the run, as far as they are known.
fn machine() -> String {
    let said = |program: &str, words: &[&str]| {
        let output = Command::new(program).args(words).output().ok()?;
        let text = String::from_utf8(output.stdout).ok()?;
        Some(text.trim().to_string()).filter(|text| !text.is_empty())
    };
    let processor = || {
        let text = fs::read_to_string("/proc/cpuinfo").ok()?;
        let field = |name: &str| {
            let line = text.lines().find(|line| line.starts_with(name))?;
            Some(line.split_once(':')?.1.trim().to_string())
        };
        // A virtual machine's name may say no more than the maker. Arm's file has numbers and no name.
        let named = || {
            let [family, model] = [field("cpu family")?, field("model\t")?];
            let name = field("model name")?;
            Some(format!("{name} (family {family}, model {model})"))
        };
        named().or_else(|| {
            let [implementer, part] = [field("CPU implementer")?, field("CPU part")?];
            let name = arm_name(&implementer, &part);
            Some(name.map_or(format!("processor {implementer} {part}"), str::to_owned))
        })
    };
    [
        processor(),
        said("uname", &["-sm"]),
        said("rustc", &["--version"]),
        said("date", &["-u", "+%Y-%m-%d"]),
    ]
    .map(|word| word.unwrap_or_else(|| "unknown".into()))
    .join(", ")
}

/// The name of a processor by the two numbers in Linux's /proc/cpuinfo: Arm's own designs.
fn arm_name(implementer: &str, part: &str) -> Option<&'static str> {
    if implementer != "0x41" {
        return None;
    }
    Some(match part {
        "0xd03" => "Cortex-A53",
        "0xd05" => "Cortex-A55",
        "0xd07" => "Cortex-A57",
        "0xd08" => "Cortex-A72",
        "0xd0b" => "Cortex-A76",
        "0xd0c" => "Neoverse N1",
        "0xd0d" => "Cortex-A77",
        "0xd40" => "Neoverse V1",
        "0xd41" => "Cortex-A78",
        "0xd44" => "Cortex-X1",
        "0xd49" => "Neoverse N2",
        "0xd4f" => "Neoverse V2",
        "0xd84" => "Neoverse V3",
        "0xd8e" => "Neoverse N3",
        _ => return None,
    })
}

/// The long loop, forward, as bars: a panel per block size, a pair of bars per rate.
#[must_use]
pub fn plot(rows: &[Row]) -> String {
    let long: Vec<&Row> = rows
        .iter()
        .filter(|row| {
            (row.workload.looped, row.workload.lanes) == (Looped::Long, LaneKind::PerFrame)
        })
        .collect();
    let most = long
        .iter()
        .flat_map(|row| [row.ours.least, row.kira.least])
        .fold(1.0, f64::max);
    let mut text = String::from(
        "<svg xmlns=\"http://www.w3.org/2000/svg\" width=\"960\" height=\"340\" font-family=\"sans-serif\" font-size=\"12\">\n<rect width=\"960\" height=\"340\" fill=\"white\"/>\n<text x=\"20\" y=\"20\">Nanoseconds a frame (logarithmic), least of 200; long loop</text>\n<rect x=\"660\" y=\"10\" width=\"12\" height=\"12\" fill=\"#2a6f97\"/><text x=\"678\" y=\"20\">ours, all checks</text>\n<rect x=\"800\" y=\"10\" width=\"12\" height=\"12\" fill=\"#c9ada7\"/><text x=\"818\" y=\"20\">kira's text</text>\n",
    );
    for (panel, block) in BLOCKS.into_iter().enumerate() {
        let left = 20 + 315 * panel;
        writeln!(
            text,
            "<text x=\"{}\" y=\"330\" text-anchor=\"middle\">blocks of {block}</text>",
            left + 140
        )
        .expect("a string takes all");
        for (place, rate) in FORWARD.into_iter().enumerate() {
            let found = long
                .iter()
                .find(|row| row.workload.block == block && row.workload.rate == rate);
            let Some(row) = found else {
                continue;
            };
            let x = left + 58 * place;
            bar(&mut text, x, row.ours.least, most, "#2a6f97");
            bar(&mut text, x + 22, row.kira.least, most, "#c9ada7");
            writeln!(
                text,
                "<text x=\"{}\" y=\"306\" text-anchor=\"middle\">{rate}</text>",
                x + 22
            )
            .expect("a string takes all");
        }
    }
    text.push_str("</svg>\n");
    text
}

fn bar(text: &mut String, x: usize, time: f64, most: f64, colour: &str) {
    let height = 230.0 * (1.0 + time).ln() / (1.0 + most).ln();
    let top = 290.0 - height;
    writeln!(
        text,
        "<rect x=\"{x}\" y=\"{top:.1}\" width=\"20\" height=\"{height:.1}\" fill=\"{colour}\"/><text x=\"{}\" y=\"{:.1}\" text-anchor=\"middle\" font-size=\"9\">{time:.1}</text>",
        x + 10,
        top - 4.0,
    )
    .expect("a string takes all");
}
