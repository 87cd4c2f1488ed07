//! Counts the instructions of both hubs: callgrind runs the bench once more, and it plays each script once on each side.

use std::fs;
use std::hint::black_box;
use std::io;
use std::path::Path;
use std::process::{Command, Stdio};

use crate::cases::Case;
use crate::scripts::Script;
use crate::side::{PLAIN, PROVED, Side};

/// The word that has the bench play the scripts that are counted, and nothing else.
pub const PLAYS: &str = "plays-to-count";
/// Callgrind counts within this function alone, and dumps its count whenever it ends.
const COUNTED: &str = "bench::counting::counted_play";

/// The instructions of one measured call of each case, on each side.
pub fn count(cases: &[Case]) -> Result<Vec<[f64; 2]>, String> {
    let folder = std::env::temp_dir().join(format!("bench-counts-{}", std::process::id()));
    let counts = fs::create_dir_all(&folder).map_err(|error| error.to_string()).and_then(|()| count_in(&folder, cases));
    let _ = fs::remove_dir_all(&folder);
    counts
}

fn count_in(folder: &Path, cases: &[Case]) -> Result<Vec<[f64; 2]>, String> {
    let dump = folder.join("plays");
    let callgrind = Command::new("valgrind")
        .arg("--tool=callgrind")
        .arg(format!("--callgrind-out-file={}", dump.display()))
        .arg(format!("--toggle-collect={COUNTED}"))
        .arg(format!("--dump-after={COUNTED}"))
        .arg(std::env::current_exe().map_err(|error| error.to_string())?)
        .arg(PLAYS)
        .stderr(Stdio::null())
        .status();
    match callgrind {
        Ok(status) if status.success() => {}
        Ok(status) => return Err(format!("valgrind ended with {status}")),
        Err(error) => return Err(format!("valgrind: {error}")),
    }
    let mut dumps = (1..).map(|number| folder.join(format!("plays.{number}")));
    let mut next = || total_of(&dumps.next().expect("a next number")).map_err(|error| error.to_string());
    let mut counts = Vec::new();
    for case in cases {
        let [full, base] = [[next()?, next()?], [next()?, next()?]];
        counts.push([0, 1].map(|side| (full[side] - base[side]) / f64::from(case.measured_in_a_play())));
    }
    Ok(counts)
}

/// The instructions that a dump tells of.
fn total_of(dump: &Path) -> io::Result<f64> {
    let text = fs::read_to_string(dump)?;
    let total = text.lines().find_map(|line| line.strip_prefix("totals: "));
    total.and_then(|total| total.trim().parse().ok()).ok_or(io::Error::other("a dump without its total"))
}

/// Plays the scripts whose instructions are counted, in the order in which the counts are read.
pub fn play_all(cases: &[Case]) {
    for case in cases {
        for script in [&case.full, &case.base] {
            for side in [PLAIN, PROVED] {
                let mut out = vec![0; script.room];
                counted_play(side, script, &mut out);
            }
        }
    }
}

#[inline(never)]
fn counted_play(side: Side, script: &Script, out: &mut [u8]) {
    black_box(side.play(script, out));
}
