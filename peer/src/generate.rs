//! Whole cases from a seed.

use crate::rng::{Rng, damage};
use crate::scripts;
use crate::shapes::{self, Size};
use crate::tables;
use std::fs;
use std::io;
use std::path::Path;

pub struct Case {
    pub cables: Vec<u8>,
    pub script: Vec<u8>,
    pub table: Vec<u8>,
}

/// One case; the same for the same seed and number.
pub fn case(seed: u64, number: u64, size: Size) -> Case {
    let mut rng = Rng::for_case(seed, number);
    let plan = match size {
        Size::Full if rng.one_in(20) => shapes::long_line(&mut rng),
        Size::Small if rng.one_in(60) => shapes::long_line(&mut rng),
        Size::Small if rng.one_in(60) => shapes::plan(&mut rng, Size::Full),
        _ => shapes::plan(&mut rng, size),
    };
    let mut case = Case {
        cables: plan.bytes(),
        script: scripts::script(&mut rng, plan.n, 2 * plan.cables.len(), size),
        table: tables::table(&mut rng, size),
    };
    // Cables are damaged more rarely, lest most runs end before they begin.
    for (file, many) in [
        (&mut case.cables, 8),
        (&mut case.script, 6),
        (&mut case.table, 6),
    ] {
        if rng.one_in(many) {
            damage(&mut rng, file);
        }
    }
    case
}

pub fn write_cases(seed: u64, count: u64, dir: &Path) -> io::Result<()> {
    fs::create_dir_all(dir)?;
    for number in 0..count {
        let case = case(seed, number, Size::Full);
        for (end, bytes) in [
            ("cables", case.cables),
            ("script", case.script),
            ("table", case.table),
        ] {
            fs::write(dir.join(format!("{number:04}.{end}")), bytes)?;
        }
    }
    Ok(())
}
