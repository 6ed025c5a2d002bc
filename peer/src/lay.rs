//! All that follows from a cables file, and how it is printed.

use crate::cables::{self, Cables};
use crate::fault::Fault;
use crate::table::{self, Entry, Table};
use crate::tree::{self, Tree};
use crate::waits::{self, Waits};
use std::io::{self, Write};

#[derive(Debug, Clone)]
pub struct Lay {
    pub cables: Cables,
    pub tree: Tree,
    pub table: Table,
    pub waits: Waits,
}

pub fn lay(bytes: &[u8]) -> Result<Lay, Fault> {
    let cables = cables::read(bytes)?;
    if let Some(s) = tree::unreached(&cables) {
        let cause = format!("switch {s} cannot be reached from switch 0");
        return Err(Fault::new("cables", 4, bytes.len(), cause));
    }
    let tree = tree::grow(&cables);
    let table = table::make(&cables, &tree);
    match waits::count(&cables, &table) {
        Some(waits) => Ok(Lay {
            cables,
            tree,
            table,
            waits,
        }),
        None => Err(Fault::new(
            "cables",
            5,
            bytes.len(),
            "a patience or a wait above 2^40",
        )),
    }
}

pub fn print(lay: &Lay, out: &mut impl Write) -> io::Result<()> {
    let cables = &lay.cables;
    writeln!(
        out,
        "switches {} cables {} store {}",
        cables.n,
        cables.count(),
        cables.m
    )?;
    writeln!(out, "root {}", lay.tree.root)?;
    for (switch, level) in lay.tree.level.iter().enumerate() {
        writeln!(out, "level {switch} {level}")?;
    }
    print_channels(lay, out)?;
    print_table(lay, out)?;
    for from in 0..cables.n {
        for place in 0..cables.n {
            print_road(lay, from, place, out)?;
        }
    }
    Ok(())
}

fn print_channels(lay: &Lay, out: &mut impl Write) -> io::Result<()> {
    for (c, link) in lay.cables.links.iter().enumerate() {
        let way = if lay.tree.up[c] { "up" } else { "down" };
        let (rank, patience) = (lay.tree.rank[c], lay.waits.patience[c]);
        writeln!(
            out,
            "link {c} {} {} {way} rank {rank} patience {patience}",
            link.from, link.to
        )?;
    }
    for switch in 0..lay.cables.n {
        let c = lay.cables.door(switch);
        writeln!(out, "door {c} {switch} patience {}", lay.waits.patience[c])?;
    }
    Ok(())
}

fn print_table(lay: &Lay, out: &mut impl Write) -> io::Result<()> {
    for (channel, row) in lay.table.iter().enumerate() {
        write!(out, "table {channel}")?;
        for entry in row {
            match entry {
                Entry::Here => write!(out, " here")?,
                Entry::Link(link) => write!(out, " {link}")?,
            }
        }
        writeln!(out)?;
    }
    Ok(())
}

fn print_road(lay: &Lay, from: usize, place: usize, out: &mut impl Write) -> io::Result<()> {
    let links = table::road(&lay.cables, &lay.table, from, place);
    write!(
        out,
        "road {from} {place} wait {} switches {from}",
        lay.waits.wait[from][place]
    )?;
    for &link in &links {
        write!(out, " {}", lay.cables.links[link].to)?;
    }
    write!(out, " links")?;
    if links.is_empty() {
        write!(out, " none")?;
    }
    for link in links {
        write!(out, " {link}")?;
    }
    writeln!(out)
}
