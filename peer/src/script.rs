//! The script: blocks, words, rounds and shows.

use crate::fault::{Fault, Stop};
use crate::lay::Lay;
use crate::round::{Block, Fabric, MOST_WAITING};
use std::io::Write;

const BLOCK: u8 = 2;
const WORD: u8 = 3;
const ROUND: u8 = 5;
const SHOW: u8 = 6;

fn fault(number: u8, offset: usize, cause: &str) -> Fault {
    Fault::new("script", number, offset, cause)
}

/// Plays a script from its first byte on, and prints what happens.
pub fn play(lay: &Lay, bytes: &[u8], out: &mut impl Write) -> Result<(), Stop> {
    let mut fabric = Fabric::new(lay);
    let mut last: Vec<Option<u32>> = vec![None; lay.cables.n];
    let mut offset = 0;
    while offset < bytes.len() {
        let length = thing_length(bytes, offset)?;
        let thing = &bytes[offset..offset + length];
        match thing[0] {
            BLOCK => {
                let block = read_block(thing);
                check_block(&fabric, &last, lay.cables.n, block)
                    .map_err(|(number, cause)| fault(number, offset, cause))?;
                last[block.door] = Some(block.name);
                fabric.let_in(block);
            }
            WORD => {
                return Err(
                    fault(9, offset, "a word of a free place where none is missing").into(),
                );
            }
            ROUND => print_round(&mut fabric, out)?,
            _ => fabric.show(out)?,
        }
        offset += length;
    }
    Ok(())
}

/// The length of the thing that begins here, if it is known and whole.
fn thing_length(bytes: &[u8], offset: usize) -> Result<usize, Fault> {
    let length = match bytes[offset] {
        BLOCK => 7,
        WORD => 3,
        ROUND | SHOW => 1,
        _ => return Err(fault(1, offset, "an unknown kind")),
    };
    if bytes.len() - offset < length {
        return Err(fault(1, offset, "the script is cut"));
    }
    Ok(length)
}

fn read_block(thing: &[u8]) -> Block {
    let name = u32::from_be_bytes([thing[3], thing[4], thing[5], thing[6]]);
    Block {
        door: usize::from(thing[1]),
        place: usize::from(thing[2]),
        name,
    }
}

fn check_block(
    fabric: &Fabric,
    last: &[Option<u32>],
    n: usize,
    block: Block,
) -> Result<(), (u8, &'static str)> {
    if block.door >= n {
        return Err((6, "a door that isn't there"));
    }
    if block.place >= n {
        return Err((6, "a place that isn't there"));
    }
    if last[block.door].is_some_and(|name| block.name <= name) {
        return Err((7, "a name not above the last one of this door"));
    }
    if fabric.waiting(block.door) >= MOST_WAITING {
        return Err((8, "more than 4096 blocks wait at this door"));
    }
    Ok(())
}

fn print_round(fabric: &mut Fabric, out: &mut impl Write) -> Result<(), Stop> {
    for block in fabric.play() {
        writeln!(
            out,
            "came {} place {} door {} name {}",
            fabric.rounds, block.place, block.door, block.name
        )?;
    }
    Ok(())
}
