//! The cables file: switches, cables, and the channels that they give.

use crate::fault::Fault;

pub const MOST_SWITCHES: usize = 64;
pub const MOST_STORE: usize = 32;
pub const MOST_CABLES: usize = 128;
const HEAD: usize = 5;

#[derive(Debug, Clone, Copy, PartialEq)]
pub struct Link {
    pub from: usize,
    pub to: usize,
}

/// Switches, store size and links; cable k is links 2k and 2k + 1.
#[derive(Debug, Clone)]
pub struct Cables {
    pub n: usize,
    pub m: usize,
    pub links: Vec<Link>,
}

impl Cables {
    pub fn count(&self) -> usize {
        self.links.len() / 2
    }

    /// Links first, then doors.
    pub fn channels(&self) -> usize {
        self.links.len() + self.n
    }

    pub fn door(&self, switch: usize) -> usize {
        self.links.len() + switch
    }

    /// The switch at which a channel ends.
    pub fn end(&self, channel: usize) -> usize {
        match self.links.get(channel) {
            Some(link) => link.to,
            None => channel - self.links.len(),
        }
    }
}

fn fault(number: u8, offset: usize, cause: &str) -> Fault {
    Fault::new("cables", number, offset, cause)
}

/// Reads the whole file; whether all is joined is not looked at here.
pub fn read(bytes: &[u8]) -> Result<Cables, Fault> {
    let (n, m, count) = read_head(bytes)?;
    let mut links = Vec::new();
    for k in 0..count {
        let (a, b) = read_cable(bytes, HEAD + 2 * k, n)?;
        links.push(Link { from: a, to: b });
        links.push(Link { from: b, to: a });
    }
    let length = HEAD + 2 * count;
    if bytes.len() > length {
        return Err(fault(1, length, "a byte after the last cable"));
    }
    Ok(Cables { n, m, links })
}

fn read_head(bytes: &[u8]) -> Result<(usize, usize, usize), Fault> {
    if bytes.len() < HEAD {
        return Err(fault(1, 0, "the head is cut"));
    }
    if bytes[0] != 1 {
        return Err(fault(1, 0, "not a cables file"));
    }
    let n = usize::from(bytes[1]);
    let m = usize::from(bytes[2]);
    let count = usize::from(bytes[3]) * 256 + usize::from(bytes[4]);
    if n == 0 || n > MOST_SWITCHES {
        return Err(fault(2, 0, "switches must be 1 to 64"));
    }
    if m == 0 || m > MOST_STORE {
        return Err(fault(2, 0, "a store must be 1 to 32"));
    }
    if count > MOST_CABLES {
        return Err(fault(2, 0, "more than 128 cables"));
    }
    Ok((n, m, count))
}

fn read_cable(bytes: &[u8], offset: usize, n: usize) -> Result<(usize, usize), Fault> {
    if bytes.len() < offset + 2 {
        return Err(fault(1, offset, "a cable is cut or missing"));
    }
    let a = usize::from(bytes[offset]);
    let b = usize::from(bytes[offset + 1]);
    if a >= n || b >= n {
        return Err(fault(2, offset, "a switch that isn't there"));
    }
    if a == b {
        return Err(fault(3, offset, "a cable from a switch to itself"));
    }
    Ok((a, b))
}
