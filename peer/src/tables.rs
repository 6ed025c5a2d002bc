//! Foreign tables with and without rings.

use crate::cables::Cables;
use crate::lay::{self, Lay};
use crate::rng::Rng;
use crate::shapes::{self, Size};
use crate::table::Entry;
use crate::tree::distances;

/// Entries as in the file: 0 for here, else a channel + 1.
pub struct Foreign {
    channels: usize,
    places: usize,
    entries: Vec<usize>,
}

impl Foreign {
    pub fn empty(channels: usize, places: usize) -> Foreign {
        Foreign {
            channels,
            places,
            entries: vec![0; channels * places],
        }
    }

    fn set(&mut self, channel: usize, place: usize, next: usize) {
        self.entries[channel * self.places + place] = next + 1;
    }

    /// At any place of the channel.
    fn add(&mut self, rng: &mut Rng, channel: usize, next: usize) {
        let place = rng.below(self.places);
        self.set(channel, place, next);
    }

    /// At all places of the channel one of these; some are here.
    fn scatter(&mut self, rng: &mut Rng, channel: usize, nexts: &[usize], here_in: usize) {
        for place in 0..self.places {
            if !nexts.is_empty() && !rng.one_in(here_in) {
                let next = rng.pick(nexts);
                self.set(channel, place, next);
            }
        }
    }

    pub fn bytes(&self) -> Vec<u8> {
        let mut bytes = vec![4];
        bytes.extend((self.channels as u16).to_be_bytes());
        bytes.push(self.places as u8);
        for &entry in &self.entries {
            bytes.extend((entry as u16).to_be_bytes());
        }
        bytes
    }
}

pub fn table(rng: &mut Rng, size: Size) -> Vec<u8> {
    let (c, p) = measure(rng, size);
    let made = match rng.below(15) {
        0 => random(rng, c, p, 2),
        1 => random_few(rng, c, p, 1),
        2 => random_few(rng, c, p, 2),
        3 => acyclic(rng, c, p),
        4 => chain(rng, c, p),
        5 | 6 => {
            let length = rng.between(1, c);
            long_ring(rng, c, p, length)
        }
        7 => equal_rings(rng, c, p),
        8 => own_channels(rng, c, p),
        9 => laid(rng, size),
        10 => shortest(rng, size),
        11 => layers(rng, c, p),
        12 => chords(rng, c, p),
        13 => leaps(rng, c, p),
        _ => extreme(rng, size),
    };
    let mut made = made;
    if rng.one_in(24) {
        beyond(rng, &mut made);
    }
    made.bytes()
}

/// Channels and places, at least one of each.
fn measure(rng: &mut Rng, size: Size) -> (usize, usize) {
    match size {
        Size::Small => {
            let c = rng.between(1, 40);
            (c, rng.between(1, (140 / c).clamp(1, 8)))
        }
        Size::Full => match rng.below(8) {
            0 => (320, 64),
            1 => (rng.between(250, 320), rng.between(1, 64)),
            2..=4 => (rng.between(1, 320), rng.between(1, 12)),
            _ => (rng.between(1, 40), rng.between(1, 10)),
        },
    }
}

fn random(rng: &mut Rng, c: usize, p: usize, here_in: usize) -> Foreign {
    let mut made = Foreign::empty(c, p);
    let all: Vec<usize> = (0..c).collect();
    for channel in 0..c {
        made.scatter(rng, channel, &all, here_in);
    }
    made
}

/// So many entries a channel, on the average half of them here.
fn random_few(rng: &mut Rng, c: usize, p: usize, few: usize) -> Foreign {
    let mut made = Foreign::empty(c, p);
    for _ in 0..c * few {
        if rng.one_in(2) {
            let (channel, next) = (rng.below(c), rng.below(c));
            made.add(rng, channel, next);
        }
    }
    made
}

/// Each channel hands only to later ones of a random order.
pub fn acyclic(rng: &mut Rng, c: usize, p: usize) -> Foreign {
    let mut made = Foreign::empty(c, p);
    let order = rng.order(c);
    let near = rng.pick(&[2, 8, 320]);
    for (i, &channel) in order.iter().enumerate() {
        let end = (i + 1 + near).min(c);
        made.scatter(rng, channel, &order[i + 1..end], 6);
    }
    made
}

/// As many ranks as channels.
fn chain(rng: &mut Rng, c: usize, p: usize) -> Foreign {
    let mut made = Foreign::empty(c, p);
    let order = rng.order(c);
    for pair in order.windows(2) {
        made.add(rng, pair[0], pair[1]);
    }
    made
}

/// One ring of this length; the others lead into it or out of it.
pub fn long_ring(rng: &mut Rng, c: usize, p: usize, length: usize) -> Foreign {
    let mut made = Foreign::empty(c, p);
    let order = rng.order(c);
    let before = (c - length) / 2;
    let after = before + length;
    for (i, &channel) in order.iter().enumerate() {
        let onward = if (before..after).contains(&i) {
            &order[after..]
        } else {
            &order[i + 1..]
        };
        made.scatter(rng, channel, onward, 3);
    }
    for i in before..after {
        let next = if i + 1 == after { before } else { i + 1 };
        made.add(rng, order[i], order[next]);
    }
    made
}

/// Several rings of one length that may share members.
fn equal_rings(rng: &mut Rng, c: usize, p: usize) -> Foreign {
    let mut made = Foreign::empty(c, p);
    let length = rng.between(1, c.min(12));
    for _ in 0..rng.between(1, p.min(6)) {
        let members = &rng.order(c)[..length];
        for i in 0..length {
            made.add(rng, members[i], members[(i + 1) % length]);
        }
    }
    made
}

/// Without rings but for channels that hand to themselves.
fn own_channels(rng: &mut Rng, c: usize, p: usize) -> Foreign {
    let mut made = acyclic(rng, c, p);
    for _ in 0..rng.between(1, 3) {
        let channel = rng.below(c);
        made.add(rng, channel, channel);
    }
    made
}

/// From layer to layer, with a few entries back.
fn layers(rng: &mut Rng, c: usize, p: usize) -> Foreign {
    let mut made = Foreign::empty(c, p);
    let width = rng.between(1, c.min(9));
    let number = rng.order(c);
    for i in 0..c {
        let first = (i / width + 1) * width;
        let next: Vec<usize> = (first..(first + width).min(c)).map(|j| number[j]).collect();
        made.scatter(rng, number[i], &next, 4);
    }
    for _ in 0..rng.below(4) {
        let (channel, next) = (rng.below(c), rng.below(c));
        made.add(rng, channel, next);
    }
    made
}

/// A ring over all channels and entries that shorten it.
fn chords(rng: &mut Rng, c: usize, p: usize) -> Foreign {
    let mut made = Foreign::empty(c, p);
    let order = rng.order(c);
    for _ in 0..rng.below(c + 1) {
        let (channel, next) = (rng.below(c), rng.below(c));
        made.add(rng, channel, next);
    }
    for i in 0..c {
        made.set(order[i], 0, order[(i + 1) % c]);
    }
    made
}

/// From c on by fixed leaps, beginning again after the last: many equal rings.
fn leaps(rng: &mut Rng, c: usize, p: usize) -> Foreign {
    let mut made = Foreign::empty(c, p);
    let number = if rng.one_in(2) {
        rng.order(c)
    } else {
        (0..c).collect()
    };
    for place in 0..p.min(rng.between(1, 4)) {
        let leap = rng.below(c);
        for i in 0..c {
            made.set(number[i], place, number[(i + leap) % c]);
        }
    }
    made
}

/// The table of a laid fabric: no ring.
fn laid(rng: &mut Rng, size: Size) -> Foreign {
    let laid = some_lay(rng, size);
    let mut made = Foreign::empty(laid.cables.channels(), laid.cables.n);
    for (channel, row) in laid.table.iter().enumerate() {
        for (place, entry) in row.iter().enumerate() {
            if let Entry::Link(link) = *entry {
                made.set(channel, place, link);
            }
        }
    }
    made
}

/// Shortest roads without regard to up and down: often rings.
fn shortest(rng: &mut Rng, size: Size) -> Foreign {
    let cables = some_lay(rng, size).cables;
    let far: Vec<Vec<Option<usize>>> = (0..cables.n).map(|s| distances(&cables, s)).collect();
    let mut made = Foreign::empty(cables.channels(), cables.n);
    for channel in 0..cables.channels() {
        for (place, to_place) in far.iter().enumerate() {
            if let Some(link) = nearer(&cables, to_place, cables.end(channel)) {
                made.set(channel, place, link);
            }
        }
    }
    made
}

/// The lowest link that leads from a switch nearer to a place.
fn nearer(cables: &Cables, to_place: &[Option<usize>], switch: usize) -> Option<usize> {
    cables
        .links
        .iter()
        .position(|link| link.from == switch && to_place[link.to] < to_place[switch])
}

fn some_lay(rng: &mut Rng, size: Size) -> Lay {
    loop {
        let plan = shapes::plan(rng, size);
        let small = (2 * plan.cables.len() + plan.n) * plan.n <= 160;
        if let Ok(laid) = lay::lay(&plan.bytes())
            && (small || size == Size::Full)
        {
            return laid;
        }
    }
}

/// At and past the limits of the head.
fn extreme(rng: &mut Rng, size: Size) -> Foreign {
    let limits = [
        (0, 0),
        (0, 64),
        (0, 65),
        (320, 0),
        (321, 0),
        (5, 0),
        (1, 1),
        (0, 255),
        (65_535, 0),
        (1, 64),
        (1, 65),
    ];
    let large = [
        (320, 64),
        (320, 1),
        (321, 1),
        (321, 64),
        (320, 65),
        (321, 65),
    ];
    let (c, p) = if size == Size::Full && rng.one_in(2) {
        rng.pick(&large)
    } else {
        rng.pick(&limits)
    };
    random_few(rng, c.max(1), p.max(1), 1).with_head(c, p)
}

impl Foreign {
    /// The same entries, or none, under another head.
    fn with_head(mut self, channels: usize, places: usize) -> Foreign {
        if channels * places == 0 {
            self.entries.clear();
        }
        Foreign {
            channels,
            places,
            entries: self.entries,
        }
    }
}

/// An entry to a channel that isn't there, or to the last one that is.
fn beyond(rng: &mut Rng, made: &mut Foreign) {
    if !made.entries.is_empty() {
        let at = rng.below(made.entries.len());
        let next = rng.pick(&[made.channels, made.channels + 1, made.channels + 1, 65_535]);
        made.entries[at] = next.min(65_535);
    }
}
