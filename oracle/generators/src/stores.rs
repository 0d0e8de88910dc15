//! Starts and stores as bytes (docs/FORMAT.md, "Stores, events and starts"): right ones, and those with
//! one field damaged.

use crate::rng::Rng;
use crate::starts;
use reference::machines::Given;
use reference::syntax::Prog;

/// The bytes of a slot, and of a store's header.
pub const SLOT: usize = 16;
pub const HEADER: usize = 64;

/// The values of a start.
pub fn values(given: &[Given]) -> Vec<u8> {
    let mut bytes = Vec::with_capacity(SLOT * given.len());
    for value in given {
        let (sort, long) = match *value {
            Given::Int(integer) => (0, integer),
            Given::Outside(number) => (2, number.into()),
        };
        bytes.extend([sort, 0, 0, 0, 0, 0, 0, 0]);
        bytes.extend(long.to_le_bytes());
    }
    bytes
}

/// A start, mostly a right one: the place of a definition, and values.
pub fn start(rng: &mut Rng, prog: &Prog) -> (usize, Vec<u8>) {
    let (place, given) = starts::start(rng, prog);
    let mut bytes = values(&given);
    match rng.below(24) {
        0 => return (missing(rng, prog.defs.len()), bytes),
        1 => bytes.truncate(rng.below(bytes.len() + 1)),
        2 => bytes.extend(vec![0; rng.within(1, 2 * SLOT)]),
        3..7 => one_value(rng, &mut bytes),
        _ => {}
    }
    (place, bytes)
}

/// A place that no definition has.
pub fn missing(rng: &mut Rng, definitions: usize) -> usize {
    match rng.below(5) {
        0 => definitions,
        1 => definitions + 1,
        // no place is cut to fewer bits
        2 => 1 << rng.within(16, 63),
        3 => usize::MAX,
        _ => definitions.saturating_add(rng.number() as usize),
    }
}

/// Another sort of value, a spare byte, an ID, or an outside number at its bound.
fn one_value(rng: &mut Rng, bytes: &mut [u8]) {
    if bytes.is_empty() {
        return;
    }
    let slot = SLOT * rng.below(bytes.len() / SLOT);
    match rng.below(6) {
        0 => bytes[slot] = rng.below(6) as u8,
        1 => bytes[slot + rng.within(1, 3)] = 1 << rng.below(8),
        2 => bytes[slot + rng.within(4, 7)] = 1 << rng.below(8),
        3 => bytes[slot] = 2,
        _ => {
            let number = *rng.pick(&[0_u64, 255, 256, 257, 1 << 32, 1 << 63, u64::MAX]);
            bytes[slot] = 2;
            bytes[slot + 8..slot + 16].copy_from_slice(&number.to_le_bytes());
        }
    }
}

/// The bytes of the state that a store's header speaks of, where it is a right one.
pub fn size(store: &[u8]) -> usize {
    let count = |at: usize| read(&store[at..at + 8]) as usize;
    HEADER + SLOT * (count(16) + count(24))
}

/// A field of a store.
#[derive(Debug, Clone, Copy, PartialEq, Eq)]
pub struct Field {
    pub at: usize,
    pub bytes: usize,
}

impl Field {
    fn read(self, store: &[u8]) -> u64 {
        read(&store[self.at..self.at + self.bytes])
    }

    pub fn write(self, store: &mut [u8], number: u64) {
        let bytes = number.to_le_bytes();
        store[self.at..self.at + self.bytes].copy_from_slice(&bytes[..self.bytes]);
    }
}

fn read(bytes: &[u8]) -> u64 {
    bytes
        .iter()
        .rev()
        .fold(0, |number, &byte| number << 8 | u64::from(byte))
}

const HEADER_FIELDS: [(usize, usize); 11] = [
    (0, 4),
    (4, 1),
    (5, 1),
    (6, 2),
    (8, 8),
    (16, 8),
    (24, 8),
    (32, 8),
    (40, 8),
    (48, 8),
    (56, 8),
];
const SLOT_FIELDS: [(usize, usize); 4] = [(0, 1), (1, 3), (4, 4), (8, 8)];

/// The fields of the header, and then those of every slot of a state.
pub fn fields(store: &[u8]) -> Vec<Field> {
    let field = |from: usize| {
        move |&(at, bytes): &(usize, usize)| Field {
            at: from + at,
            bytes,
        }
    };
    let mut all: Vec<Field> = HEADER_FIELDS.iter().map(field(0)).collect();
    for slot in (HEADER..size(store)).step_by(SLOT) {
        all.extend(SLOT_FIELDS.iter().map(field(slot)));
    }
    all
}

/// Other values of a field, which are its bounds, its neighbours, and what other fields of its kind have.
pub fn others(store: &[u8], field: Field) -> Vec<u64> {
    let now = field.read(store);
    let most = u64::MAX >> (64 - 8 * field.bytes);
    let mut all = vec![
        now.wrapping_add(1),
        now.wrapping_sub(1),
        now ^ 1 << (8 * field.bytes - 1),
    ];
    all.extend([0, 1, 2, 3, 4, 5, 255, 256, 257, 65_535, 65_536, 65_537]);
    all.extend([
        now.wrapping_add(1 << 8),
        now ^ (1 << 16 & most),
        now ^ (1 << 32 & most),
    ]);
    // 16 times these wraps
    all.extend([1 << 60, 1 << 59, u64::MAX >> 4, u64::MAX]);
    if field.at >= HEADER {
        let same = |slot: usize| Field {
            at: slot + field.at % SLOT,
            ..field
        };
        let slots = (HEADER..size(store)).step_by(SLOT);
        all.extend(slots.take(64).map(|slot| same(slot).read(store)));
    } else {
        all.extend(0..20);
    }
    all.iter_mut().for_each(|number| *number &= most);
    all.sort_unstable();
    all.dedup();
    all.retain(|&number| number != now);
    all
}

/// One field of a store with a state changed.
pub fn damage(rng: &mut Rng, store: &mut [u8]) {
    let fields = fields(store);
    let header = HEADER_FIELDS.len();
    let place = if rng.chance(6) || fields.len() == header {
        rng.below(header)
    } else {
        rng.within(header, fields.len() - 1)
    };
    let field = fields[place];
    let number = match rng.below(8) {
        0 => rng.number(),
        1 => field.read(store) ^ 1 << rng.below(8 * field.bytes),
        _ => *rng.pick(&others(store, field)),
    };
    field.write(store, number);
}
