//! The directed files of request T-05: how many entries have one hash, and what stands
//! about them.

/// What else stands in the bucket: entries whose hashes are like the one, below it, above
/// it, or both.
#[derive(Clone, Copy, Debug, PartialEq, Eq)]
pub enum Beside {
    Nothing,
    Below,
    Above,
    Both,
}

/// How the entries of one hash follow each other. No rule tells it.
#[derive(Clone, Copy, Debug, PartialEq, Eq)]
pub enum Order {
    Any,
    ShorterFirst,
    LongerFirst,
    ByCharacters,
    AgainstCharacters,
    ByIndex,
    AgainstIndex,
}

/// Whether texts of more than 65,000 characters are asked for, or are there too.
#[derive(Clone, Copy, Debug, PartialEq, Eq)]
pub enum Long {
    Nowhere,
    Asked,
    There,
}

/// One hash, and how many entries have it among the names and among the values.
#[derive(Clone, Copy, Debug)]
pub struct Plan {
    pub hash: u32,
    pub names: usize,
    pub values: usize,
    pub beside: Beside,
    pub order: Order,
    /// Whether the empty text is among those of hash 0.
    pub empty: bool,
    pub long: Long,
}

/// On both sides of numbers at which a count may go wrong.
const COUNTS: [usize; 26] = [
    0, 1, 2, 3, 4, 7, 8, 9, 15, 16, 17, 18, 31, 32, 33, 63, 64, 65, 127, 128, 129, 255, 256, 257,
    300, 513,
];
/// The values have another number of entries than the names: that of so many places on.
const APART: usize = 5;
const BESIDE: [Beside; 4] = [Beside::Nothing, Beside::Below, Beside::Above, Beside::Both];
const ORDERS: [Order; 7] = [
    Order::Any,
    Order::ShorterFirst,
    Order::LongerFirst,
    Order::ByCharacters,
    Order::AgainstCharacters,
    Order::ByIndex,
    Order::AgainstIndex,
];
const HASHES: [u32; 9] =
    [0x5eed_0042, 0, u32::MAX, 0x8000_0000, 0x7fff_ffff, 1, 0x0000_ffff, 0xffff_0000, 0x1234_5678];
const LONG_COUNTS: [usize; 6] = [1, 2, 3, 17, 100, 0];

fn counts(all: &[usize], number: usize) -> (usize, usize) {
    (all[number % all.len()], all[(number + APART) % all.len()])
}

pub fn plans() -> impl Iterator<Item = Plan> {
    let ordinary = (0..2 * BESIDE.len() * COUNTS.len()).map(|number| {
        let (names, values) = counts(&COUNTS, number / (2 * BESIDE.len()));
        Plan {
            hash: HASHES[number % HASHES.len()],
            names,
            values,
            beside: BESIDE[number % BESIDE.len()],
            order: ORDERS[number % ORDERS.len()],
            empty: number % 5 < 2,
            long: Long::Nowhere,
        }
    });
    with_long_texts().chain(ordinary).chain(with_hash_zero())
}

/// Each number of entries with hash 0, with the empty text and without it.
fn with_hash_zero() -> impl Iterator<Item = Plan> {
    (0..2 * COUNTS.len()).map(|number| {
        let (names, values) = counts(&COUNTS, number / 2);
        let (beside, order) = (BESIDE[number % BESIDE.len()], ORDERS[number % ORDERS.len()]);
        let empty = number % 2 == 0;
        Plan { hash: 0, names, values, beside, order, empty, long: Long::Nowhere }
    })
}

fn with_long_texts() -> impl Iterator<Item = Plan> {
    (0..2 * LONG_COUNTS.len()).map(|number| {
        let (names, values) = counts(&LONG_COUNTS, number / 2);
        Plan {
            hash: HASHES[number % HASHES.len()],
            names,
            values,
            beside: BESIDE[number % BESIDE.len()],
            order: ORDERS[number % ORDERS.len()],
            empty: false,
            long: if number % 2 == 0 { Long::Asked } else { Long::There },
        }
    })
}
