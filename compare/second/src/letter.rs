//! Wrong readings of request T-10, character by character: 0151 folds as it did before,
//! here or there, or to something else. Only mutants come this far, so plain words matter
//! more than speed.

use crate::fold::fold;
use crate::reading::{Mutant, Reading, Right};

const LETTER: u16 = 0x0151;
/// What it folded to before.
const CAPITAL: u16 = 0x0150;

/// The fold of a character above 00ff: none changes, by the right reading.
#[inline(always)]
pub fn fold_above<R: Reading>(reading: R, character: u16) -> u16 {
    match character {
        LETTER if reading.wrong(Mutant::Fold0151To0150) => CAPITAL,
        LETTER if reading.wrong(Mutant::Fold0151To0131) => LETTER - 0x20,
        LETTER if reading.wrong(Mutant::Fold0151To00d5) => 0x00d5,
        CAPITAL if reading.wrong(Mutant::Fold0150To0151) => LETTER,
        0x0171 if reading.wrong(Mutant::Fold0171To0170) => 0x0170,
        _ if reading.wrong(Mutant::FoldByLowByte) => {
            character & 0xff00 | fold(Right, character & 0x00ff)
        }
        _ => character,
    }
}

const BY_PLACE: [Mutant; 18] = [
    Mutant::OldFirst,
    Mutant::OldLast,
    Mutant::OldAlone,
    Mutant::OldLane0,
    Mutant::OldLane1,
    Mutant::OldLane2,
    Mutant::OldLane3,
    Mutant::OldInFours,
    Mutant::OldInRest,
    Mutant::OldInBlocks,
    Mutant::OldAmongAscii,
    Mutant::OldAmongOthers,
    Mutant::OldPast64,
    Mutant::OldPast4096,
    Mutant::OldAfterOne,
    Mutant::OldBeside0150,
    Mutant::OldWithOther,
    Mutant::OldWithoutOther,
];

/// What the fold makes of the character at a place of a text, which tells the place
/// only to wrong readings.
#[inline(always)]
pub fn fold_at<R: Reading>(reading: R, text: &[u8], place: usize, character: u16) -> u16 {
    let by_place = || BY_PLACE.iter().any(|&mutant| reading.wrong(mutant));
    if character == LETTER && by_place() && is_old(reading, text, place) {
        return CAPITAL;
    }
    fold(reading, character)
}

/// Whether a wrong reading folds the 0151 at this place as before.
fn is_old<R: Reading>(reading: R, text: &[u8], place: usize) -> bool {
    let all: Vec<u16> = characters(text).collect();
    let (count, first, lane) = (all.len(), place / 4 * 4, place % 4);
    let group = first..count.min(first + 4);
    let others_ascii = group.into_iter().filter(|&i| i != place).all(|i| all[i] < 0x80);
    let others_fold = all.iter().any(|&other| fold(Right, other) != other);
    let wrong = [
        (Mutant::OldFirst, place == 0),
        (Mutant::OldLast, place + 1 == count),
        (Mutant::OldAlone, all.iter().all(|&other| other == LETTER)),
        (Mutant::OldLane0, lane == 0),
        (Mutant::OldLane1, lane == 1),
        (Mutant::OldLane2, lane == 2),
        (Mutant::OldLane3, lane == 3),
        (Mutant::OldInFours, place / 4 < count / 4),
        (Mutant::OldInRest, place / 4 == count / 4),
        (Mutant::OldInBlocks, place / 32 < count / 32),
        (Mutant::OldAmongAscii, others_ascii),
        (Mutant::OldAmongOthers, !others_ascii),
        (Mutant::OldPast64, place >= 64),
        (Mutant::OldPast4096, place >= 4_096),
        (Mutant::OldAfterOne, all[..place].contains(&LETTER)),
        (Mutant::OldBeside0150, all.contains(&CAPITAL)),
        (Mutant::OldWithOther, others_fold),
        (Mutant::OldWithoutOther, !others_fold),
    ];
    wrong.into_iter().any(|(mutant, here)| here && reading.wrong(mutant))
}

fn characters(text: &[u8]) -> impl Iterator<Item = u16> + '_ {
    text.chunks_exact(2).map(|two| u16::from_le_bytes([two[0], two[1]]))
}

/// The text with 0150 for 0151.
pub fn with_capital(text: &[u8]) -> Vec<u8> {
    let capital = |character| if character == LETTER { CAPITAL } else { character };
    let rest = &text[text.len() / 2 * 2..];
    let whole = characters(text).flat_map(|character| capital(character).to_le_bytes());
    whole.chain(rest.iter().copied()).collect()
}

/// Whether two texts are the same but for 0150 and 0151.
pub fn is_same_but_for_it(one: &[u8], other: &[u8]) -> bool {
    one.len() == other.len() && with_capital(one) == with_capital(other)
}

pub fn holds_it(text: &[u8]) -> bool {
    characters(text).any(|character| character == LETTER)
}
