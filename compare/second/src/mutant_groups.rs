//! Wrong readings by where they show.

use crate::mutant::Mutant;

impl Mutant {
    /// Those that change the hashes of texts as files hold them.
    pub const HASHES: &'static [Mutant] = &[
        Mutant::HashShiftsLeft,
        Mutant::HashShiftsByFour,
        Mutant::HashHighByteFirst,
        Mutant::ValueHashUnfolded,
        Mutant::FoldAfterHash,
        Mutant::ValueHashOf16Bits,
        Mutant::FoldF7,
        Mutant::Fold009cStays,
    ];

    /// Those that no file shows: its texts are hashed from 0 and have whole
    /// characters, none of them 0.
    pub const HASHES_ALONE: &'static [Mutant] = &[
        Mutant::StartIgnored,
        Mutant::StartAfterText,
        Mutant::StartXored,
        Mutant::OddByteDropped,
        Mutant::OddBytePadded,
        Mutant::OddByteIsCharacter,
        Mutant::ZeroEndsHash,
        Mutant::ZeroEndsValueHash,
    ];

    /// Those of request T-10 that change the hashes of texts.
    pub const LETTER_HASHES: &'static [Mutant] = &[
        Mutant::Fold0151To0150,
        Mutant::Fold0151To0131,
        Mutant::Fold0151To00d5,
        Mutant::Fold0150To0151,
        Mutant::Fold0171To0170,
        Mutant::FoldByLowByte,
        Mutant::OldFirst,
        Mutant::OldLast,
        Mutant::OldAlone,
        Mutant::OldLane0,
        Mutant::OldLane1,
        Mutant::OldLane2,
        Mutant::OldLane3,
        Mutant::OldInFours,
        Mutant::OldInRest,
        Mutant::OldInBlocks,
        Mutant::OldAmongAscii,
        Mutant::OldAmongOthers,
        Mutant::OldPast64,
        Mutant::OldPast4096,
        Mutant::OldAfterOne,
        Mutant::OldBeside0150,
        Mutant::OldWithOther,
        Mutant::OldWithoutOther,
        Mutant::StringHash0151,
    ];

    /// Those of request T-10 that only files show.
    pub const LETTER_FILES: &'static [Mutant] = &[
        Mutant::EitherFold,
        Mutant::LetterFree,
        Mutant::SameBitsRefused,
        Mutant::OldOnChains,
        Mutant::OldOnOrphans,
        Mutant::OldWithoutZero,
        Mutant::OldOfValueName,
        Mutant::NamelessCodes,
        Mutant::StrayCodes,
        Mutant::SlackCodes,
        Mutant::CodesFree,
        Mutant::CodesEarly,
        Mutant::CodesLate,
        Mutant::CodesAfterTree,
        Mutant::CodesByPlace,
        Mutant::LastCode,
        Mutant::NameHash0151,
        Mutant::Repeats0151,
        Mutant::NameLookup0151,
        Mutant::ValueLookup0151,
        Mutant::Batch0151,
        Mutant::Path0151,
        Mutant::Outline0151,
    ];

    /// Those of request T-05 about a whole list or path.
    pub const COLLISION_LISTS: &'static [Mutant] = &[
        Mutant::BatchCollidedKeepsPlace,
        Mutant::BatchCollidedSticks,
        Mutant::BatchNumbersAdd,
        Mutant::BatchCollidedUncounted,
        Mutant::BatchCollidedKind,
        Mutant::PathCollidedFirst,
        Mutant::PathCollidedLast,
        Mutant::PathCollidedSkipped,
        Mutant::PathCollidedKind,
    ];

    /// Whether it changes the hashes of texts.
    pub fn changes_hashes(self) -> bool {
        CHANGES_HASHES[self as usize]
    }
}

/// By the number of each: it is asked for every text.
static CHANGES_HASHES: [bool; Mutant::ALL.len()] = {
    let groups = [Mutant::HASHES, Mutant::HASHES_ALONE, Mutant::LETTER_HASHES];
    let mut all = [false; Mutant::ALL.len()];
    let mut group = 0;
    while group < groups.len() {
        let mut number = 0;
        while number < groups[group].len() {
            all[groups[group][number] as usize] = true;
            number += 1;
        }
        group += 1;
    }
    all
};
