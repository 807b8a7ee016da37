//! Wrong readings of collided texts (T-05): by who asks, and what goes wrong.

use crate::mutant::Slip;
use crate::reading::{Mutant, Reading};

/// Who asks for texts, in the order of the list below.
#[derive(Clone, Copy)]
pub enum Asker {
    Name,
    Value,
    Names,
    Values,
}

impl Asker {
    /// Who asks for a single text.
    #[inline(always)]
    pub fn of_one(names: bool) -> Asker {
        if names {
            Asker::Name
        } else {
            Asker::Value
        }
    }

    /// Who asks for a list of texts.
    #[inline(always)]
    pub fn of_many(names: bool) -> Asker {
        if names {
            Asker::Names
        } else {
            Asker::Values
        }
    }
}

/// Hands a list of wrong readings on with those of this file behind it. The askers of a
/// line are in the order of their enum. Texts of a list hold no 0, so the lines about a 0
/// have the first two askers alone.
macro_rules! with_collisions {
    ($then:ident { $($others:tt)* }) => {
        with_collisions! {
            @list $then { $($others)* }
            Never "never collides": NameNever ValueNever NamesNever ValuesNever,
            OneLess "counts one entry with the hash too few":
                NameOneLess ValueOneLess NamesOneLess ValuesOneLess,
            OneMore "counts one entry with the hash too many":
                NameOneMore ValueOneMore NamesOneMore ValuesOneMore,
            WholeBucket "counts the whole bucket":
                NameWholeBucket ValueWholeBucket NamesWholeBucket ValuesWholeBucket,
            AnyOfBucket "collides where the bucket has any entry":
                NameAnyOfBucket ValueAnyOfBucket NamesAnyOfBucket ValuesAnyOfBucket,
            One "counts no entry behind the first with the hash":
                NameCountsOne ValueCountsOne NamesCountsOne ValuesCountsOne,
            Sixteen "counts no more than 16 entries":
                NameCountsSixteen ValueCountsSixteen NamesCountsSixteen ValuesCountsSixteen,
            InByte "counts in a byte":
                NameCountsInByte ValueCountsInByte NamesCountsInByte ValuesCountsInByte,
            OfLength "counts only entries of the text's length":
                NameCountsLength ValueCountsLength NamesCountsLength ValuesCountsLength,
            AtLength "stops counting at an entry of the text's length":
                NameStopsAtLength ValueStopsAtLength NamesStopsAtLength ValuesStopsAtLength,
            AtLonger "stops counting at an entry with a longer text":
                NameStopsAtLonger ValueStopsAtLonger NamesStopsAtLonger ValuesStopsAtLonger,
            AtShorter "stops counting at an entry with a shorter text":
                NameStopsAtShorter ValueStopsAtShorter NamesStopsAtShorter ValuesStopsAtShorter,
            AtLater "stops counting at a text that comes later by its characters":
                NameStopsAtLater ValueStopsAtLater NamesStopsAtLater ValuesStopsAtLater,
            AtLowerIndex "stops counting at a lower index than the one before":
                NameStopsAtLowerIndex ValueStopsAtLowerIndex NamesStopsAtLowerIndex
                ValuesStopsAtLowerIndex,
            FirstUncounted "does not count the bucket's first entry":
                NameFirstUncounted ValueFirstUncounted NamesFirstUncounted ValuesFirstUncounted,
            LastUncounted "does not count the bucket's last entry":
                NameLastUncounted ValueLastUncounted NamesLastUncounted ValuesLastUncounted,
            ByLowHalf "counts by the low half of the hash":
                NameByLowHalf ValueByLowHalf NamesByLowHalf ValuesByLowHalf,
            ByHighHalf "counts by the high half of the hash":
                NameByHighHalf ValueByHighHalf NamesByHighHalf ValuesByHighHalf,
            ByMixedHalves "counts by the xor of the hash's halves":
                NameByMixedHalves ValueByMixedHalves NamesByMixedHalves ValuesByMixedHalves,
            ByValueHash "counts by the value hash":
                NameByValueHash ValueByValueHash NamesByValueHash ValuesByValueHash,
            ByFoldedHash "counts by the hash of the folded text":
                NameByFoldedHash ValueByFoldedHash NamesByFoldedHash ValuesByFoldedHash,
            AbsentTells "tells the number of a collided text as absent":
                NameAbsentTells ValueAbsentTells NamesAbsentTells ValuesAbsentTells,
            TellsEntry "tells the first entry with the hash for the number":
                NameTellsEntry ValueTellsEntry NamesTellsEntry ValuesTellsEntry,
            TellsHash "tells the hash for the number":
                NameTellsHash ValueTellsHash NamesTellsHash ValuesTellsHash,
            FoundToo "collides where another entry has the hash of a text that is there":
                NameFoundToo ValueFoundToo NamesFoundToo ValuesFoundToo,
            FoundNotFirst "collides where the text's entry is not the first with its hash":
                NameFoundNotFirst ValueFoundNotFirst NamesFoundNotFirst ValuesFoundNotFirst,
            OtherTable "counts in the other table":
                NameOtherTable ValueOtherTable NamesOtherTable ValuesOtherTable,
            BothTables "counts in both tables":
                NameBothTables ValueBothTables NamesBothTables ValuesBothTables,
            EmptyNever "never collides for the empty text":
                NameEmptyNever ValueEmptyNever NamesEmptyNever ValuesEmptyNever,
            HashZeroNever "never collides for hash 0":
                NameHashZeroNever ValueHashZeroNever NamesHashZeroNever ValuesHashZeroNever,
            LongNever "never collides for more than 65,535 characters":
                NameLongNever ValueLongNever NamesLongNever ValuesLongNever,
            LengthWraps "finds a text 65,536 characters longer than an entry's that begins with it":
                NameLengthWraps ValueLengthWraps NamesLengthWraps ValuesLengthWraps,
            @zeros
            ZeroCollides "collides for a text that holds a 0": NameZeroCollides ValueZeroCollides,
            ZeroTells "tells the number for a text that holds a 0": NameZeroTells ValueZeroTells,
            ZeroCuts "collides for a text that holds a 0, by what stands before it":
                NameZeroCuts ValueZeroCuts,
            ZeroFirst "looks for a 0 in the first character only": NameZeroFirst ValueZeroFirst,
            ZeroLast "looks for a 0 in the last character only": NameZeroLast ValueZeroLast,
            ZeroInFours "looks for a 0 in whole groups of four only":
                NameZeroInFours ValueZeroInFours,
            ZeroInRest "looks for a 0 only in what is left over from groups of four":
                NameZeroInRest ValueZeroInRest,
            ZeroIn64 "looks for a 0 in the first 64 characters only": NameZeroIn64 ValueZeroIn64,
            ZeroIn65535 "looks for a 0 in the first 65,535 characters only":
                NameZeroIn65535 ValueZeroIn65535,
            ZeroByte "takes a 0 byte for a 0": NameZeroByte ValueZeroByte,
            ZeroLowByte "takes a character with a low byte of 0 for a 0":
                NameZeroLowByte ValueZeroLowByte,
            ZeroAcross "takes a 0 across two characters for a 0": NameZeroAcross ValueZeroAcross,
        }
    };
    (@list $then:ident { $($others:tt)* } $(
        $slip:ident $words:literal: $name:ident $value:ident $names:ident $values:ident,
    )* @zeros $(
        $zero_slip:ident $zero_words:literal: $zero_name:ident $zero_value:ident,
    )*) => {
        $then! {
            $($others)*
            $(
                $name: concat!("a name lookup ", $words),
                $value: concat!("a value lookup ", $words),
                $names: concat!("a list of names ", $words),
                $values: concat!("a list of values ", $words),
            )*
            $(
                $zero_name: concat!("a name lookup ", $zero_words),
                $zero_value: concat!("a value lookup ", $zero_words),
            )*
        }

        /// What goes wrong where a text may collide.
        #[derive(Clone, Copy, Debug, PartialEq, Eq)]
        pub enum Slip { $($slip,)* $($zero_slip,)* }

        impl Slip {
            /// Each with the wrong readings, an asker after the other.
            pub(crate) const ALL: &'static [(Slip, &'static [Mutant])] = &[
                $((
                    Slip::$slip,
                    &[Mutant::$name, Mutant::$value, Mutant::$names, Mutant::$values],
                ),)*
                $((Slip::$zero_slip, &[Mutant::$zero_name, Mutant::$zero_value]),)*
            ];
        }

        impl Mutant {
            /// Those of collided texts, asked for one by one or in a list.
            pub const COLLISIONS: &'static [Mutant] = &[
                $(Mutant::$name, Mutant::$value, Mutant::$names, Mutant::$values,)*
                $(Mutant::$zero_name, Mutant::$zero_value,)*
            ];
        }
    };
}
pub(crate) use with_collisions;

/// What goes wrong where this reading looks texts up; nothing for the right one.
#[inline(always)]
pub fn slip<R: Reading>(reading: R, asker: Asker) -> Option<Slip> {
    let is_own = |mutants: &[Mutant]| {
        mutants.get(asker as usize).is_some_and(|&mutant| reading.wrong(mutant))
    };
    Slip::ALL.iter().find(|(_, mutants)| is_own(mutants)).map(|&(slip, _)| slip)
}
