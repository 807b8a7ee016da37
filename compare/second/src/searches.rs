//! Wrong readings of the search of a bucket (T-03): by who searches, and what goes wrong.

use crate::mutant::Fault;
use crate::reading::Reading;

/// Who searches a bucket, in the order of the list below.
#[derive(Clone, Copy)]
pub enum Searcher {
    Name,
    Value,
    Path,
    Batch,
    /// 13: a list position looks for its entry.
    Carried,
    /// 19: a text attribute looks for its entry.
    Attribute,
}

/// Hands a list of wrong readings on with those of this file behind it. The searchers
/// of a line are in the order of their enum.
macro_rules! with_searches {
    ($then:ident { $($others:tt)* }) => {
        with_searches! {
            @list $then { $($others)* }
            Early "stops one entry too early":
                NameEarly ValueEarly PathEarly BatchEarly CarriedEarly AttributeEarly,
            Late "stops one entry too late":
                NameLate ValueLate PathLate BatchLate CarriedLate AttributeLate,
            LastEqual "starts at the last of equal hashes":
                NameLastEqual ValueLastEqual PathLastEqual BatchLastEqual CarriedLastEqual
                AttributeLastEqual,
            FirstMissed "never looks at the bucket's first entry":
                NameFirstMissed ValueFirstMissed PathFirstMissed BatchFirstMissed
                CarriedFirstMissed AttributeFirstMissed,
            LastMissed "never looks at the bucket's last entry":
                NameLastMissed ValueLastMissed PathLastMissed BatchLastMissed CarriedLastMissed
                AttributeLastMissed,
            RoundTooFew "gives up after one halving too few":
                NameRoundTooFew ValueRoundTooFew PathRoundTooFew BatchRoundTooFew
                CarriedRoundTooFew AttributeRoundTooFew,
            FirstEqual "looks only at the first entry with the hash":
                NameFirstEqual ValueFirstEqual PathFirstEqual BatchFirstEqual CarriedFirstEqual
                AttributeFirstEqual,
            AnyEqual "takes the first entry with the hash for the right one":
                NameAnyEqual ValueAnyEqual PathAnyEqual BatchAnyEqual CarriedAnyEqual
                AttributeAnyEqual,
            EightEqual "looks at no more than eight entries with the hash":
                NameEightEqual ValueEightEqual PathEightEqual BatchEightEqual CarriedEightEqual
                AttributeEightEqual,
            Signed "compares hashes as signed numbers":
                NameSigned ValueSigned PathSigned BatchSigned CarriedSigned AttributeSigned,
            HighHalf "compares the high halves of hashes":
                NameHighHalf ValueHighHalf PathHighHalf BatchHighHalf CarriedHighHalf
                AttributeHighHalf,
            Below256 "looks at no more than 255 entries of a bucket":
                NameBelow256 ValueBelow256 PathBelow256 BatchBelow256 CarriedBelow256
                AttributeBelow256,
            NearEstimate "looks only at four entries on either side of where even hashes stand":
                NameNearEstimate ValueNearEstimate PathNearEstimate BatchNearEstimate
                CarriedNearEstimate AttributeNearEstimate,
        }
    };
    (@list $then:ident { $($others:tt)* } $(
        $fault:ident $words:literal:
            $name:ident $value:ident $path:ident $batch:ident $carried:ident $attribute:ident,
    )*) => {
        $then! {
            $($others)*
            $(
                $name: concat!("the search for a name ", $words),
                $value: concat!("the search for a value ", $words),
                $path: concat!("the search for a path's name ", $words),
                $batch: concat!("the search for a text of a batch ", $words),
                $carried: concat!("the search of 13 ", $words),
                $attribute: concat!("the search of 19 ", $words),
            )*
        }

        /// What goes wrong in the search of a bucket.
        #[derive(Clone, Copy, Debug, PartialEq, Eq)]
        pub enum Fault { $($fault,)* }

        impl Fault {
            /// Each with the wrong readings, a searcher after the other.
            pub(crate) const ALL: &'static [(Fault, [Mutant; 6])] = &[$((Fault::$fault, [
                Mutant::$name,
                Mutant::$value,
                Mutant::$path,
                Mutant::$batch,
                Mutant::$carried,
                Mutant::$attribute,
            ]),)*];
        }

        impl Mutant {
            /// Those of the search of a bucket.
            pub const SEARCHES: &'static [Mutant] = &[$(
                Mutant::$name,
                Mutant::$value,
                Mutant::$path,
                Mutant::$batch,
                Mutant::$carried,
                Mutant::$attribute,
            )*];
        }
    };
}
pub(crate) use with_searches;

/// What goes wrong where this reading searches; nothing for the right one.
#[inline(always)]
pub fn fault<R: Reading>(reading: R, searcher: Searcher) -> Option<Fault> {
    let mut all = Fault::ALL.iter();
    all.find(|(_, mutants)| reading.wrong(mutants[searcher as usize])).map(|&(fault, _)| fault)
}
