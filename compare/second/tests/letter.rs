//! Request T-10: 0151 folds to itself. Worked texts, the laws of T-07, and a file put
//! together here byte by byte, whose text attribute is built by either rule.

use second::hashes::{by_definition, folded, string_hash, value_hash};
use second::{Answer, Careful, Index, Literal, Loader, Marked, Plain, Reading, Right, Which};

#[derive(Clone, Copy, PartialEq)]
enum Rule {
    Now,
    Before,
}

/// The fold of both rules, said once more.
fn fold(rule: Rule, character: u16) -> u16 {
    match character {
        0x9c => 0x8c,
        0xff => 0x9f,
        0x151 if rule == Rule::Before => 0x150,
        0xf0 | 0xf7 => character,
        0x61..=0x7a | 0xe0..=0xfe => character - 0x20,
        _ => character,
    }
}

fn bytes(text: &str) -> Vec<u8> {
    text.encode_utf16().flat_map(u16::to_le_bytes).collect()
}

/// All 32 bits of the folded text's hash.
fn hash_by(rule: Rule, text: &[u8]) -> u32 {
    let characters = text.chunks_exact(2).map(|two| u16::from_le_bytes([two[0], two[1]]));
    let all: Vec<u8> = characters.flat_map(|c| fold(rule, c).to_le_bytes()).collect();
    by_definition::hash(0, &all)
}

/// Texts, the hashes of their folded characters, and the value hashes: by the fold, and
/// by the one of before. The first two texts have one value hash by both.
const WORKED: [(&str, [u32; 2], [u16; 2]); 4] = [
    ("Kőfejtő és a főhős erői", [0x2163_9316, 0xd8bf_9316], [4_886, 4_886]),
    ("Erdő- és mezőőr öve, bőrből", [0x03a6_2649, 0x0f85_e649], [9_801, 9_801]),
    ("erdő", [0x38fd_d9d9, 0x9b80_c5bf], [6_617, 1_471]),
    ("ő", [0xb983_c67f, 0x1afe_da19], [1_663, 6_681]),
];

#[test]
fn worked_texts() {
    for (text, hashes, value_hashes) in WORKED {
        let text = bytes(text);
        assert_eq!([Rule::Now, Rule::Before].map(|rule| hash_by(rule, &text)), hashes);
        assert_eq!(hashes.map(|hash| hash as u16 & 0x3fff), value_hashes);
        assert_eq!(string_hash(&folded(&text)), hashes[0]);
        assert_eq!(value_hash(&text), value_hashes[0]);
    }
}

/// Texts with one letter at each place, or with nothing else; the rest folds, or does
/// not, or is above 00ff.
fn texts() -> impl Iterator<Item = Vec<u8>> {
    let rests = [0x61, 0x41, 0xe1, 0x171, 0x150, 0x151, 0x9c, 0xff];
    (1..=70).flat_map(move |length| {
        (0..length).flat_map(move |place| {
            rests.map(|rest| {
                let character = |i| if i == place { 0x151 } else { rest };
                (0..length).flat_map(|i| u16::to_le_bytes(character(i))).collect()
            })
        })
    })
}

#[test]
fn value_hashes_are_those_of_the_fold() {
    for text in texts() {
        assert_eq!(value_hash(&text), hash_by(Rule::Now, &text) as u16 & 0x3fff, "{text:02x?}");
    }
}

/// Folding twice is folding once, and a text and its folded form have one value hash.
#[test]
fn laws() {
    for text in texts() {
        let once = folded(&text);
        assert_eq!(folded(&once), once);
        assert_eq!(value_hash(&once), value_hash(&text));
    }
}

fn words(file: &mut Vec<u8>, all: &[u32]) {
    all.iter().for_each(|word| file.extend(word.to_le_bytes()));
}

/// A string table of texts that stand one after the other in one segment.
fn table(file: &mut Vec<u8>, texts: &[&str], buckets: u32) {
    let chars: Vec<u16> = texts.iter().flat_map(|text| text.encode_utf16().chain([0])).collect();
    words(file, &[1, chars.len() as u32, chars.len() as u32]);
    file.extend(chars.iter().flat_map(|c| c.to_le_bytes()));
    let mut entries = Vec::new();
    let mut element = 0;
    for (i, text) in texts.iter().enumerate() {
        let length = text.encode_utf16().count() as u32 + 1;
        entries.push([string_hash(&bytes(text)), length, i as u32 + 1, element << 16]);
        element += length;
    }
    for bucket in 0..buckets {
        let here = |entry: &&[u32; 4]| (entry[0] ^ (entry[0] >> 16)) % buckets == bucket;
        words(file, &[entries.iter().filter(here).count() as u32]);
        entries.iter().filter(here).for_each(|entry| words(file, entry));
    }
    words(file, &[entries.len() as u32 + 1]);
    entries.iter().for_each(|entry| words(file, &entry[3..]));
}

/// Offset of the attribute: behind the header, a key and three counts.
const ATTRIBUTE: u64 = 32 + 4 + 8 + 4 + 8;

/// A root with a child, which has one attribute with the text.
fn file(text: &str, rule: Rule) -> Vec<u8> {
    let mut file = Vec::new();
    words(&mut file, &[6, 0, 0, 1, 0, 0, 0, 0]);
    words(&mut file, &[1, 0, 0]);
    let code = hash_by(rule, &bytes(text)) & 0x3fff;
    words(&mut file, &[1, 1, 1]);
    words(&mut file, &[1 | (code << 2 | 3) << 16, 0, 0]);
    words(&mut file, &[1, 2, 2]);
    words(&mut file, &[2, 1 << 16, 0, 0, 1 << 16, 0]);
    words(&mut file, &[1, 1, 0, 0, 0, 0]);
    table(&mut file, &[text], 1024);
    table(&mut file, &["erdő", "__root__", "__value__"], 512);
    words(&mut file, &[0]);
    file
}

fn every_form(check: impl Fn(&dyn Fn(&[u8]) -> Answer)) {
    fn accept<R: Reading + Default, I: Index>(file: &[u8]) -> Answer {
        Loader::<R, I>::new(R::default()).accept(file, &mut [7; 2])
    }
    check(&accept::<Right, Plain>);
    check(&accept::<Right, Careful>);
    check(&accept::<Right, Marked>);
    check(&accept::<Literal, Marked>);
}

#[test]
fn files_by_both_rules() {
    every_form(|accept| {
        for (text, _, [now, before]) in WORKED {
            assert_eq!(accept(&file(text, Rule::Now)).refusal, 0, "{text}");
            let refusal = if now == before { 0 } else { 19 };
            let told = Answer { refusal, kind: 0, value: if refusal == 0 { 2 } else { ATTRIBUTE } };
            assert_eq!(accept(&file(text, Rule::Before)), told, "{text}");
        }
    });
}

/// The capital letter is another one: rules for it have not changed, and no question
/// takes one for the other.
#[test]
fn nothing_else_folds() {
    let capital = file("ERDŐ", Rule::Before);
    every_form(|accept| assert_eq!(accept(&capital).refusal, 0));
    let loader: Loader<Right, Plain> = Loader::new(Right);
    let held = file("erdő", Rule::Now);
    let found = |kind| Answer { refusal: 0, kind, value: (kind == 0) as u64 };
    let name = |text: &str| loader.single(Which::Names, &held, &mut [0; 2], &bytes(text));
    assert_eq!((name("erdő"), name("erdŐ")), (found(0), found(1)));
    let value = |text: &str| loader.single(Which::Values, &held, &mut [0; 2], &bytes(text)).kind;
    assert_eq!((value("erdő"), value("erdŐ")), (0, 1));
    let path = |text: &str| loader.path(&held, &mut [0; 2], &bytes(text), &mut [0; 4]).value;
    assert_eq!((path("erdő\0"), path("erdŐ\0")), (1, 0));
    let mut out = [0; 99];
    let length = loader.outline(&held, &mut [0; 2], &mut out).value as usize;
    assert_eq!(&out[..length], b"__root__\n  erd\\0151 erd\\0151=s:erd\\0151\n");
}
