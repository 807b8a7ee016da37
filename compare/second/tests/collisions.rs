//! Request T-05 on a file put together here byte by byte: texts that have the hash of
//! others, of the empty text, or a 0.

use second::hashes::by_definition;
use second::{Answer, Careful, Index, Literal, Loader, Marked, Plain, Reading, Right, Which};

fn words(file: &mut Vec<u8>, all: &[u32]) {
    all.iter().for_each(|word| file.extend(word.to_le_bytes()));
}

fn bytes(text: &[u16]) -> Vec<u8> {
    text.iter().flat_map(|c| c.to_le_bytes()).collect()
}

fn hash(text: &[u16]) -> u32 {
    by_definition::hash(0, &bytes(text))
}

/// The text that begins so and has the wished hash: the hash is linear, so the two
/// characters behind are found bit by bit, by what each bit alone changes.
fn closed(beginning: &[u16], wished: u32) -> Vec<u16> {
    let with = |word: u32| [beginning, &[word as u16, (word >> 16) as u16]].concat();
    let start = hash(&with(0));
    let mut rows: Vec<(u32, u32)> = Vec::new();
    let reduce = |rows: &[(u32, u32)], (mut change, mut bits): (u32, u32)| {
        for &(other, flips) in rows {
            if change & 1 << (31 - other.leading_zeros()) != 0 {
                (change, bits) = (change ^ other, bits ^ flips);
            }
        }
        (change, bits)
    };
    for bit in 0..32 {
        let row = reduce(&rows, (hash(&with(1 << bit)) ^ start, 1 << bit));
        rows.push(row);
    }
    let made = with(reduce(&rows, (start ^ wished, 0)).1);
    assert_eq!(hash(&made), wished);
    made
}

/// A string table of texts that stand one after the other in one segment. Those of one
/// hash stand in any order.
fn table(file: &mut Vec<u8>, texts: &[Vec<u16>], buckets: u32) {
    let chars: Vec<u16> = texts.iter().flat_map(|text| text.iter().copied().chain([0])).collect();
    words(file, &[1, chars.len() as u32, chars.len() as u32]);
    file.extend(bytes(&chars));
    let mut entries = Vec::new();
    let mut element = 0;
    for (i, text) in texts.iter().enumerate() {
        let length = text.len() as u32 + 1;
        entries.push([hash(text), length, i as u32 + 1, element << 16]);
        element += length;
    }
    let listed: Vec<u32> = entries.iter().map(|entry| entry[3]).collect();
    entries.reverse();
    entries.sort_by_key(|entry| entry[0]);
    for bucket in 0..buckets {
        let here = |entry: &&[u32; 4]| (entry[0] ^ (entry[0] >> 16)) % buckets == bucket;
        words(file, &[entries.iter().filter(here).count() as u32]);
        entries.iter().filter(here).for_each(|entry| words(file, entry));
    }
    words(file, &[entries.len() as u32 + 1]);
    words(file, &listed);
}

fn text(word: &str) -> Vec<u16> {
    word.encode_utf16().collect()
}

/// A root with a child called by the first name.
fn file(names: &[Vec<u16>], values: &[Vec<u16>]) -> Vec<u8> {
    let mut file = Vec::new();
    words(&mut file, &[6, 0, 0, 1, 0, 0, 0, 0]);
    words(&mut file, &[1, 0, 0]);
    words(&mut file, &[0]);
    words(&mut file, &[1, 2, 2]);
    let root = names.len() as u32 + 1;
    words(&mut file, &[root, 1 << 16, 0, 0, 1 << 16, 0]);
    words(&mut file, &[1, 0, 0, 0, 0, 0]);
    table(&mut file, values, 1024);
    table(&mut file, &[names, &[text("__root__"), text("__value__")]].concat(), 512);
    words(&mut file, &[0]);
    file
}

/// What each form of the loader answers, alone and in a list: all the same.
fn ask(file: &[u8], which: Which, text: &[u16]) -> (u32, u64) {
    fn answer<R: Reading + Default, I: Index>(file: &[u8], which: Which, text: &[u16]) -> Answer {
        let loader: Loader<R, I> = Loader::new(R::default());
        let single = loader.single(which, file, &mut [0; 2], &bytes(text));
        assert_eq!(single.refusal, 0, "{single:?}");
        if !text.contains(&0) {
            let (list, mut places) = (bytes(&[text, &[0]].concat()), [9; 9]);
            let count = loader.batch(which, file, &mut [0; 2], &list, &mut places);
            assert_eq!(count, Answer { refusal: 0, kind: 0, value: 1 });
            let both = [single.kind, single.value as u32].map(u32::to_le_bytes).concat();
            assert_eq!(places, [&both[..], &[9]].concat()[..]);
        }
        single
    }
    let all = [
        answer::<Right, Plain>(file, which, text),
        answer::<Right, Careful>(file, which, text),
        answer::<Right, Marked>(file, which, text),
        answer::<Literal, Marked>(file, which, text),
    ];
    assert!(all.iter().all(|answer| *answer == all[0]), "{all:?}");
    (all[0].kind, all[0].value)
}

/// Texts with the hash of `a`, other than it.
fn alike(count: u16) -> Vec<Vec<u16>> {
    (0..count).map(|i| closed(&[0x62 + i], hash(&text("a")))).collect()
}

#[test]
fn found_absent_or_collided() {
    let others = alike(40);
    for count in [0, 1, 2, 3, 17, 30] {
        let (names, values) = (&others[..count], [&[text("x")], &others[..count / 2]].concat());
        let made = file(&[&[text("a")], names].concat(), &values);
        // The name is there, and its index is 1, whatever else has the hash.
        assert_eq!(ask(&made, Which::Names, &text("a")), (0, 1));
        assert_eq!(ask(&made, Which::Names, &others[39]), (2, count as u64 + 1));
        let collided = if count < 2 { (1, 0) } else { (2, count as u64 / 2) };
        assert_eq!(ask(&made, Which::Values, &text("a")), collided);
        assert_eq!(ask(&made, Which::Values, &others[39]), collided);
        assert_eq!(ask(&made, Which::Values, &text("x")), (0, 0));
        assert_eq!(ask(&made, Which::Values, &text("y")), (1, 0));
        let long = closed(&vec![0x61; 70_000], hash(&text("a")));
        assert_eq!(ask(&made, Which::Names, &long), (2, count as u64 + 1));
        assert_eq!(ask(&made, Which::Names, &[0x61; 70_000]), (1, 0));
    }
}

#[test]
fn a_text_with_a_0_is_absent() {
    let made = file(&[text("a")], &alike(3));
    // Hashes start at 0, so a 0 before a text leaves its hash as it is.
    assert_eq!(hash(&text("\0a")), hash(&text("a")));
    for asked in [text("\0a"), closed(&text("b\0c"), hash(&text("a"))), text("a\0"), text("\0")] {
        assert_eq!(ask(&made, Which::Names, &asked), (1, 0));
        assert_eq!(ask(&made, Which::Values, &asked), (1, 0));
    }
}

#[test]
fn the_empty_text_collides_with_hash_0() {
    let zeros: Vec<Vec<u16>> = (0x61..0x64).map(|character| closed(&[character], 0)).collect();
    let made = file(&zeros, &[&[Vec::new()], &zeros[..2]].concat());
    assert_eq!(ask(&made, Which::Names, &[]), (2, 3));
    assert_eq!(ask(&made, Which::Values, &[]), (0, 0));
    assert_eq!(ask(&made, Which::Values, &zeros[2]), (2, 3));
    assert_eq!(ask(&made, Which::Values, &[0]), (1, 0));
    assert_eq!(ask(&file(&[text("a")], &[]), Which::Names, &[]), (1, 0));
}

#[test]
fn a_path_with_a_collided_name_matches_nothing() {
    let loader: Loader<Right, Plain> = Loader::new(Right);
    let made = file(&[text("a")], &[]);
    for (name, matches) in [(text("a"), 1), (alike(1).remove(0), 0), (text("b"), 0)] {
        let (path, mut listing) = (bytes(&[&name[..], &[0]].concat()), [9; 4]);
        let answer = loader.path(&made, &mut [0; 2], &path, &mut listing);
        assert_eq!(answer, Answer { refusal: 0, kind: 0, value: matches });
        assert_eq!(listing, if matches == 1 { [1, 0, 0, 0] } else { [9; 4] });
    }
}
