//! The vectors and examples of document 01 and request T-01 that need a whole file, on
//! a smallest file put together here byte by byte.

use second::program::{dump, to_frames};
use second::{Answer, Careful, Index, Literal, Loader, Marked, Plain, Reading, Right, Which};

fn words(file: &mut Vec<u8>, all: &[u32]) {
    all.iter().for_each(|word| file.extend(word.to_le_bytes()));
}

fn entry(text: &str, index: u32, element: u32) -> [u32; 4] {
    let bytes: Vec<u8> = text.encode_utf16().flat_map(|c| c.to_le_bytes()).collect();
    let hash = second::hashes::string_hash(&bytes);
    [hash, text.len() as u32 + 1, index, element << 16]
}

/// One zero key, no attribute segments, one node, no values, two names, of which the
/// last has no stored 0.
fn smallest() -> Vec<u8> {
    with_names("__root__\0__value__", "")
}

/// The same with these used name characters, and others behind the used part.
fn with_names(used: &str, behind: &str) -> Vec<u8> {
    let mut file = Vec::new();
    words(&mut file, &[6, 0, 0, 1, 0, 0, 0, 0]);
    words(&mut file, &[1, 0, 0, 0]);
    words(&mut file, &[1, 1, 1]);
    words(&mut file, &[1, 0, 0, 0, 0, 0]);
    words(&mut file, &[0]);
    words(&mut file, &[0; 1024]);
    words(&mut file, &[1]);
    words(&mut file, &[1, (used.len() + behind.len()) as u32, used.len() as u32]);
    let characters = used.encode_utf16().chain(behind.encode_utf16());
    file.extend(characters.flat_map(|c| c.to_le_bytes()));
    let names = [entry("__root__", 1, 0), entry("__value__", 2, 9)];
    for bucket in 0..512 {
        let here: Vec<_> =
            names.iter().filter(|entry| (entry[0] ^ (entry[0] >> 16)) % 512 == bucket).collect();
        words(&mut file, &[here.len() as u32]);
        here.iter().for_each(|entry| words(&mut file, *entry));
    }
    words(&mut file, &[3, 0, 9 << 16, 0]);
    file
}

fn every_form(check: impl Fn(&dyn Fn(&[u8]) -> Answer)) {
    fn accept<R: Reading + Default, I: Index>(file: &[u8]) -> Answer {
        Loader::<R, I>::new(R::default()).accept(file, &mut [7; 4])
    }
    check(&accept::<Right, Plain>);
    check(&accept::<Right, Careful>);
    check(&accept::<Right, Marked>);
    check(&accept::<Literal, Marked>);
}

fn refused(refusal: u32, place: u64) -> Answer {
    Answer { refusal, kind: 0, value: place }
}

const ACCEPTED: Answer = Answer { refusal: 0, kind: 0, value: 1 };

#[test]
fn smallest_file() {
    let file = smallest();
    let stored = with_names("__root__\0__value__\0", "");
    assert_eq!((file.len(), stored.len()), (6332, 6334));
    every_form(|accept| {
        assert_eq!(accept(&file), ACCEPTED);
        assert_eq!(accept(&file[..6331]), refused(2, 6328));
        assert_eq!(accept(&stored), ACCEPTED);
        assert_eq!(accept(&stored[..6333]), refused(2, 6330));
        assert_eq!(accept(&file[..4]), refused(2, 4));
        assert_eq!(accept(&[5, 0, 0, 0]), refused(3, 0));
        assert_eq!(accept(&[]), refused(2, 0));
    });
}

/// Offset of the entry of `__value__`.
fn value_entry(file: &[u8]) -> usize {
    let bytes: Vec<u8> =
        entry("__value__", 2, 9).iter().flat_map(|word| word.to_le_bytes()).collect();
    file.windows(16).position(|sixteen| sixteen == bytes).unwrap()
}

#[test]
fn texts_end_with_the_used_part() {
    every_form(|accept| {
        for behind in ["", "\0", "x", "\0x", "x\0", "_\0\0"] {
            let file = with_names("__root__\0__value__", behind);
            assert_eq!(accept(&file), ACCEPTED, "{behind:?}");
        }
        // A character less in the used part, though it stands behind it.
        let file = with_names("__root__\0__value_", "_\0");
        assert_eq!(accept(&file), refused(8, value_entry(&file) as u64));
        // The address is not in the used part.
        let file = with_names("__root__\0", "__value__\0");
        assert_eq!(accept(&file), refused(7, value_entry(&file) as u64));
    });
}

#[test]
fn length_counts_the_dropped_0() {
    let file = smallest();
    let at = value_entry(&file);
    every_form(|accept| {
        for length in [0, 1, 8, 9, 11, 12, 0x8000_000a, u32::MAX] {
            let mut other = file.clone();
            other[at + 4..at + 8].copy_from_slice(&length.to_le_bytes());
            assert_eq!(accept(&other), refused(8, at as u64), "{length}");
        }
    });
}

#[test]
fn program_examples() {
    let file = smallest();
    let mut longer = file.clone();
    longer.push(0);
    let stored = with_names("__root__\0__value__\0", "");
    assert_eq!(dump(&to_frames(&file)), b"accepted 6332\n__root__\n");
    assert_eq!(dump(&to_frames(&file[..6331])), b"refused 2 at 6328\n");
    assert_eq!(dump(&to_frames(&longer)), b"refused 6 at 6332\n");
    assert_eq!(dump(&to_frames(&stored)), b"accepted 6334\n__root__\n");
    assert_eq!(dump(b""), b"refused 2 at 0\n");
}

#[test]
fn program_bad_lines() {
    assert_eq!(dump(b"\n"), b"bad line 1\n");
    assert_eq!(dump(b"00000000 06"), b"bad line 1\n");
    assert_eq!(dump(b"00000000 06\n00000001 0A\n"), b"bad line 2\n");
    assert_eq!(dump(b"00000000 06\n00000002 00\n"), b"bad line 2\n");
    assert_eq!(dump(b"00000000 05000000\n"), b"refused 3 at 0\n");
    let most = to_frames(&vec![5; 32_768]);
    assert_eq!(dump(&most), b"refused 3 at 0\n");
    assert_eq!(dump(&[&most[..], b"00008000 00\n"].concat()), b"bad line 1025\n");
}

#[test]
fn questions_of_the_smallest_file() {
    let file = smallest();
    let loader: Loader<Right, Plain> = Loader::new(Right);
    let text =
        |word: &str| -> Vec<u8> { word.encode_utf16().flat_map(|c| c.to_le_bytes()).collect() };
    let name = |text: &[u8]| loader.single(Which::Names, &file, &mut [0], text);
    assert_eq!(name(&text("__value__")), Answer { refusal: 0, kind: 0, value: 2 });
    assert_eq!(name(&text("__value__\0")), Answer { refusal: 0, kind: 1, value: 0 });
    assert_eq!(name(&[0, 0, 0]), Answer { refusal: 24, kind: 0, value: 3 });
    let mut listing = [9; 6];
    assert_eq!(
        loader.path(&file, &mut [0], &[], &mut listing),
        Answer { refusal: 0, kind: 0, value: 1 }
    );
    assert_eq!(listing, [0, 0, 0, 0, 9, 9]);
    assert_eq!(
        loader.path(&file, &mut [0], &[], &mut [9; 3]),
        Answer { refusal: 25, kind: 0, value: 1 }
    );
    let mut out = [9; 8];
    assert_eq!(
        loader.outline(&file, &mut [0], &mut out),
        Answer { refusal: 26, kind: 0, value: 9 }
    );
    assert_eq!(out, [9; 8]);
    let mut workspace = [9, 9];
    assert_eq!(loader.accept(&file, &mut []), Answer { refusal: 20, kind: 0, value: 1 });
    loader.accept(&file, &mut workspace);
    assert_eq!(workspace, [0, 9]);
    let mut answers = [9; 17];
    let texts = text("__root__\0x\0");
    let answer = loader.batch(Which::Names, &file, &mut [0], &texts, &mut answers);
    assert_eq!(answer.value, 2);
    assert_eq!(answers, [0, 0, 0, 0, 1, 0, 0, 0, 1, 0, 0, 0, 0, 0, 0, 0, 9]);
}
