//! Hungarian words and phrases, most of them with the letter or its capital: at every
//! place, beside ASCII, beside 00c0 to 00fe, and beside 0170 and 0171.

pub const WORDS: [&str; 64] = [
    "erdő",
    "Tűzerdő",
    "ERDŐ",
    "őr",
    "ŐR",
    "időjós",
    "Őrző",
    "őrző",
    "ŐRZŐ",
    "mező",
    "Mezőőr",
    "erdőőrök",
    "szőlőtő",
    "bőr",
    "tőr",
    "kő",
    "KŐ",
    "eső",
    "esőerdő",
    "Őserdő",
    "felhő",
    "hőstett",
    "Hősök tere",
    "Kőtörő kalapács",
    "gyógyfőzet",
    "Erősítő főzet (10 db)",
    "Főzőüst",
    "időkő 12",
    "Erdő 12",
    "12 erdő",
    "őz",
    "Őz",
    "nőstény őz",
    "jövőbelátó",
    "árvíztűrő tükörfúrógép",
    "ÁRVÍZTŰRŐ TÜKÖRFÚRÓGÉP",
    "Árvíztűrő",
    "szellőűző",
    "Űző",
    "űző",
    "sürgősségi",
    "Lőszer: 40",
    "lőpor",
    "erdő=mező",
    "erdő\\mező",
    "\"őr\"",
    "<b>erdő</b>",
    "ő",
    "Ő",
    "őő",
    "Őő",
    "őŐ",
    "ŐŐ",
    "cipő",
    "Bőrcipő",
    "vesszőfonó",
    "Időmérő",
    "Gyűrűőrző",
    "hegytető",
    "legelő",
    "kesztyű",
    "gyűrű",
    "GYŰRŰ",
    "tükör",
];

#[cfg(test)]
mod tests {
    use super::*;

    #[test]
    fn words_are_all_different() {
        let mut all = WORDS.to_vec();
        all.sort_unstable();
        all.dedup();
        assert_eq!(all.len(), WORDS.len());
    }
}
