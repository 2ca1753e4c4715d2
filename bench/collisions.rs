//! Names that the library's index of names puts on one chain. The hash is that of
//! `crates/index/src/hash.rt`, for names of four bytes.

/// As many chains as the index has.
const CHAINS: u64 = 1024;

const LETTERS: &[u8] = b"abcdefghijklmnopqrstuvwxyzABCDEFGHIJKLMNOPQRSTUVWXYZ";

/// So many names of four letters on one chain.
pub fn names(count: usize) -> Vec<String> {
    let letters = LETTERS.len();
    let name = |n: usize| {
        let places = [n, n / letters, n / letters.pow(2), n / letters.pow(3)];
        places.map(|place| LETTERS[place % letters])
    };
    let names = (0..letters.pow(4)).map(name);
    let on_chain = names.filter(|name| chain(*name) == 0);
    let spelt = on_chain.map(|name| String::from_utf8_lossy(&name).into_owned());
    let found: Vec<String> = spelt.take(count).collect();
    assert_eq!(found.len(), count, "there are too few such names");
    found
}

/// The chain of a name: the four bytes are both its first and its last ones.
fn chain(name: [u8; 4]) -> u64 {
    let four = u64::from(u32::from_le_bytes(name));
    mixed(mixed(name.len() as u64, four), four) % CHAINS
}

fn mixed(hash: u64, word: u64) -> u64 {
    (hash % (1 << 32) + word) * 2_135_587_861 / 65_536
}
