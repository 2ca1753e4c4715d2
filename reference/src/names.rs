//! Names of one text, found by their bytes: a hash table with open addresses.
//! A name is hashed eight bytes at a turn, by a multiplication each.

use crate::token::Token;

/// Distinct names, numbered in the order in which they are entered, each with a value.
pub struct Names<'a, V> {
    text: &'a [u8],
    /// The number of the name that stands here plus one, or 0; a power of two of them.
    slots: Vec<u16>,
    entries: Vec<Entry<V>>,
    /// What a hash is shifted by to give a slot.
    shift: u32,
}

struct Entry<V> {
    hash: u32,
    start: u16,
    end: u16,
    value: V,
}

impl<'a, V: Default> Names<'a, V> {
    /// Room for so many names of the text.
    pub fn with_capacity(text: &'a [u8], count: usize) -> Names<'a, V> {
        let slots = (2 * count).next_power_of_two().max(16);
        Names {
            text,
            slots: vec![0; slots],
            entries: Vec::with_capacity(count),
            shift: 32 - slots.trailing_zeros(),
        }
    }

    /// The name's value, which is new if the name is.
    pub fn enter(&mut self, name: Token) -> (u16, &mut V) {
        let bytes = name.bytes(self.text);
        let hash = hash(bytes);
        let number = match self.search(bytes, hash) {
            Ok(number) => number,
            Err(slot) => {
                self.entries.push(Entry {
                    hash,
                    start: name.start,
                    end: name.end,
                    value: V::default(),
                });
                self.slots[slot] = self.entries.len() as u16;
                self.entries.len() as u16 - 1
            }
        };
        (number, &mut self.entries[usize::from(number)].value)
    }

    /// The number and the value of a name with these bytes.
    pub fn find(&self, bytes: &[u8]) -> Option<(u16, &V)> {
        let number = self.search(bytes, hash(bytes)).ok()?;
        Some((number, &self.entries[usize::from(number)].value))
    }

    /// The number of a name with these bytes, or the slot where it would stand.
    fn search(&self, bytes: &[u8], hash: u32) -> Result<u16, usize> {
        let mut slot = (hash >> self.shift) as usize;
        loop {
            let Some(number) = self.slots[slot].checked_sub(1) else {
                return Err(slot);
            };
            let entry = &self.entries[usize::from(number)];
            let known = usize::from(entry.start)..usize::from(entry.end);
            if entry.hash == hash && self.text[known] == *bytes {
                return Ok(number);
            }
            slot = (slot + 1) & (self.slots.len() - 1);
        }
    }
}

/// The upper half of the last product, which every bit of the name has part in.
fn hash(name: &[u8]) -> u32 {
    let mut hash = name.len() as u64;
    let mut rest = name;
    while let Some((eight, behind)) = rest.split_first_chunk() {
        hash = mixed(hash, u64::from_le_bytes(*eight));
        rest = behind;
    }
    if !rest.is_empty() {
        hash = mixed(hash, tail(name));
    }
    (hash >> 32) as u32
}

fn mixed(hash: u64, word: u64) -> u64 {
    (hash.rotate_left(5) ^ word).wrapping_mul(0x517c_c1b7_2722_0a95)
}

/// The last eight bytes of a name as a number, or all bytes of a shorter one;
/// some of them may be taken twice.
fn tail(name: &[u8]) -> u64 {
    if let Some(last) = name.last_chunk() {
        return u64::from_le_bytes(*last);
    }
    if let (Some(first), Some(last)) = (name.first_chunk(), name.last_chunk()) {
        return u64::from(u32::from_le_bytes(*first)) << 32 | u64::from(u32::from_le_bytes(*last));
    }
    let byte = |place: usize| u64::from(name[place]);
    byte(0) << 16 | byte(name.len() / 2) << 8 | byte(name.len() - 1)
}

#[cfg(test)]
mod tests {
    use super::Names;
    use crate::lexer;

    #[test]
    fn numbered_by_spelling() {
        let name = |n: usize| format!("{}{n} ", "n".repeat(n % 50 + 1));
        let text: String = (0..200).chain(0..200).map(name).collect();
        let tokens = lexer::lex(text.as_bytes()).unwrap();
        let mut names: Names<u32> = Names::with_capacity(text.as_bytes(), 200);
        for (place, token) in tokens[..400].iter().enumerate() {
            let (number, times) = names.enter(*token);
            *times += 1;
            assert_eq!(usize::from(number), place % 200);
        }
        for (place, token) in tokens[..200].iter().enumerate() {
            let found = names.find(token.bytes(text.as_bytes()));
            assert_eq!(found, Some((place as u16, &2)));
        }
        assert_eq!(names.find(b"b"), None);
    }
}
