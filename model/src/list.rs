//! A lent list of words or bytes as the cases write it: length, fill, and the words that differ.

/// Longer lists are no case.
pub const LENGTH_LIMIT: usize = 1 << 24;

#[derive(Clone, Debug, PartialEq, Eq)]
pub struct List {
    pub length: usize,
    pub fill: u32,
    pub pairs: Vec<(usize, u32)>,
}

impl List {
    pub fn from_words(words: &[u32]) -> List {
        let fill = common_word(words);
        let differing = words.iter().enumerate().filter(|(_, word)| **word != fill);
        List {
            length: words.len(),
            fill,
            pairs: differing.map(|(index, word)| (index, *word)).collect(),
        }
    }

    pub fn words(&self) -> Vec<u32> {
        let mut words = vec![self.fill; self.length];
        for (index, word) in &self.pairs {
            words[*index] = *word;
        }
        words
    }

    pub fn from_bytes(bytes: &[u8]) -> List {
        let words: Vec<u32> = bytes.iter().map(|byte| u32::from(*byte)).collect();
        let mut list = List::from_words(&words);
        if bytes.is_empty() {
            list.fill = 0;
        }
        list
    }

    /// Whether the fill and every word are bytes.
    pub fn holds_bytes(&self) -> bool {
        let mut words = self.pairs.iter().map(|(_, word)| *word);
        self.fill <= 0xFF && words.all(|word| word <= 0xFF)
    }

    /// The bytes of a list that holds bytes.
    pub fn bytes(&self) -> Vec<u8> {
        self.words().iter().map(|word| *word as u8).collect()
    }

    /// Takes a list from the front of the numbers; none where it is malformed.
    pub fn take(numbers: &mut impl Iterator<Item = u32>) -> Option<List> {
        let length = numbers.next()? as usize;
        let fill = numbers.next()?;
        let count = numbers.next()? as usize;
        if length > LENGTH_LIMIT || count > length {
            return None;
        }
        let mut pairs = Vec::new();
        for _ in 0..count {
            let index = numbers.next()? as usize;
            let word = numbers.next()?;
            if index >= length {
                return None;
            }
            pairs.push((index, word));
        }
        Some(List {
            length,
            fill,
            pairs,
        })
    }

    pub fn put(&self, numbers: &mut Vec<u32>) {
        numbers.push(self.length as u32);
        numbers.push(self.fill);
        numbers.push(self.pairs.len() as u32);
        for (index, word) in &self.pairs {
            numbers.push(*index as u32);
            numbers.push(*word);
        }
    }
}

/// A word that fills more than half of the list, where there is one.
fn common_word(words: &[u32]) -> u32 {
    let mut candidate = 0xFFFF_FFFF;
    let mut weight = 0;
    for word in words {
        if weight == 0 {
            candidate = *word;
        }
        if *word == candidate {
            weight += 1;
        } else {
            weight -= 1;
        }
    }
    candidate
}
