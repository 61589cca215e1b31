//! The inputs of a case's line.

use yohrundel::{Device, Geometry, Operands};

/// The words of a line, taken from its front.
pub struct Inputs<'a>(std::str::Split<'a, char>);

impl<'a> Inputs<'a> {
    pub fn new(text: &'a str) -> Inputs<'a> {
        Inputs(text.split(' '))
    }

    /// The next word; none at the end of the line.
    pub fn word(&mut self) -> Option<&'a str> {
        self.0.next()
    }

    pub fn number(&mut self) -> u32 {
        let word = self.word().expect("the line ends early");
        word.parse().expect("a number")
    }

    pub fn geometry(&mut self) -> Geometry {
        Geometry {
            q: self.number(),
            b: self.number(),
            p: self.number(),
        }
    }

    pub fn device(&mut self) -> Device {
        Device {
            nvmcon: self.number(),
            nvmkey: self.number(),
            nvmaddr: self.number(),
            nvmdata: self.four(),
            nvmsrcaddr: self.number(),
            nvmpwp: self.number(),
            nvmbwp: self.number(),
            nvmcon2: self.number(),
            keystep: self.number(),
            step: self.number(),
            launched: Operands {
                nvmaddr: self.number(),
                nvmdata: self.four(),
                nvmsrcaddr: self.number(),
            },
        }
    }

    pub fn four(&mut self) -> [u32; 4] {
        std::array::from_fn(|_| self.number())
    }

    /// "its length, the word that fills it, n, then n pairs of index and word that differ from the fill".
    pub fn list(&mut self) -> Vec<u32> {
        let length = self.number() as usize;
        let mut words = vec![self.number(); length];
        for _ in 0..self.number() {
            let index = self.number() as usize;
            words[index] = self.number();
        }
        words
    }

    /// "n, then n pairs", without the n.
    pub fn pairs(&mut self) -> Vec<[u32; 2]> {
        let count = self.number();
        (0..count).map(|_| [self.number(), self.number()]).collect()
    }

    pub fn bytes(&mut self) -> Vec<u8> {
        let words = self.list();
        words.iter().map(|word| *word as u8).collect()
    }
}
