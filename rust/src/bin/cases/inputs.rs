//! The parts of a line left of its bar.

use yohrundel::{Device, Geometry, Operands};

/// The line is no case of a call.
pub struct NoCase;

/// Both banks of a sign.
#[derive(Clone)]
pub struct Banks {
    pub one: Vec<u32>,
    pub two: Vec<u32>,
}

/// What is left of a line; its parts are taken from the front.
pub struct Inputs<'a>(std::str::Split<'a, char>);

impl<'a> Inputs<'a> {
    /// What stands left of a line's bar, without the blank before it.
    pub fn new(line: &'a str) -> Inputs<'a> {
        let (left, _) = line.split_once('|').unwrap_or((line, ""));
        Inputs(left.strip_suffix(' ').unwrap_or(left).split(' '))
    }

    /// The next part; none at the end of the line.
    pub fn part(&mut self) -> Option<&'a str> {
        self.0.next()
    }

    /// Decimal digits, with a value that a word holds.
    pub fn number(&mut self) -> Result<u32, NoCase> {
        let part = self.part().ok_or(NoCase)?;
        // A sign is no digit, though `parse` takes one.
        if !part.bytes().all(|byte| byte.is_ascii_digit()) {
            return Err(NoCase);
        }
        part.parse().or(Err(NoCase))
    }

    fn count(&mut self) -> Result<usize, NoCase> {
        Ok(self.number()? as usize)
    }

    /// G: "Q B P".
    pub fn geometry(&mut self) -> Result<Geometry, NoCase> {
        Ok(Geometry {
            q: self.number()?,
            b: self.number()?,
            p: self.number()?,
        })
    }

    /// D: the eleven registers in the order of their numbers, the key step, the step number, what was launched.
    pub fn device(&mut self) -> Result<Device, NoCase> {
        Ok(Device {
            nvmcon: self.number()?,
            nvmkey: self.number()?,
            nvmaddr: self.number()?,
            nvmdata: self.four()?,
            nvmsrcaddr: self.number()?,
            nvmpwp: self.number()?,
            nvmbwp: self.number()?,
            nvmcon2: self.number()?,
            keystep: self.number()?,
            step: self.number()?,
            launched: self.operands()?,
        })
    }

    /// NVMADDR, NVMDATA0 to 3, NVMSRCADDR.
    fn operands(&mut self) -> Result<Operands, NoCase> {
        Ok(Operands {
            nvmaddr: self.number()?,
            nvmdata: self.four()?,
            nvmsrcaddr: self.number()?,
        })
    }

    /// G D, with which most lines begin.
    pub fn sign(&mut self) -> Result<(Geometry, Device), NoCase> {
        Ok((self.geometry()?, self.device()?))
    }

    pub fn four(&mut self) -> Result<[u32; 4], NoCase> {
        Ok([
            self.number()?,
            self.number()?,
            self.number()?,
            self.number()?,
        ])
    }

    /// A, I and S: a lent list of words.
    pub fn words(&mut self) -> Result<Vec<u32>, NoCase> {
        self.list()
    }

    /// B: a lent list of bytes. A number above 255 in it makes the line no case.
    pub fn bytes(&mut self) -> Result<Vec<u8>, NoCase> {
        self.list()
    }

    /// A A.
    pub fn banks(&mut self) -> Result<Banks, NoCase> {
        Ok(Banks {
            one: self.words()?,
            two: self.words()?,
        })
    }

    /// "its length, the word that fills it, n, then n pairs of index and word that differ from the fill".
    fn list<T: Copy + TryFrom<u32>>(&mut self) -> Result<Vec<T>, NoCase> {
        let (length, fill, count) = (self.count()?, self.element()?, self.count()?);
        if count > length {
            return Err(NoCase);
        }
        let mut list = filled(length, fill)?;
        for _ in 0..count {
            let index = self.count()?;
            *list.get_mut(index).ok_or(NoCase)? = self.element()?;
        }
        Ok(list)
    }

    fn element<T: TryFrom<u32>>(&mut self) -> Result<T, NoCase> {
        T::try_from(self.number()?).or(Err(NoCase))
    }

    /// "n, then n numbers", without the n.
    pub fn numbers(&mut self) -> Result<Vec<u32>, NoCase> {
        let count = self.count()?;
        (0..count).map(|_| self.number()).collect()
    }

    /// "n, then n pairs", without the n.
    pub fn pairs(&mut self) -> Result<Vec<[u32; 2]>, NoCase> {
        let count = self.count()?;
        (0..count)
            .map(|_| Ok([self.number()?, self.number()?]))
            .collect()
    }
}

/// A list that memory does not hold is no case.
pub fn filled<T: Copy>(length: usize, fill: T) -> Result<Vec<T>, NoCase> {
    let mut list = Vec::new();
    list.try_reserve_exact(length).or(Err(NoCase))?;
    list.resize(length, fill);
    Ok(list)
}
