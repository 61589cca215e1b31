//! Memory that is lent to a call, with more of it on both sides that the call must not touch.

/// Elements before and after the lent ones.
const MARGIN: usize = 8;

pub struct Lent<T> {
    all: Vec<T>,
    margin: T,
}

impl<T: Copy + PartialEq> Lent<T> {
    pub fn new(elements: &[T], margin: T) -> Lent<T> {
        let side = [margin; MARGIN];
        Lent {
            all: [&side, elements, &side].concat(),
            margin,
        }
    }

    pub fn lend(&mut self) -> &mut [T] {
        let end = self.all.len() - MARGIN;
        &mut self.all[MARGIN..end]
    }

    /// What the lent elements are now.
    pub fn after(&self) -> &[T] {
        &self.all[MARGIN..self.all.len() - MARGIN]
    }

    pub fn margin_kept(&self) -> bool {
        let (front, rest) = self.all.split_at(MARGIN);
        let back = &rest[rest.len() - MARGIN..];
        front.iter().chain(back).all(|kept| *kept == self.margin)
    }
}
