//! The lent parts of a store.

use reference::{NONE, ROW};

/// N, g and M.
#[derive(Clone, Copy, Debug)]
pub struct Sizes {
    pub n: u32,
    pub g: u32,
    pub m: u32,
}

/// The four parts, and room for the counts of a census.
#[derive(Clone, Default, PartialEq)]
pub struct Parts {
    pub record: Vec<u32>,
    pub desk: Vec<u16>,
    pub fields: Vec<u16>,
    pub colours: Vec<u8>,
    pub counts: Vec<u32>,
}

/// The four parts as a call gets them.
pub struct Lent<'a> {
    pub record: &'a mut [u32],
    pub desk: &'a mut [u16],
    pub fields: &'a mut [u16],
    pub colours: &'a mut [u8],
}

impl Parts {
    /// Parts that are long enough for a start.
    pub fn of(sizes: Sizes) -> Parts {
        let mut parts = Parts {
            record: vec![0; 9],
            counts: vec![0; 6],
            ..Parts::default()
        };
        parts.resize(sizes);
        parts
    }

    /// Makes the desk, the fields and the colours as long as the sizes ask.
    pub fn resize(&mut self, sizes: Sizes) {
        self.desk.resize(ROW * sizes.m as usize, 0);
        self.fields.resize(4 * sizes.n as usize, NONE);
        self.colours.resize(sizes.n as usize, 0);
    }

    pub fn lend(&mut self) -> (Lent<'_>, &mut [u32]) {
        let lent = Lent {
            record: &mut self.record,
            desk: &mut self.desk,
            fields: &mut self.fields,
            colours: &mut self.colours,
        };
        (lent, &mut self.counts)
    }

    /// The sizes in the record, if it is long enough to have them.
    pub fn sizes(&self) -> Option<Sizes> {
        let &[n, g, m, ..] = &self.record[..] else {
            return None;
        };
        Some(Sizes { n, g, m })
    }

    /// The record's stage, or 0 in a record too short to have one.
    pub fn stage(&self) -> u32 {
        self.record.get(3).copied().unwrap_or(0)
    }

    /// The status that the collector asks for.
    pub fn posted(&self) -> u16 {
        match self.stage() {
            1 => 1,
            2 => 2,
            _ => 0,
        }
    }

    /// A word of writer `w`'s row, or 0 in a desk too short to have it.
    pub fn word(&self, w: u32, word: usize) -> u16 {
        let at = ROW * w as usize + word;
        self.desk.get(at).copied().unwrap_or(0)
    }

    /// Where these parts and others differ first, part by part.
    pub fn differences(&self, others: &Parts) -> Vec<String> {
        let pairs = [
            difference("record", &self.record, &others.record),
            difference("desk", &self.desk, &others.desk),
            difference("fields", &self.fields, &others.fields),
            difference("colours", &self.colours, &others.colours),
            difference("counts", &self.counts, &others.counts),
        ];
        pairs.into_iter().flatten().collect()
    }
}

fn difference<T: Copy + PartialEq + Into<u32>>(name: &str, a: &[T], b: &[T]) -> Option<String> {
    let at = a.iter().zip(b).position(|(x, y)| x != y)?;
    let (x, y) = (a[at].into(), b[at].into());
    Some(format!("{name}[{at}] is {x} and {y}"))
}
