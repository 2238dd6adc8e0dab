//! The collector's record.

use crate::numbers::*;
use crate::shortcut::HAND_AT_OPENING;

/// The record's numbers by name.
#[derive(Clone, Copy)]
pub(crate) struct Record {
    pub n: u32,
    pub g: u32,
    pub m: u32,
    pub stage: u32,
    pub place: u32,
    pub part: u32,
    pub hold: u32,
    pub found: u32,
    pub count: u32,
}

/// Whether the sizes are within limits and the lent lengths fit them.
#[inline]
pub(crate) fn fits((n, g, m): (u32, u32, u32), desk: usize, fields: usize, colours: usize) -> bool {
    (1..=MOST_CELLS).contains(&n)
        && (1..=MOST_PAGES.min(n)).contains(&g)
        && (1..=MOST_WRITERS).contains(&m)
        && desk == ROW * m as usize
        && fields == 4 * n as usize
        && colours == n as usize
}

impl Record {
    /// Takes the record apart; refusal 1 unless its sizes fit the lent lengths.
    #[inline]
    pub fn sized(
        record: &[u32],
        desk: usize,
        fields: usize,
        colours: usize,
    ) -> Result<Record, u32> {
        let &[n, g, m, stage, place, part, hold, found, count] = record else {
            return Err(BAD_SIZE);
        };
        if !fits((n, g, m), desk, fields, colours) {
            return Err(BAD_SIZE);
        }
        Ok(Record {
            n,
            g,
            m,
            stage,
            place,
            part,
            hold,
            found,
            count,
        })
    }

    /// Refusal 2 unless every number is in range.
    #[inline]
    pub fn in_range(&self) -> Result<(), u32> {
        let most_place = match self.stage {
            0..=2 => 0,
            3 => self.g,
            4 | 5 => self.n,
            _ => return Err(BAD_NUMBER),
        };
        let opened = self.stage == 4 && self.place < self.n;
        let holding = matches!(self.part, 2 | 4 | 6 | 8);
        let good = self.place <= most_place
            && self.part <= if opened { 9 } else { 0 }
            && (self.hold == u32::from(NONE) || holding && self.hold < self.n)
            && self.found <= u32::from(self.stage == 4)
            && self.count < u32::MAX;
        if good {
            Ok(())
        } else {
            Err(BAD_NUMBER)
        }
    }

    /// The status that the collector asks for.
    #[inline]
    pub fn posted(&self) -> u16 {
        match self.stage {
            1 => 1,
            2 => 2,
            _ => 0,
        }
    }

    #[inline]
    pub fn tracing(&self) -> bool {
        matches!(self.stage, 3 | 4)
    }

    /// A cell created below the hand becomes white.
    pub fn hand<const S: u8>(&self) -> u32 {
        match self.stage {
            1 | 2 if S == HAND_AT_OPENING => 0,
            0..=2 => self.n,
            3 | 4 => 0,
            _ => self.place,
        }
    }

    /// The record as it is lent.
    #[inline]
    pub fn words(&self) -> [u32; 9] {
        [
            self.n, self.g, self.m, self.stage, self.place, self.part, self.hold, self.found,
            self.count,
        ]
    }
}
