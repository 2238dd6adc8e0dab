//! Start: everything is filled.

use crate::numbers::*;
use crate::record::{fits, Record};

#[inline(never)]
pub fn start<const S: u8>(
    record: &mut [u32],
    desk: &mut [u16],
    fields: &mut [u16],
    colours: &mut [u8],
    n: u32,
    g: u32,
    m: u32,
) -> u32 {
    if record.len() != 9 || !fits((n, g, m), desk.len(), fields.len(), colours.len()) {
        return BAD_SIZE;
    }
    let fresh = Record {
        n,
        g,
        m,
        stage: 0,
        place: 0,
        part: 0,
        hold: u32::from(NONE),
        found: 0,
        count: 0,
    };
    record.copy_from_slice(&fresh.words());
    let mut idle = [0; ROW];
    idle[SLOT..JOB].fill(NONE);
    desk.as_chunks_mut::<ROW>().0.fill(idle);
    fields.fill(NONE);
    let (pages, others) = colours.split_at_mut(g as usize);
    pages.fill(WHITE);
    others.fill(FREE);
    DONE
}
