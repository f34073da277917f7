//! Rows divided and joined in place (004, 5.3): `plain` allocates new ones, and its time would be that of the memory.

use plain::{refuse_unless, Answer};

#[inline(never)]
pub fn split(row: &[u16], first: &mut [u16], second: &mut [u16]) -> Answer<()> {
    refuse_unless(row.len() == 3840, 3)?;
    refuse_unless((first.len(), second.len()) == (1920, 1920), 4)?;
    for (pair, (a, b)) in row.chunks_exact(2).zip(first.iter_mut().zip(second)) {
        (*a, *b) = (pair[0], pair[1]);
    }
    Ok(())
}

#[inline(never)]
pub fn join(first: &[u16], second: &[u16], row: &mut [u16]) -> Answer<()> {
    refuse_unless((first.len(), second.len()) == (1920, 1920), 3)?;
    refuse_unless(row.len() == 3840, 4)?;
    for (pair, (a, b)) in row.chunks_exact_mut(2).zip(first.iter().zip(second)) {
        (pair[0], pair[1]) = (*a, *b);
    }
    Ok(())
}
