//! A sheet in its other edition through the library and through the reference: sheets of both editions, most with every factor 1, behind
//! front text, damaged, for outputs that are long enough or not. What the library wrote is then converted back.

use crate::encode::sheet_of;
use crate::random::Random;
use crate::{compared, damage_sheet, length_near, lent, reference, with_front, Compared, GUARD};

/// dofitrano_edition_reply of include/dofitrano.h.
#[repr(C)]
#[derive(PartialEq, Debug)]
struct EditionReply {
    refusal: u32,
    edition: u32,
    bytes: usize,
}

extern "C" {
    fn dofitrano_other_edition(sheet: *const u8, sheet_length: usize, output: *mut u8, output_length: usize) -> EditionReply;
}

// The slices give true pointers and lengths, and what is written overlaps nothing.
fn library_other_edition(sheet: &[u8], output: &mut [u8]) -> EditionReply {
    unsafe { dofitrano_other_edition(sheet.as_ptr(), sheet.len(), output.as_mut_ptr(), output.len()) }
}

/// A sheet of either edition, of 1 to 66 columns; one in three damaged.
fn sheet(rng: &mut Random) -> Vec<u8> {
    let columns = if rng.one_in(3) { rng.of(&[1, 63, 64, 65, 66]) } else { 1 + rng.below(8) };
    let target: Vec<i16> = (0..columns).map(|_| rng.between(-2000, 2000) as i16).collect();
    let mut factors = vec![1u8; columns];
    if rng.one_in(4) {
        let at = rng.below(columns);
        factors[at] = rng.of(&[0, 2, 3, 64]);
    }
    let factors = if rng.one_in(2) { Some(&factors[..]) } else { None };
    let plain = sheet_of(&target, factors, 1 + rng.below(360) as u16, rng.below(1_024_000_001) as u32);
    let mut file = with_front(rng, plain);
    if rng.one_in(3) {
        damage_sheet(rng, &mut file, columns);
    }
    file
}

pub fn compare_other_edition(rng: &mut Random) -> Compared {
    let sheet = sheet(rng);
    let needed = reference::other_edition(&sheet, &mut vec![0; 40_000]).map_or(40, |(_, size)| size);
    let room = length_near(rng, needed);
    let whole = rng.bytes(room + 2 * GUARD);
    let (mut wanted, mut given) = (whole.clone(), whole);
    let before = lent("sheet", &sheet);
    let (outcome, expected) = match reference::other_edition(&sheet, &mut wanted[GUARD..GUARD + room]) {
        Err(refusal) => (format!("refused {refusal}"), EditionReply { refusal, edition: 0, bytes: 0 }),
        Ok((edition, bytes)) => (format!("edition {edition}"), EditionReply { refusal: 0, edition, bytes }),
    };
    let reply = library_other_edition(&sheet, &mut given[GUARD..GUARD + room]);
    // back again: the same bytes
    let mut back = vec![0; sheet.len()];
    if reply.refusal == 0 && reply.bytes <= room {
        library_other_edition(&given[GUARD..GUARD + reply.bytes], &mut back);
        wanted.extend_from_slice(&sheet);
        given.extend_from_slice(&back);
    }
    compared("other_edition", outcome, &[(before, &sheet[..])], (expected, wanted), (reply, given))
}
