//! The better of two cards through the library and through the reference: cards of one problem and either edition that are near one
//! another, equal, behind front text, damaged.

use crate::random::Random;
use crate::reference::{self, Problem};
use crate::{card_for, compared, damage_card, files, lent, other_shares, true_card, Compared};

/// dofitrano_choice of include/dofitrano.h.
#[repr(C)]
#[derive(PartialEq, Debug)]
struct Choice {
    refusal: u32,
    card: u32,
    offset: usize,
    length: usize,
}

extern "C" {
    fn dofitrano_better_card(
        book: *const u8,
        book_length: usize,
        sheet: *const u8,
        sheet_length: usize,
        first: *const u8,
        first_length: usize,
        second: *const u8,
        second_length: usize,
    ) -> Choice;
}

// The slices give true pointers and lengths.
fn library_better_card(book: &[u8], sheet: &[u8], first: &[u8], second: &[u8]) -> Choice {
    unsafe {
        dofitrano_better_card(
            book.as_ptr(),
            book.len(),
            sheet.as_ptr(),
            sheet.len(),
            first.as_ptr(),
            first.len(),
            second.as_ptr(),
            second.len(),
        )
    }
}

/// A mixture with one share moved from its first boat to another.
fn beside(rng: &mut Random, shares: &[u16]) -> Vec<u16> {
    let mut moved = shares.to_vec();
    if let Some(from) = moved.iter().position(|q| *q > 0) {
        moved[from] -= 1;
        moved[rng.below(shares.len())] += 1;
    }
    moved
}

/// Two cards for accepted files: of two mixtures, of one and one beside it, or of the same; some damaged.
fn pair_for(rng: &mut Random, problem: &Problem) -> (Vec<u8>, Vec<u8>) {
    if rng.one_in(4) {
        return (card_for(rng, problem), card_for(rng, problem));
    }
    let t = if rng.one_in(4) { 1 + rng.below(problem.steps()) } else { problem.steps() };
    let one = other_shares(rng, problem, t);
    let other = match rng.below(3) {
        0 => one.clone(),
        1 => beside(rng, &one),
        _ => other_shares(rng, problem, t),
    };
    let (mut first, mut second) = (true_card(rng, problem, t, &one), true_card(rng, problem, t, &other));
    match rng.below(6) {
        0 => damage_card(rng, &mut first, problem.rows.len()),
        1 => damage_card(rng, &mut second, problem.rows.len()),
        _ => {}
    }
    (first, second)
}

pub fn compare_better_card(rng: &mut Random) -> Compared {
    let (book, sheet) = files(rng);
    let (first, second) = match reference::read_files(Default::default(), &book, &sheet) {
        Ok(problem) => pair_for(rng, &problem),
        Err(_) => (rng.bytes(40), rng.bytes(40)),
    };
    let before = (lent("book", &book), lent("sheet", &sheet), lent("first", &first), lent("second", &second));
    let (outcome, expected) = match reference::better_card(&book, &sheet, &first, &second) {
        Err(refusal) => (format!("refused {refusal}"), Choice { refusal, card: 1, offset: 0, length: 0 }),
        Ok((card, offset, length)) => (["first", "second"][card as usize - 1].to_string(), Choice { refusal: 0, card, offset, length }),
    };
    let given = library_better_card(&book, &sheet, &first, &second);
    let files = [(before.0, &book[..]), (before.1, &sheet[..]), (before.2, &first[..]), (before.3, &second[..])];
    compared("better_card", outcome, &files, (expected, Vec::<u8>::new()), (given, Vec::new()))
}
