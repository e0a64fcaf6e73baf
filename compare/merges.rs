//! One fleet book from two through the library and through the reference: books with equal rows among their own and in common, with rows
//! that differ in one value, around 256 boats, of other columns, behind front text, damaged.

use crate::encode::book_of;
use crate::random::Random;
use crate::reference;
use crate::{compared, damage_book, lent, length_near, rows, sizes, with_front, Compared, GUARD};

/// dofitrano_merged of include/dofitrano.h.
#[repr(C)]
#[derive(PartialEq, Debug)]
struct Merged {
    refusal: u32,
    length: usize,
}

extern "C" {
    fn dofitrano_merge_books(
        first: *const u8,
        first_length: usize,
        second: *const u8,
        second_length: usize,
        output: *mut u8,
        output_length: usize,
    ) -> Merged;
}

// The slices give true pointers and lengths, and what is written overlaps nothing.
fn library_merge_books(first: &[u8], second: &[u8], output: &mut [u8]) -> Merged {
    unsafe { dofitrano_merge_books(first.as_ptr(), first.len(), second.as_ptr(), second.len(), output.as_mut_ptr(), output.len()) }
}

/// Rows of a second book: new ones, ones of the first, and ones that differ from one of the first in a value.
fn other_rows(rng: &mut Random, first: &[Vec<i16>], boats: usize) -> Vec<Vec<i16>> {
    let columns = first[0].len();
    let mut found = rows(rng, boats, columns);
    for row in &mut found {
        if rng.one_in(3) {
            continue;
        }
        *row = first[rng.below(first.len())].clone();
        if rng.one_in(3) {
            let column = rng.below(columns);
            row[column] = rng.of(&[row[column] ^ 1, row[column] / 2, -row[column], 0]);
        }
    }
    found
}

/// Two books of as many columns, mostly; one in four of them damaged.
fn books(rng: &mut Random) -> (Vec<u8>, Vec<u8>) {
    let (mut boats, mut columns, _) = sizes(rng);
    let mut others = sizes(rng).0;
    if rng.one_in(5) {
        // around 256 boats in all
        (boats, columns) = (120 + rng.below(137), 1 + rng.below(3));
        others = 100 + rng.below(60);
    }
    let of_first = rows(rng, boats, columns);
    let of_second = if rng.one_in(12) {
        let more = sizes(rng).1;
        rows(rng, others, more)
    } else {
        other_rows(rng, &of_first, others)
    };
    let more = of_second[0].len();
    let (mut first, mut second) = (with_front(rng, book_of(&of_first)), with_front(rng, book_of(&of_second)));
    match rng.below(12) {
        0 => damage_book(rng, &mut first, boats, columns),
        1 => damage_book(rng, &mut second, others, more),
        2 => {
            damage_book(rng, &mut first, boats, columns);
            damage_book(rng, &mut second, others, more);
        }
        _ => {}
    }
    (first, second)
}

pub fn compare_merge_books(rng: &mut Random) -> Compared {
    let (first, second) = books(rng);
    let book = reference::merged_book(&first, &second);
    let length = length_near(rng, book.as_ref().map_or(100, Vec::len));
    let whole = rng.bytes(length + 2 * GUARD);
    let (mut wanted, mut given) = (whole.clone(), whole);
    let (outcome, expected) = match book {
        Err(refusal) => (format!("refused {refusal}"), Merged { refusal, length: 0 }),
        Ok(book) if length < book.len() => ("refused 57".to_string(), Merged { refusal: 57, length: 0 }),
        Ok(book) => {
            wanted[GUARD..GUARD + book.len()].copy_from_slice(&book);
            let all = reference::read_book(&first).unwrap().len() + reference::read_book(&second).unwrap().len();
            let kept = reference::read_book(&book).unwrap().len() == all;
            (["some known", "all new"][kept as usize].to_string(), Merged { refusal: 0, length: book.len() })
        }
    };
    let before = (lent("first", &first), lent("second", &second));
    let reply = library_merge_books(&first, &second, &mut given[GUARD..GUARD + length]);
    let files = [(before.0, &first[..]), (before.1, &second[..])];
    compared("merge_books", outcome, &files, (expected, wanted), (reply, given))
}
