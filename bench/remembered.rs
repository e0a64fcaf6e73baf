//! The search in plain Rust with the library's own algorithm: scores are moved by the picked boat's products, which are remembered
//! in 64 slots. It has no proofs, and is what the proofs are measured against.

use crate::plain::{read_book, read_sheet, values, Book};
use crate::Reply;

/// How many boats may keep their products; one slot more serves the others.
const KEPT: usize = 63;

/// A row less the target, 0 behind the columns.
fn difference(row: &[u8], target: &[u8]) -> [i16; 64] {
    let mut d = [0; 64];
    for ((x, v), u) in d.iter_mut().zip(values(row)).zip(values(target)) {
        *x = (v - u) as i16;
    }
    d
}

fn inner(d: &[i16], row: &[u8]) -> i32 {
    d.iter().zip(values(row)).map(|(x, v)| i32::from(*x) * v).sum()
}

/// The products of d with every row. Where 64 values stand at a row's start all of them are multiplied.
fn products<'a>(d: &'a [i16; 64], book: &'a Book) -> impl Iterator<Item = i32> + 'a {
    (0..book.boats).map(move |boat| {
        let at = 2 * boat * book.columns;
        match book.body.get(at..at + 128) {
            Some(wide) if book.columns > 16 => inner(d, wide),
            _ => inner(&d[..book.columns], &book.body[at..at + 2 * book.columns]),
        }
    })
}

/// Where numbers are least, the first of equals.
fn least(numbers: impl Iterator<Item = i64>) -> (usize, i64) {
    numbers.enumerate().fold((0, i64::MAX), |least, (i, x)| if x < least.1 { (i, x) } else { least })
}

/// The boats' products, a slot for each boat in the order of their first picks.
struct Memory {
    slots: [u8; 256],
    targets: Vec<i32>,
    products: Vec<i32>,
}

impl Memory {
    /// The slot of a boat, counted from 0.
    fn slot(&mut self, boat: usize, book: &Book, target: &[u8]) -> usize {
        if self.slots[boat] != 0 {
            return usize::from(self.slots[boat]) - 1;
        }
        let row = &book.body[2 * boat * book.columns..2 * (boat + 1) * book.columns];
        let d = difference(row, target);
        let slot = self.targets.len().min(KEPT);
        self.targets.truncate(slot);
        self.products.truncate(slot * book.boats);
        self.targets.push(inner(&d[..book.columns], target));
        self.products.extend(products(&d, book));
        if slot < KEPT {
            self.slots[boat] = slot as u8 + 1;
        }
        slot
    }
}

#[inline(never)]
pub fn search(book: &[u8], sheet: &[u8], slots: &mut [u16]) -> Reply {
    let refused = |refusal| Reply { refusal, ..Reply::default() };
    let book = match read_book(book) {
        Ok(book) => book,
        Err(number) => return refused(number),
    };
    let sheet = match read_sheet(sheet, book.columns) {
        Ok(sheet) => sheet,
        Err(number) => return refused(number),
    };
    if slots.len() < book.boats {
        return refused(21);
    }
    let shares = &mut slots[..book.boats];
    shares.fill(0);
    let mut all_scores = [0i64; 256];
    let scores = &mut all_scores[..book.boats];
    let mut memory = Memory { slots: [0; 256], targets: Vec::new(), products: Vec::new() };
    let d = difference(&book.body[..2 * book.columns], sheet.body);
    let (mut best, _) = least(products(&d, &book).map(i64::from));
    let (mut t, mut w, mut e, mut target_score) = (0u32, 0i64, 0i64, 0i64);
    loop {
        t += 1;
        let k = i64::from(t);
        shares[best] += t as u16;
        let slot = memory.slot(best, &book, sheet.body);
        let row = &memory.products[slot * book.boats..(slot + 1) * book.boats];
        let (own, target) = (i64::from(row[best]), i64::from(memory.targets[slot]));
        w += k;
        e += k * (2 * (scores[best] - target_score) + k * (own - target));
        target_score += k * target;
        let (first, score) = least(scores.iter_mut().zip(row).map(|(s, p)| {
            *s += k * i64::from(*p);
            *s
        }));
        best = first;
        if shares[first] == 0 {
            if let Some(held) = (first..book.boats).find(|boat| shares[*boat] != 0 && scores[*boat] == score) {
                best = held;
            }
        }
        let g = e + w * (target_score - score);
        let limit = sheet.tolerance as i64 * w * w;
        let (verdict, floor, shortfall) = if e <= limit {
            (1, 0, 0)
        } else if e > g && i128::from(e - g) * i128::from(e - g) > i128::from(limit) * i128::from(e) {
            (2, e - 2 * g, 0)
        } else if t == sheet.steps {
            (3, 0, (e - limit) as u64)
        } else {
            continue;
        };
        return Reply {
            refusal: 0,
            verdict,
            steps: t,
            weight: w as u32,
            distance: e as u64,
            gap: g as u64,
            floor,
            shortfall,
        };
    }
}
