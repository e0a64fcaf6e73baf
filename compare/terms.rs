//! What a caller may hand in beside the files, drawn, and the calls of the library that take it: a released set and a table of shares, each read
//! only where it is said to be there.

use crate::random::Random;
use crate::reference::{self, Handed};
use crate::{CardReply, Reply};

extern "C" {
    fn dofitrano_search_with(
        book: *const u8,
        book_length: usize,
        sheet: *const u8,
        sheet_length: usize,
        released: Released,
        lent: bool,
        table: *const u16,
        entries: usize,
        shares: *mut u16,
        slots: usize,
    ) -> Reply;
    fn dofitrano_write_card_with(
        book: *const u8,
        book_length: usize,
        sheet: *const u8,
        sheet_length: usize,
        released: Released,
        lent: bool,
        table: *const u16,
        entries: usize,
        output: *mut u8,
        output_length: usize,
    ) -> CardReply;
    fn dofitrano_check_card_with(
        book: *const u8,
        book_length: usize,
        sheet: *const u8,
        sheet_length: usize,
        released: Released,
        lent: bool,
        table: *const u16,
        entries: usize,
        card: *const u8,
        card_length: usize,
        shares: *mut u16,
        slots: usize,
    ) -> Reply;
    fn dofitrano_work_over(
        book: *const u8,
        book_length: usize,
        sheet: *const u8,
        sheet_length: usize,
        released: Released,
        moves: u32,
        output: *mut u8,
        output_length: usize,
    ) -> CardReply;
}

/// dofitrano_released of include/dofitrano.h: a set of boats, and whether it counts.
#[repr(C)]
#[derive(Clone, Copy)]
struct Released {
    limited: bool,
    boats: [u8; 32],
}

/// A set, a table, and whether the table is lent.
pub struct Terms {
    released: Released,
    lent: bool,
    table: Vec<u16>,
}

/// The greatest share that may follow a running total.
fn border(total: u64) -> u64 {
    (1..).take_while(|k| k * k <= 2 * (total + k)).last().unwrap()
}

/// So many shares: 1 each, counted, counted from 2, the greatest that are accepted, drawn ones, falling ones.
fn shares(rng: &mut Random, count: usize) -> Vec<u16> {
    let kind = rng.below(8);
    let mut total = 0;
    let mut drawn = Vec::new();
    for i in 0..count as u64 {
        let most = border(total);
        let share = match kind {
            0 => 1,
            1 => i + 1,
            2 => [2, i + 1][usize::from(i > 0)],
            3 => most,
            4 => 1 + most.saturating_sub(i),
            5 => most - rng.below(2) as u64 * (most - 1),
            _ => 1 + rng.below(most as usize) as u64,
        };
        drawn.push(share.min(most) as u16);
        total += share.min(most);
    }
    drawn
}

/// A table that may be refused: of none or too many shares, with one that is 0 or too great, or of too great a total.
fn table(rng: &mut Random) -> Vec<u16> {
    let count = match rng.below(40) {
        0 => 0,
        1 => 361,
        2 => 362 + rng.below(100),
        3..=5 => 360,
        6 => 359,
        7..=10 => 1,
        11..=15 => 1 + rng.below(60),
        _ => 1 + rng.below(14),
    };
    let mut drawn = if count == 360 && rng.one_in(2) { (2..=361).collect() } else { shares(rng, count) };
    if count > 0 && rng.one_in(8) {
        let place = rng.below(count);
        let total: u64 = drawn[..place].iter().map(|share| u64::from(*share)).sum();
        drawn[place] = rng.of(&[0, border(total) as u16, border(total) as u16 + 1, 65535]);
    }
    drawn
}

/// A set for a book of so many boats, which may have others: all, none, one boat, the last, most, half or few, and one that the book does not have.
fn set(rng: &mut Random, boats: usize) -> [u8; 32] {
    let kind = rng.below(14);
    let one = if kind == 2 { boats - 1 } else { rng.below(boats) };
    let past = boats + rng.below(256 - boats + 1);
    let mut released = [0; 32];
    for boat in 0..256 {
        let named = match kind {
            0 => boat < boats,
            1 | 2 => boat == one,
            3 => false,
            4 => boat == past,
            5 => boat < boats || boat == past,
            6..=9 => boat < boats && (boat == one || rng.one_in(2)),
            10 | 11 => boat < boats && (boat == one || rng.one_in(5)),
            _ => boat < boats && (boat == one || !rng.one_in(5)),
        };
        released[boat / 8] |= u8::from(named) << (boat % 8);
    }
    released
}

impl Terms {
    /// A table, one in three not lent, and a set for a book of so many boats, one in three of them not there.
    pub fn drawn(rng: &mut Random, boats: usize) -> Terms {
        let released = Released { limited: !rng.one_in(3), boats: set(rng, boats) };
        Terms { released, lent: !rng.one_in(3), table: table(rng) }
    }

    /// A set alone, for a call that takes no table.
    pub fn drawn_without_table(rng: &mut Random, boats: usize) -> Terms {
        Terms { lent: false, table: Vec::new(), ..Terms::drawn(rng, boats) }
    }

    /// What the reference is given.
    pub fn handed(&self) -> Handed<'_> {
        Handed { table: self.lent.then_some(&self.table), released: self.released.limited.then_some(&self.released.boats) }
    }

    /// Where a set is handed in and the book is accepted: the book with other rows for the boats that are not released.
    pub fn other_book(&self, rng: &mut Random, book: &[u8]) -> Option<Vec<u8>> {
        let rows = reference::read_book(book).ok()?;
        let (columns, body) = (rows[0].len(), book.len() - 12 - 2 * rows.len() * rows[0].len());
        let mut other = book.to_vec();
        for boat in (0..rows.len()).filter(|boat| self.released.boats[boat / 8] & (1 << (boat % 8)) == 0) {
            for column in 0..columns {
                let at = body + 2 * (boat * columns + column);
                other[at..at + 2].copy_from_slice(&(rng.between(-2000, 2000) as i16).to_le_bytes());
            }
        }
        self.released.limited.then_some(other)
    }

    /// The table's bytes, to see that no call changes them.
    pub fn bytes(&self) -> Vec<u8> {
        self.table.iter().flat_map(|share| share.to_le_bytes()).collect()
    }

    // The slices give true pointers and lengths, and what is written overlaps nothing.

    pub fn search(&self, book: &[u8], sheet: &[u8], shares: &mut [u16]) -> Reply {
        unsafe {
            dofitrano_search_with(
                book.as_ptr(),
                book.len(),
                sheet.as_ptr(),
                sheet.len(),
                self.released,
                self.lent,
                self.table.as_ptr(),
                self.table.len(),
                shares.as_mut_ptr(),
                shares.len(),
            )
        }
    }

    pub fn write_card(&self, book: &[u8], sheet: &[u8], output: &mut [u8]) -> CardReply {
        unsafe {
            dofitrano_write_card_with(
                book.as_ptr(),
                book.len(),
                sheet.as_ptr(),
                sheet.len(),
                self.released,
                self.lent,
                self.table.as_ptr(),
                self.table.len(),
                output.as_mut_ptr(),
                output.len(),
            )
        }
    }

    pub fn check_card(&self, book: &[u8], sheet: &[u8], card: &[u8], shares: &mut [u16]) -> Reply {
        unsafe {
            dofitrano_check_card_with(
                book.as_ptr(),
                book.len(),
                sheet.as_ptr(),
                sheet.len(),
                self.released,
                self.lent,
                self.table.as_ptr(),
                self.table.len(),
                card.as_ptr(),
                card.len(),
                shares.as_mut_ptr(),
                shares.len(),
            )
        }
    }

    pub fn work_over(&self, book: &[u8], sheet: &[u8], moves: u32, output: &mut [u8]) -> CardReply {
        unsafe {
            dofitrano_work_over(
                book.as_ptr(),
                book.len(),
                sheet.as_ptr(),
                sheet.len(),
                self.released,
                moves,
                output.as_mut_ptr(),
                output.len(),
            )
        }
    }
}
