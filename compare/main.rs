//! The volume comparison: random and damaged files through the exported functions of the library and through the reference
//! implementation in reference.rs. Replies, share lists, cards, listings and what must stay untouched are compared bit for bit;
//! terms.rs has the calls that also take a released set and a table of shares; cells.rs does the same of scale cells, pairs.rs of two cards, editions.rs of
//! a sheet's other edition, merges.rs of two books, queues.rs of sheets on one allowance, moves.rs of Spent runs worked over.
//!
//! Use: compare [COUNT [SEED]]. The last line has the count; the exit status is 1 where a case differs, and the case is printed.

mod cells;
mod editions;
mod encode;
mod merges;
mod moves;
mod pairs;
mod queues;
mod random;
mod reference;
mod terms;

use encode::{book_of, sheet_of};
use random::Random;
use reference::{Answer, Handed, Test, Verdict};
use std::collections::BTreeMap;
use std::sync::atomic::Ordering;
use terms::Terms;

// ---------------------------------------------------------------- the library

/// dofitrano_reply of include/dofitrano.h.
#[repr(C)]
#[derive(Clone, Copy, PartialEq, Debug, Default)]
struct Reply {
    refusal: u32,
    verdict: u32,
    steps: u32,
    weight: u32,
    distance: u64,
    gap: u64,
    floor: i64,
    shortfall: u64,
}

/// dofitrano_card_reply of include/dofitrano.h.
#[repr(C)]
#[derive(Clone, Copy, PartialEq, Debug)]
struct CardReply {
    reply: Reply,
    bytes: usize,
}

extern "C" {
    fn dofitrano_search(
        book: *const u8,
        book_length: usize,
        sheet: *const u8,
        sheet_length: usize,
        shares: *mut u16,
        slots: usize,
    ) -> Reply;
    fn dofitrano_write_card(
        book: *const u8,
        book_length: usize,
        sheet: *const u8,
        sheet_length: usize,
        output: *mut u8,
        output_length: usize,
    ) -> CardReply;
    fn dofitrano_check_card(
        book: *const u8,
        book_length: usize,
        sheet: *const u8,
        sheet_length: usize,
        card: *const u8,
        card_length: usize,
        shares: *mut u16,
        slots: usize,
    ) -> Reply;
    fn dofitrano_listing(
        book: *const u8,
        book_length: usize,
        sheet: *const u8,
        sheet_length: usize,
        output: *mut u8,
        output_length: usize,
    ) -> usize;
}

// The slices give true pointers and lengths, and what is written overlaps nothing.

fn library_search(book: &[u8], sheet: &[u8], shares: &mut [u16]) -> Reply {
    unsafe {
        dofitrano_search(book.as_ptr(), book.len(), sheet.as_ptr(), sheet.len(), shares.as_mut_ptr(), shares.len())
    }
}

fn library_write_card(book: &[u8], sheet: &[u8], output: &mut [u8]) -> CardReply {
    unsafe {
        dofitrano_write_card(book.as_ptr(), book.len(), sheet.as_ptr(), sheet.len(), output.as_mut_ptr(), output.len())
    }
}

fn library_check_card(book: &[u8], sheet: &[u8], card: &[u8], shares: &mut [u16]) -> Reply {
    unsafe {
        dofitrano_check_card(
            book.as_ptr(),
            book.len(),
            sheet.as_ptr(),
            sheet.len(),
            card.as_ptr(),
            card.len(),
            shares.as_mut_ptr(),
            shares.len(),
        )
    }
}

fn library_listing(book: &[u8], sheet: &[u8], output: &mut [u8]) -> usize {
    unsafe { dofitrano_listing(book.as_ptr(), book.len(), sheet.as_ptr(), sheet.len(), output.as_mut_ptr(), output.len()) }
}

/// The reply that an outcome of the reference implementation must give.
fn reply_of(outcome: &Result<Answer, u32>) -> Reply {
    match outcome {
        Err(number) => Reply { refusal: *number, ..Reply::default() },
        Ok(a) => {
            let (floor, shortfall) = match a.verdict {
                Verdict::Within => (0, 0),
                Verdict::Beyond(floor) => (floor, 0),
                Verdict::Spent(shortfall) => (0, shortfall),
            };
            Reply {
                refusal: 0,
                verdict: u32::from(a.verdict.number()),
                steps: a.steps as u32,
                weight: u32::try_from(a.weight).unwrap(),
                distance: u64::try_from(a.distance).unwrap(),
                gap: u64::try_from(a.gap).unwrap(),
                floor: i64::try_from(floor).unwrap(),
                shortfall: u64::try_from(shortfall).unwrap(),
            }
        }
    }
}

// -------------------------------------------------------------- random numbers

impl Random {
    fn below(&mut self, n: usize) -> usize {
        (self.next() % n as u64) as usize
    }

    fn between(&mut self, least: i64, most: i64) -> i64 {
        least + (self.next() % (most - least + 1) as u64) as i64
    }

    fn one_in(&mut self, n: usize) -> bool {
        self.below(n) == 0
    }

    fn of<T: Copy>(&mut self, choices: &[T]) -> T {
        choices[self.below(choices.len())]
    }

    fn bytes(&mut self, n: usize) -> Vec<u8> {
        (0..n).map(|_| self.next() as u8).collect()
    }
}

// ------------------------------------------------------------------- the files

/// Boats, columns and steps: mostly small, some at full size.
fn sizes(rng: &mut Random) -> (usize, usize, u16) {
    match rng.below(1000) {
        0 => (256, 64, 360),
        1..=9 => (1 + rng.below(20), 1 + rng.below(8), rng.of(&[100, 200, 359, 360])),
        10..=59 => (1 + rng.below(256), 1 + rng.below(64), 1 + rng.below(12) as u16),
        60..=249 => (1 + rng.below(40), 1 + rng.below(20), 1 + rng.below(60) as u16),
        _ => (1 + rng.below(6), 1 + rng.below(4), 1 + rng.below(12) as u16),
    }
}

fn rows(rng: &mut Random, boats: usize, columns: usize) -> Vec<Vec<i16>> {
    let style = rng.below(5);
    let mut rows: Vec<Vec<i16>> = Vec::new();
    for _ in 0..boats {
        // Equal rows, for equal scores.
        if style == 3 && !rows.is_empty() && rng.one_in(2) {
            let copied = rows[rng.below(rows.len())].clone();
            rows.push(copied);
            continue;
        }
        // Small values and mirrored rows, for equal scores of different rows.
        if style == 1 && !rows.is_empty() && rng.one_in(3) {
            let mut mirrored = rows[rng.below(rows.len())].clone();
            let column = rng.below(columns);
            mirrored[column] = -mirrored[column];
            rows.push(mirrored);
            continue;
        }
        let row = (0..columns).map(|_| match style {
            1 => rng.between(-3, 3) as i16,
            2 => rng.of(&[-2000, 2000]),
            4 if !rng.one_in(4) => 0,
            _ => rng.between(-2000, 2000) as i16,
        });
        rows.push(row.collect());
    }
    rows
}

fn target(rng: &mut Random, rows: &[Vec<i16>]) -> Vec<i16> {
    let columns = rows[0].len();
    match rng.below(6) {
        0 => rows[rng.below(rows.len())].clone(),
        1 | 2 => (0..columns)
            .map(|c| (rows.iter().map(|row| i64::from(row[c])).sum::<i64>() / rows.len() as i64) as i16)
            .collect(),
        3 => (0..columns).map(|_| rng.between(-3, 3) as i16).collect(),
        4 => (0..columns).map(|_| rng.of(&[-2000, 2000])).collect(),
        _ => (0..columns).map(|_| rng.between(-2000, 2000) as i16).collect(),
    }
}

/// Factors for so many columns, none for a sheet WSH1: 1 each, small ones, all on one column, or brought to a total at the limits.
fn factors(rng: &mut Random, columns: usize) -> Option<Vec<u8>> {
    let kind = rng.below(12);
    let most = (64 / columns).max(1);
    let mut drawn: Vec<u8> = (0..columns)
        .map(|_| match kind {
            6 => 1,
            7 => rng.below(2) as u8,
            8 => 0,
            9 | 10 => rng.below(most + 1) as u8,
            _ => rng.of(&[0, 1, 63, 64, 65, 128, 255]),
        })
        .collect();
    if kind == 8 || kind == 10 {
        let total: usize = rng.of(&[64, 64, 64, 1, 63, 65, 0]);
        let chosen = rng.below(columns);
        let others: usize = drawn.iter().map(|f| usize::from(*f)).sum::<usize>() - usize::from(drawn[chosen]);
        drawn[chosen] = total.saturating_sub(others) as u8;
    }
    (kind > 5).then_some(drawn)
}

/// A tolerance, also next to where the verdict of the run changes.
fn tolerance(rng: &mut Random, handed: Handed, rows: &[Vec<i16>], target: &[i16], factors: Option<&[u8]>, steps: u16) -> u32 {
    const MOST: i128 = 1_024_000_000;
    match rng.below(8) {
        0 => 0,
        1 => rng.below(100) as u32,
        2 => rng.below(MOST as usize + 1) as u32,
        3 => MOST as u32 - rng.below(2) as u32,
        _ => {
            let Ok(problem) = reference::read_files(handed, &book_of(rows), &sheet_of(target, factors, steps, 0)) else {
                return 0;
            };
            let short = 1 + rng.below(problem.steps().min(12));
            let (e, g) = problem.distance_and_gap(&problem.shares_after(short));
            let weight = problem.weight(short);
            let bound = match rng.below(3) {
                0 => e,
                1 => e - 2 * g,
                _ if e > g => (e - g) * (e - g) / e,
                _ => 0,
            };
            (bound / (weight * weight) + i128::from(rng.between(-1, 1))).clamp(0, MOST) as u32
        }
    }
}

/// Front text before a file: mostly none, sometimes up to the longest file or one byte past it.
fn with_front(rng: &mut Random, file: Vec<u8>) -> Vec<u8> {
    let room = 40_000 - file.len().min(40_000);
    let front = match rng.below(200) {
        0 => room,
        1 => room + 1,
        2..=60 => rng.below(24),
        _ => 0,
    };
    let mut whole = rng.bytes(front);
    whole.extend_from_slice(&file);
    whole
}

// ------------------------------------------------------------------- the damage

/// Writes the low bytes of `n` at an offset from the file's end, where the file is long enough.
fn put(file: &mut [u8], from_end: usize, width: usize, n: u64) {
    if file.len() >= from_end {
        let at = file.len() - from_end;
        file[at..at + width].copy_from_slice(&n.to_le_bytes()[..width]);
    }
}

fn get(file: &[u8], from_end: usize, width: usize) -> u64 {
    if file.len() < from_end {
        return 0;
    }
    let at = file.len() - from_end;
    file[at..at + width].iter().rev().fold(0, |n, b| n * 256 + u64::from(*b))
}

/// Moves a number a little, or far.
fn moved(rng: &mut Random, n: u64) -> u64 {
    match rng.below(6) {
        0 => n.wrapping_add(1),
        1 => n.wrapping_sub(1),
        2 => n.wrapping_add(rng.of(&[2, 4, 256, 65536])),
        3 => n.wrapping_sub(rng.of(&[2, 4, 256, 65536])),
        4 => 0,
        _ => rng.next(),
    }
}

/// Damage that any of the three files can have.
fn damage_any(rng: &mut Random, file: &mut Vec<u8>, trailer: usize) {
    match rng.below(7) {
        0 if !file.is_empty() => {
            let at = rng.below(file.len());
            file[at] ^= 1 << rng.below(8);
        }
        1 => {
            let cut = (1 + rng.below(trailer + 4)).min(file.len());
            file.truncate(file.len() - cut);
        }
        2 => {
            let cut = (1 + rng.below(6)).min(file.len());
            file.drain(..cut);
        }
        3 => file.push(rng.next() as u8),
        4 => *file = rng.bytes(rng.0 as usize % (trailer + 3)),
        5 if file.len() >= 4 => {
            let at = file.len() - 1 - rng.below(4);
            file[at] = rng.of(b"WBKSHCD12 ");
        }
        _ if !file.is_empty() => {
            let at = file.len() - 1 - rng.below(file.len().min(trailer));
            file[at] = rng.next() as u8;
        }
        _ => {}
    }
}

/// A value of a body, at a limit or past it.
fn damage_value(rng: &mut Random, file: &mut [u8], trailer: usize, count: usize) {
    let value: i16 = rng.of(&[2000, 2001, -2000, -2001, i16::MAX, i16::MIN]);
    let back = 2 * (1 + rng.below(count.max(1)));
    put(file, trailer + back, 2, u64::from(value as u16));
}

fn damage_book(rng: &mut Random, file: &mut Vec<u8>, boats: usize, columns: usize) {
    match rng.below(8) {
        0 | 1 => damage_any(rng, file, 12),
        2 => put(file, 8, 2, rng.of(&[0, 1, 255, 256, 257, boats as u64 + 1, boats as u64 - 1])),
        3 => put(file, 6, 2, rng.of(&[0, 1, 63, 64, 65, columns as u64 + 1, columns as u64 - 1])),
        4 => {
            let back = moved(rng, get(file, 12, 4));
            put(file, 12, 4, back);
        }
        _ => damage_value(rng, file, 12, boats * columns),
    }
}

fn damage_sheet(rng: &mut Random, file: &mut Vec<u8>, columns: usize) {
    // Where the values end: one byte a column further from the file's end where the sheet has factors.
    let values = if file.ends_with(b"WSH2") { 16 + columns } else { 16 };
    match rng.below(11) {
        0 | 1 => damage_any(rng, file, 16),
        2 | 3 => put(file, 12, 2, rng.of(&[0, 1, 64, 65, columns as u64 + 1, columns as u64 - 1])),
        4 => put(file, 10, 2, rng.of(&[0, 361, 362, 65535])),
        5 => put(file, 8, 4, rng.of(&[1_024_000_000, 1_024_000_001, 0xffff_ffff])),
        6 | 7 => {
            let back = moved(rng, get(file, 16, 4));
            put(file, 16, 4, back);
        }
        // The last byte of the body, which is a factor or a half of a value.
        8 => put(file, 17, 1, rng.of(&[0, 1, 63, 64, 65, 255])),
        _ => damage_value(rng, file, values, columns),
    }
}

fn damage_card(rng: &mut Random, file: &mut Vec<u8>, boats: usize) {
    // Offsets of the trailer's fields from the file's end, and their widths.
    const FIELDS: [(usize, usize); 8] = [(36, 4), (32, 2), (30, 2), (28, 4), (24, 8), (16, 8), (8, 2), (6, 2)];
    match rng.below(12) {
        0 | 1 => damage_any(rng, file, 36),
        2 => put(file, 32, 2, rng.of(&[0, 1, 2, 3, 4, 65535])),
        3..=6 => {
            let (from_end, width) = rng.of(&FIELDS);
            let n = moved(rng, get(file, from_end, width));
            put(file, from_end, width, n);
        }
        7 => put(file, 36, 4, rng.of(&[0, 4 * boats as u64, 4 * boats as u64 + 4])),
        // A pair of the body: its boat or its share.
        8..=10 => {
            let pairs = get(file, 36, 4) as usize / 4;
            let from_end = 36 + 4 * (1 + rng.below(pairs.clamp(1, 256))) - rng.of(&[0, 2]);
            let n = if rng.one_in(3) { boats as u64 } else { moved(rng, get(file, from_end, 2)) };
            put(file, from_end, 2, n);
        }
        // A share from one boat to the next: the total stays.
        _ => {
            let (one, other) = (get(file, 38, 2), get(file, 42, 2));
            put(file, 38, 2, one.wrapping_add(1));
            put(file, 42, 2, other.wrapping_sub(1));
        }
    }
}

// -------------------------------------------------------------------- the cases

/// A fleet book and a sheet, one in three of them damaged.
fn files(rng: &mut Random) -> (Vec<u8>, Vec<u8>) {
    let size = sizes(rng);
    files_for(rng, size, Handed::default())
}

/// The same of some size, for a call that is handed something beside them.
fn files_for(rng: &mut Random, (boats, columns, steps): (usize, usize, u16), handed: Handed) -> (Vec<u8>, Vec<u8>) {
    let rows = rows(rng, boats, columns);
    let target = target(rng, &rows);
    let factors = factors(rng, columns);
    let tolerance = tolerance(rng, handed, &rows, &target, factors.as_deref(), steps);
    let plain_book = book_of(&rows);
    let plain_sheet = sheet_of(&target, factors.as_deref(), steps, tolerance);
    let mut book = with_front(rng, plain_book);
    let mut sheet = with_front(rng, plain_sheet);
    match rng.below(18) {
        0..=2 => damage_book(rng, &mut book, boats, columns),
        3..=5 => damage_sheet(rng, &mut sheet, columns),
        6 => {
            damage_book(rng, &mut book, boats, columns);
            damage_sheet(rng, &mut sheet, columns);
        }
        _ => {}
    }
    (book, sheet)
}

/// How many boats an accepted book has, else some number.
fn boats_of(rng: &mut Random, book: &[u8]) -> usize {
    match reference::read_book(book) {
        Ok(rows) => rows.len(),
        Err(_) => rng.below(8),
    }
}

/// A length next to what is needed, mostly enough.
fn length_near(rng: &mut Random, needed: usize) -> usize {
    match rng.below(10) {
        0 => needed.saturating_sub(1 + rng.below(3)),
        1 => rng.below(needed + 1),
        2 | 3 => needed,
        _ => needed + 1 + rng.below(20),
    }
}

/// What stands on both sides of a lent list and must stay untouched.
const GUARD: usize = 16;

/// One call: what it was, how it went, and whether the two agree.
struct Compared {
    call: &'static str,
    outcome: String,
    same: bool,
    shown: String,
}

fn outcome_name(reply: &Reply) -> String {
    match reply.refusal {
        0 => ["none", "within", "beyond", "spent"][reply.verdict as usize].to_string(),
        number => format!("refused {number}"),
    }
}

fn hex(bytes: &[u8]) -> String {
    bytes.iter().map(|b| format!("{b:02x}")).collect()
}

/// A file as it was lent.
struct Lent {
    name: &'static str,
    before: Vec<u8>,
}

fn lent(name: &'static str, file: &[u8]) -> Lent {
    Lent { name, before: file.to_vec() }
}

/// A call held to the reference: the reply and the lent list of each, and the files, which must be as they were.
fn compared<R: PartialEq + std::fmt::Debug, L: PartialEq + std::fmt::Debug>(
    call: &'static str,
    outcome: String,
    files: &[(Lent, &[u8])],
    wanted: (R, Vec<L>),
    given: (R, Vec<L>),
) -> Compared {
    let kept = files.iter().all(|(lent, after)| lent.before == *after);
    let same = wanted == given && kept;
    let mut shown = String::new();
    if !same {
        for (lent, after) in files {
            let state = if lent.before == *after { "" } else { " (changed by the call)" };
            shown += &format!("{} {}{state}\n", lent.name, hex(&lent.before));
        }
        shown += &format!("wanted {wanted:?}\ngiven {given:?}");
    }
    Compared { call, outcome, same, shown }
}

/// What the reference is given of what is handed in, nothing in a plain call.
fn handed(terms: &Option<Terms>) -> Handed<'_> {
    terms.as_ref().map_or(Handed::default(), Terms::handed)
}

/// The bytes of the table that is handed in.
fn table_bytes(terms: &Option<Terms>) -> Vec<u8> {
    terms.as_ref().map_or(Vec::new(), Terms::bytes)
}

/// A call of the library on a book and a sheet; then on the sheet in its other edition, and, where a set is handed in, on the book with other
/// rows for the boats that are not released. Neither may make a difference: a later result where it is another one.
fn called<T: PartialEq>(rng: &mut Random, terms: &Option<Terms>, book: &[u8], sheet: &[u8], call: impl Fn(&[u8], &[u8]) -> T) -> T {
    let given = call(book, sheet);
    let mut edition = vec![0; sheet.len() + 64];
    let converted = reference::other_edition(sheet, &mut edition).map(|(_, size)| call(book, &edition[..size]));
    let other = terms.as_ref().and_then(|terms| terms.other_book(rng, book)).map(|other| call(&other, sheet));
    converted.ok().into_iter().chain(other).find(|again| *again != given).unwrap_or(given)
}

/// With what a caller may hand in beside the files, or plain.
fn compare_search(rng: &mut Random, with: bool) -> Compared {
    let size = sizes(rng);
    let terms = with.then(|| Terms::drawn(rng, size.0));
    let (book, sheet) = files_for(rng, size, handed(&terms));
    let boats = boats_of(rng, &book);
    let slots = length_near(rng, boats);
    let whole: Vec<u16> = (0..slots + 2 * GUARD).map(|_| rng.next() as u16).collect();
    let mut wanted = whole.clone();
    let before = (lent("book", &book), lent("sheet", &sheet), lent("table", &table_bytes(&terms)));
    let expected = reply_of(&reference::search(handed(&terms), &book, &sheet, &mut wanted[GUARD..GUARD + slots]));
    let given = called(rng, &terms, &book, &sheet, |book, sheet| {
        let mut given = whole.clone();
        let list = &mut given[GUARD..GUARD + slots];
        let reply = match &terms {
            None => library_search(book, sheet, list),
            Some(terms) => terms.search(book, sheet, list),
        };
        (reply, given)
    });
    let files = [(before.0, &book[..]), (before.1, &sheet[..]), (before.2, &table_bytes(&terms)[..])];
    compared(["search", "search_with"][usize::from(with)], outcome_name(&expected), &files, (expected, wanted), given)
}

/// With what a caller may hand in beside the files, or plain.
fn compare_write_card(rng: &mut Random, with: bool) -> Compared {
    let size = sizes(rng);
    let terms = with.then(|| Terms::drawn(rng, size.0));
    let (book, sheet) = files_for(rng, size, handed(&terms));
    let needed = match reference::read_files(handed(&terms), &book, &sheet) {
        Ok(problem) => 36 + 4 * problem.run().1.iter().filter(|q| **q != 0).count(),
        Err(_) => rng.below(60),
    };
    let length = length_near(rng, needed);
    let whole = rng.bytes(length + 2 * GUARD);
    let mut wanted = whole.clone();
    let before = (lent("book", &book), lent("sheet", &sheet), lent("table", &table_bytes(&terms)));
    let outcome = reference::write_card(handed(&terms), &book, &sheet, &mut wanted[GUARD..GUARD + length]);
    let given = called(rng, &terms, &book, &sheet, |book, sheet| {
        let mut given = whole.clone();
        let output = &mut given[GUARD..GUARD + length];
        let reply = match &terms {
            None => library_write_card(book, sheet, output),
            Some(terms) => terms.write_card(book, sheet, output),
        };
        (reply, given)
    });
    let expected = CardReply {
        reply: reply_of(&outcome.map(|(answer, _)| answer)),
        bytes: outcome.map_or(0, |(_, bytes)| bytes),
    };
    let files = [(before.0, &book[..]), (before.1, &sheet[..]), (before.2, &table_bytes(&terms)[..])];
    compared(["write_card", "write_card_with"][usize::from(with)], outcome_name(&expected.reply), &files, (expected, wanted), given)
}

/// Shares of some mixture, not that of a search: the total of t steps, mostly on at most t boats and on those that may be used.
fn other_shares(rng: &mut Random, problem: &reference::Problem, t: usize) -> Vec<u16> {
    let boats = problem.rows.len();
    let mut left = problem.weight(t) as usize;
    let mut shares = vec![0u16; boats];
    // One boat more than the steps allow.
    if t < left && t < boats && rng.one_in(4) {
        shares[..=t].fill(1);
        shares[rng.below(t + 1)] += (left - (t + 1)) as u16;
        return shares;
    }
    let used = 1 + rng.below(boats.min(t).min(6));
    let any = problem.usable.len() == boats || rng.one_in(4);
    let held: Vec<usize> = (0..used).map(|_| if any { rng.below(boats) } else { rng.of(&problem.usable) }).collect();
    for boat in &held {
        let part = rng.below(left + 1);
        shares[*boat] += part as u16;
        left -= part;
    }
    shares[held[0]] += left as u16;
    shares
}

/// The card of these shares after t steps with its true numbers, of either edition, behind some front text; one in eight may have the
/// letters of the other edition.
fn true_card(rng: &mut Random, problem: &reference::Problem, t: usize, shares: &[u16]) -> Vec<u8> {
    let test = rng.of(&[Test::Former, Test::Sharper, Test::Sharper]);
    let (distance, gap) = problem.distance_and_gap(shares);
    // Where no verdict is due, the card says Spent too early.
    let spent = Answer { steps: t, weight: 0, distance, gap, verdict: Verdict::Spent(0) };
    let answer = problem.answer_of(test, t, shares).unwrap_or(spent);
    let letters = if rng.one_in(8) { rng.of(&[Test::Former, Test::Sharper]) } else { test };
    with_front(rng, problem.answer_card(letters, &answer, shares))
}

/// A card for accepted files: of their search, or of another mixture; one in two damaged.
fn card_for(rng: &mut Random, problem: &reference::Problem) -> Vec<u8> {
    let (run, mut shares) = problem.run();
    let mut t = run.steps;
    if rng.one_in(2) {
        t = if rng.one_in(2) { problem.steps() } else { 1 + rng.below(problem.steps()) };
        shares = other_shares(rng, problem, t);
    }
    let mut card = true_card(rng, problem, t, &shares);
    if rng.one_in(2) {
        damage_card(rng, &mut card, problem.rows.len());
        if rng.one_in(4) {
            damage_card(rng, &mut card, problem.rows.len());
        }
    }
    card
}

/// With what a caller may hand in beside the files, or plain; the card is of the files under it or, one in six, under nothing.
fn compare_check_card(rng: &mut Random, with: bool) -> Compared {
    let size = sizes(rng);
    let terms = with.then(|| Terms::drawn(rng, size.0));
    let (book, sheet) = files_for(rng, size, handed(&terms));
    let made = if rng.one_in(6) { Handed::default() } else { handed(&terms) };
    let card = match reference::read_files(made, &book, &sheet) {
        Ok(problem) => card_for(rng, &problem),
        Err(_) => rng.bytes(rng.0 as usize % 80),
    };
    let boats = boats_of(rng, &book);
    let slots = if rng.one_in(3) { length_near(rng, boats) } else { boats + rng.below(4) };
    let whole: Vec<u16> = (0..slots + 2 * GUARD).map(|_| rng.next() as u16).collect();
    let mut wanted = whole.clone();
    let before = (lent("book", &book), lent("sheet", &sheet), lent("table", &table_bytes(&terms)), lent("card", &card));
    let expected = reply_of(&reference::check_card(handed(&terms), &book, &sheet, &card, &mut wanted[GUARD..GUARD + slots]));
    let given = called(rng, &terms, &book, &sheet, |book, sheet| {
        let mut given = whole.clone();
        let list = &mut given[GUARD..GUARD + slots];
        let reply = match &terms {
            None => library_check_card(book, sheet, &card, list),
            Some(terms) => terms.check_card(book, sheet, &card, list),
        };
        (reply, given)
    });
    let table = table_bytes(&terms);
    let files = [(before.0, &book[..]), (before.1, &sheet[..]), (before.2, &table[..]), (before.3, &card[..])];
    compared(["check_card", "check_card_with"][usize::from(with)], outcome_name(&expected), &files, (expected, wanted), given)
}

fn compare_listing(rng: &mut Random) -> Compared {
    let (book, sheet) = files(rng);
    let text = reference::listing(&book, &sheet);
    let length = length_near(rng, text.len());
    let whole = rng.bytes(length + 2 * GUARD);
    let (mut wanted, mut given) = (whole.clone(), whole);
    // A buffer that is too short is left alone, and 0 bytes are counted.
    let count = if text.len() <= length { text.len() } else { 0 };
    wanted[GUARD..GUARD + count].copy_from_slice(&text[..count]);
    let before = (lent("book", &book), lent("sheet", &sheet));
    let size = library_listing(&book, &sheet, &mut given[GUARD..GUARD + length]);
    // The refusal is the only line; the verdict is the third line's first word.
    let lines = String::from_utf8(text.clone()).unwrap();
    let outcome = if lines.starts_with("refused") {
        lines.trim_end().to_string()
    } else {
        lines.lines().nth(2).unwrap().split(' ').next().unwrap().to_string()
    };
    let files = [(before.0, &book[..]), (before.1, &sheet[..])];
    compared("listing", outcome, &files, (count, wanted), (size, given))
}

// ------------------------------------------------------------------ the command

/// The refusals that each call can give, all of which the gate's comparison and a long one must meet; of a queue those of its own, of a
/// damaged book and of a sheet.
fn refusals(call: &str) -> Vec<u32> {
    let mut numbers: Vec<u32> = (1..=6).chain(11..=17).chain([46]).collect();
    match call {
        "sheet_values" => return (1..=6).chain(41..=43).collect(),
        "scale_sheet" => return (1..=6).chain(41..=43).chain(14..=15).collect(),
        "other_edition" => return (11..=17).chain(46..=48).collect(),
        "merge_books" => return (1..=6).chain(55..=57).collect(),
        "run_queue" => return vec![5, 44, 45, 46, 21],
        "search" | "search_with" => numbers.push(21),
        "write_card" | "write_card_with" => numbers.push(22),
        "check_card" | "check_card_with" => numbers.extend([21].into_iter().chain(31..=39)),
        "better_card" => numbers.extend(31..=39),
        "work_over" => numbers.extend([22, 52, 53, 54]),
        _ => {}
    }
    if call.ends_with("_with") {
        numbers.extend(49..=52);
    }
    numbers
}

const CALLS: [&str; 14] = [
    "search",
    "write_card",
    "check_card",
    "search_with",
    "write_card_with",
    "check_card_with",
    "better_card",
    "listing",
    "sheet_values",
    "scale_sheet",
    "other_edition",
    "merge_books",
    "run_queue",
    "work_over",
];

/// How a call goes that is not refused.
fn answers(call: &str) -> &'static [&'static str] {
    match call {
        "sheet_values" | "scale_sheet" => &["accepted"],
        "better_card" => &["first", "second"],
        "other_edition" => &["edition 1", "edition 2"],
        "merge_books" => &["some known", "all new"],
        "run_queue" => &["some cut", "all finished"],
        _ => &["within", "beyond", "spent"],
    }
}

fn one_case(rng: &mut Random) -> Compared {
    match rng.below(31) {
        0 | 1 => compare_search(rng, false),
        2 | 3 => compare_write_card(rng, false),
        4..=6 => compare_check_card(rng, false),
        17 | 18 => compare_search(rng, true),
        19 | 20 => compare_write_card(rng, true),
        21..=24 => compare_check_card(rng, true),
        7 | 26 => compare_listing(rng),
        8 | 27 => cells::compare_values(rng),
        9 | 28 => cells::compare_sheet(rng),
        10 => editions::compare_other_edition(rng),
        15 | 16 => merges::compare_merge_books(rng),
        25 => queues::compare_run_queue(rng),
        29 | 30 => moves::compare_work_over(rng),
        _ => pairs::compare_better_card(rng),
    }
}

fn main() {
    let mut arguments = std::env::args().skip(1);
    let mut number = |or: u64| arguments.next().map_or(or, |word| word.parse().expect("a number"));
    let count = number(100_000);
    let seed = number(1);
    let mut met: BTreeMap<(&str, String), u64> = BTreeMap::new();
    for case in 0..count {
        // Each case has its own generator, so that one case can be made again alone.
        let mut rng = Random(seed.wrapping_mul(0x1_0000_0000).wrapping_add(case));
        rng.next();
        let compared = one_case(&mut rng);
        if !compared.same {
            println!("case {case} of seed {seed}, {}: the library differs\n{}", compared.call, compared.shown);
            println!("{case} cases alike, then a difference");
            std::process::exit(1);
        }
        *met.entry((compared.call, compared.outcome)).or_insert(0) += 1;
        if (case + 1) % 10_000 == 0 {
            eprintln!("{} of {count} cases alike", case + 1);
        }
    }
    let times = |call, outcome: &str| met.get(&(call, outcome.to_string())).copied().unwrap_or(0);
    for call in CALLS {
        let answered: Vec<_> = answers(call).iter().map(|name| format!("{name} {}", times(call, name))).collect();
        let refused = refusals(call).into_iter().map(|n| format!("{n}: {}", times(call, &format!("refused {n}"))));
        println!("{call}: {}; refused by {}", answered.join(", "), refused.collect::<Vec<_>>().join(", "));
    }
    let ties = reference::TIES.load(Ordering::Relaxed);
    println!("picks of a boat that held shares before a lower-numbered one of the same score: {ties}");
    // A comparison that never meets some outcome has lost its meaning. The gate's 20,000 cases of seed 1 meet each; those of another
    // seed need not, so there only a long one is held to it.
    if count >= 10_000 || (count >= 5_000 && seed == 1) {
        for call in CALLS {
            let refused = refusals(call).into_iter().map(|n| format!("refused {n}"));
            for outcome in refused.chain(answers(call).iter().map(|name| name.to_string())) {
                if times(call, &outcome) == 0 {
                    println!("{call} {outcome}: never met");
                    std::process::exit(1);
                }
            }
        }
        if ties == 0 {
            println!("no pick by the shares held");
            std::process::exit(1);
        }
    }
    println!("{count} cases alike, seed {seed}");
}
