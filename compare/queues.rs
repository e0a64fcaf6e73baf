//! Queues of sheets on one allowance through the library and through the reference: sheets of different sizes, editions and front texts,
//! damaged ones, allowances and slots at their borders, lengths that do not total the buffer. Guard records and slots stand on both sides.

use crate::encode::{book_of, sheet_of};
use crate::random::Random;
use crate::reference;
use crate::reference::Handed;
use crate::{compared, damage_book, damage_sheet, factors, lent, length_near, rows, sizes, target, tolerance, with_front, Compared, GUARD};

/// dofitrano_sheet_record of include/dofitrano.h, its padding not named: `finished` is 0 or 1.
#[repr(C)]
#[derive(Clone, Copy, PartialEq, Debug)]
struct SheetRecord {
    asked: u32,
    used: u32,
    finished: bool,
    distance: u64,
    gap: u64,
    verdict: u32,
    length: u32,
}

extern "C" {
    fn dofitrano_run_queue(
        queue: *mut SheetRecord,
        sheet_count: usize,
        book: *const u8,
        book_length: usize,
        sheets: *const u8,
        sheets_length: usize,
        allowance: u32,
        shares: *mut u16,
        slots: usize,
    ) -> u32;
}

// The slices give true pointers and lengths, and what is written overlaps nothing.
fn library_run_queue(queue: &mut [SheetRecord], book: &[u8], sheets: &[u8], allowance: u32, shares: &mut [u16]) -> u32 {
    unsafe {
        dofitrano_run_queue(queue.as_mut_ptr(), queue.len(), book.as_ptr(), book.len(), sheets.as_ptr(), sheets.len(), allowance, shares.as_mut_ptr(), shares.len())
    }
}

/// The number that refuses a queue, or its sheets as problems.
fn read_queue(book: &[u8], queue: &[SheetRecord], sheets: &[u8], allowance: u32, slots: usize) -> Result<Vec<reference::Problem>, u32> {
    reference::read_book(book)?;
    let total: u64 = queue.iter().map(|record| u64::from(record.length)).sum();
    if queue.is_empty() || queue.len() > 16 || total != sheets.len() as u64 {
        return Err(44);
    }
    if (allowance as usize) < queue.len() || allowance > 5760 {
        return Err(45);
    }
    let (mut problems, mut at) = (Vec::new(), 0);
    for record in queue {
        let end = at + record.length as usize;
        problems.push(reference::read_files(Handed::default(), book, &sheets[at..end])?);
        at = end;
    }
    if slots < 256 * queue.len() {
        return Err(21);
    }
    Ok(problems)
}

/// The steps that each sheet gets, round by round, by those of its run alone.
fn steps_got(own: &[usize], allowance: usize) -> Vec<usize> {
    let (mut used, mut left) = (vec![0; own.len()], allowance);
    loop {
        let before = left;
        for (k, own) in used.iter_mut().zip(own) {
            if left > 0 && *k < *own {
                *k += 1;
                left -= 1;
            }
        }
        if left == before {
            return used;
        }
    }
}

fn random_record(rng: &mut Random, length: u32) -> SheetRecord {
    let (asked, used) = (rng.next() as u32, rng.next() as u32);
    SheetRecord { asked, used, finished: rng.one_in(2), distance: rng.next(), gap: rng.next(), verdict: rng.next() as u32, length }
}

/// A book and sheets for it, one in six of the queues with something damaged.
fn files(rng: &mut Random) -> (Vec<u8>, Vec<Vec<u8>>) {
    let (boats, columns, _) = sizes(rng);
    let of_book = rows(rng, boats, columns);
    let mut book = with_front(rng, book_of(&of_book));
    let count = rng.of(&[1, 1, 2, 2, 3, 3, 4, 5, 8, 16, 17, 0]);
    let mut sheets = Vec::new();
    for _ in 0..count {
        let steps = 1 + rng.below(if boats * columns > 400 { 6 } else { 40 }) as u16;
        let wanted = target(rng, &of_book);
        let by = factors(rng, columns);
        let near = tolerance(rng, Handed::default(), &of_book, &wanted, by.as_deref(), steps);
        let mut sheet = with_front(rng, sheet_of(&wanted, by.as_deref(), steps, near));
        if rng.one_in(60) {
            damage_sheet(rng, &mut sheet, columns);
        }
        sheets.push(sheet);
    }
    if rng.one_in(12) {
        damage_book(rng, &mut book, boats, columns);
    }
    (book, sheets)
}

pub fn compare_run_queue(rng: &mut Random) -> Compared {
    let (book, parts) = files(rng);
    let count = parts.len();
    let buffer = parts.concat();
    let mut queue: Vec<SheetRecord> = Vec::new();
    for _ in 0..GUARD {
        queue.push(random_record(rng, 7));
    }
    for part in &parts {
        queue.push(random_record(rng, part.len() as u32));
    }
    for _ in 0..GUARD {
        queue.push(random_record(rng, 9));
    }
    if count > 0 && rng.one_in(25) {
        queue[GUARD + rng.below(count)].length ^= rng.of(&[1, 256, 1 << 31]);
    }
    let n = count as u32;
    let some = n + rng.below(30) as u32;
    let allowance = rng.of(&[n, n, n + 1, some, some, n * 2, n * 4, n * 40, 5760, 5760, 5761, n.saturating_sub(1), u32::MAX]);
    let slots = if rng.one_in(8) { length_near(rng, 256 * count) } else { 256 * count + rng.below(9) };
    let list: Vec<u16> = (0..slots + 2 * GUARD).map(|_| rng.next() as u16).collect();
    let (mut wanted, mut left) = (queue.clone(), list.clone());
    let (outcome, number) = match read_queue(&book, &queue[GUARD..GUARD + count], &buffer, allowance, slots) {
        Err(refusal) => (format!("refused {refusal}"), refusal),
        Ok(problems) => {
            let own: Vec<usize> = problems.iter().map(|problem| problem.run().0.steps).collect();
            let used = steps_got(&own, allowance as usize);
            for (i, mut problem) in problems.into_iter().enumerate() {
                let asked = problem.steps() as u32;
                problem.schedule.truncate(used[i]);
                let (answer, shares) = problem.run();
                let at = GUARD + 256 * i;
                left[at..at + shares.len()].copy_from_slice(&shares);
                let record = &mut wanted[GUARD + i];
                *record = SheetRecord {
                    asked,
                    used: used[i] as u32,
                    finished: used[i] == own[i],
                    distance: answer.distance as u64,
                    gap: answer.gap as u64,
                    verdict: u32::from(answer.verdict.number()),
                    length: record.length,
                };
            }
            (["some cut", "all finished"][(used == own) as usize].to_string(), 0)
        }
    };
    let before = (lent("book", &book), lent("sheets", &buffer));
    let mut slots_given = list;
    let reply = library_run_queue(&mut queue[GUARD..GUARD + count], &book, &buffer, allowance, &mut slots_given[GUARD..GUARD + slots]);
    let files = [(before.0, &book[..]), (before.1, &buffer[..])];
    compared("run_queue", outcome, &files, ((number, wanted), left), ((reply, queue), slots_given))
}
