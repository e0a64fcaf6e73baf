//! The benchmark: the library's search against the same algorithm in plain Rust, against plain Rust and plain C that make one pass
//! over the book a step, and against Frank-Wolfe in floating point, on the same files.
//!
//! Use: bench [REPEATS], or bench once INPUT WHOSE, which makes one call for bench/instructions to count. In each repeat every implementation runs in turn, so that a change of the machine's load meets all of
//! them alike. Times are of the processor and for one call, and a time is the median of the repeats; a ratio is the median of the
//! repeats' ratios.

mod plain;
mod remembered;
#[path = "../compare/encode.rs"]
mod encode;
#[path = "../compare/random.rs"]
mod random;

use encode::{book_of, sheet_of};
use random::Random;
use std::ffi::c_void;
use std::hint::black_box;

/// dofitrano_reply of include/dofitrano.h.
#[repr(C)]
#[derive(Clone, Copy, PartialEq, Debug, Default)]
pub struct Reply {
    pub refusal: u32,
    pub verdict: u32,
    pub steps: u32,
    pub weight: u32,
    pub distance: u64,
    pub gap: u64,
    pub floor: i64,
    pub shortfall: u64,
}

/// dofitrano_card_reply of include/dofitrano.h.
#[repr(C)]
#[derive(Clone, Copy)]
struct CardReply {
    reply: Reply,
    bytes: usize,
}

/// dofitrano_merged of include/dofitrano.h.
#[repr(C)]
#[derive(Clone, Copy, PartialEq, Debug)]
struct Merged {
    refusal: u32,
    length: usize,
}

/// dofitrano_released of include/dofitrano.h.
#[repr(C)]
#[derive(Clone, Copy)]
struct Released {
    limited: bool,
    boats: [u8; 32],
}

/// No set: every boat may be used.
const EVERY_BOAT: Released = Released { limited: false, boats: [0; 32] };

/// dofitrano_sheet_record of include/dofitrano.h.
#[repr(C)]
#[derive(Clone, Copy, PartialEq, Debug, Default)]
struct SheetRecord {
    asked: u32,
    used: u32,
    finished: bool,
    distance: u64,
    gap: u64,
    verdict: u32,
    length: u32,
}

/// float_answer of float.c.
#[repr(C)]
#[derive(Clone, Copy)]
struct FloatAnswer {
    verdict: u32,
    steps: u32,
    distance: f64,
    gap: f64,
}

extern "C" {
    fn dofitrano_search(b: *const u8, bn: usize, s: *const u8, sn: usize, q: *mut u16, qn: usize) -> Reply;
    fn dofitrano_write_card(b: *const u8, bn: usize, s: *const u8, sn: usize, c: *mut u8, cn: usize) -> CardReply;
    fn dofitrano_check_card(
        b: *const u8,
        bn: usize,
        s: *const u8,
        sn: usize,
        c: *const u8,
        cn: usize,
        q: *mut u16,
        qn: usize,
    ) -> Reply;
    fn dofitrano_search_with(
        b: *const u8,
        bn: usize,
        s: *const u8,
        sn: usize,
        released: Released,
        lent: bool,
        t: *const u16,
        tn: usize,
        q: *mut u16,
        qn: usize,
    ) -> Reply;
    fn dofitrano_check_card_with(
        b: *const u8,
        bn: usize,
        s: *const u8,
        sn: usize,
        released: Released,
        lent: bool,
        t: *const u16,
        tn: usize,
        c: *const u8,
        cn: usize,
        q: *mut u16,
        qn: usize,
    ) -> Reply;
    fn dofitrano_listing(b: *const u8, bn: usize, s: *const u8, sn: usize, t: *mut u8, tn: usize) -> usize;
    fn dofitrano_merge_books(a: *const u8, an: usize, b: *const u8, bn: usize, c: *mut u8, cn: usize) -> Merged;
    fn dofitrano_run_queue(
        r: *mut SheetRecord,
        rn: usize,
        b: *const u8,
        bn: usize,
        s: *const u8,
        sn: usize,
        allowance: u32,
        q: *mut u16,
        qn: usize,
    ) -> u32;
    fn plain_c_search(b: *const u8, bn: usize, s: *const u8, sn: usize, q: *mut u16, qn: usize) -> Reply;
    fn float_search(b: *const u8, bn: usize, s: *const u8, sn: usize, weights: *mut f64) -> FloatAnswer;
    fn stack_of(call: extern "C" fn(*mut c_void), argument: *mut c_void) -> usize;
}

// The slices give true pointers and lengths, and what is written overlaps nothing.
fn library_search(book: &[u8], sheet: &[u8], shares: &mut [u16]) -> Reply {
    unsafe { dofitrano_search(book.as_ptr(), book.len(), sheet.as_ptr(), sheet.len(), shares.as_mut_ptr(), shares.len()) }
}

fn library_write_card(book: &[u8], sheet: &[u8], card: &mut [u8]) -> CardReply {
    unsafe { dofitrano_write_card(book.as_ptr(), book.len(), sheet.as_ptr(), sheet.len(), card.as_mut_ptr(), card.len()) }
}

fn library_check_card(book: &[u8], sheet: &[u8], card: &[u8], shares: &mut [u16]) -> Reply {
    let (b, s, c) = (book.as_ptr(), sheet.as_ptr(), card.as_ptr());
    unsafe { dofitrano_check_card(b, book.len(), s, sheet.len(), c, card.len(), shares.as_mut_ptr(), shares.len()) }
}

/// The search among released boats with a table of shares, which is lent unless it is empty.
fn library_search_with(book: &[u8], sheet: &[u8], set: Released, table: &[u16], shares: &mut [u16]) -> Reply {
    let (b, s, t, lent) = (book.as_ptr(), sheet.as_ptr(), table.as_ptr(), !table.is_empty());
    let (q, slots) = (shares.as_mut_ptr(), shares.len());
    unsafe { dofitrano_search_with(b, book.len(), s, sheet.len(), set, lent, t, table.len(), q, slots) }
}

/// The card check with such a set and table.
fn library_check_card_with(book: &[u8], sheet: &[u8], set: Released, table: &[u16], card: &[u8], shares: &mut [u16]) -> Reply {
    let (b, s, t, c, lent) = (book.as_ptr(), sheet.as_ptr(), table.as_ptr(), card.as_ptr(), !table.is_empty());
    let (q, slots) = (shares.as_mut_ptr(), shares.len());
    unsafe { dofitrano_check_card_with(b, book.len(), s, sheet.len(), set, lent, t, table.len(), c, card.len(), q, slots) }
}

fn library_listing(book: &[u8], sheet: &[u8], text: &mut [u8]) -> usize {
    unsafe { dofitrano_listing(book.as_ptr(), book.len(), sheet.as_ptr(), sheet.len(), text.as_mut_ptr(), text.len()) }
}

fn library_merge_books(first: &[u8], second: &[u8], output: &mut [u8]) -> Merged {
    unsafe { dofitrano_merge_books(first.as_ptr(), first.len(), second.as_ptr(), second.len(), output.as_mut_ptr(), output.len()) }
}

fn library_run_queue(queue: &mut [SheetRecord], book: &[u8], sheets: &[u8], allowance: u32, shares: &mut [u16]) -> u32 {
    let (r, b, s, q) = (queue.as_mut_ptr(), book.as_ptr(), sheets.as_ptr(), shares.as_mut_ptr());
    unsafe { dofitrano_run_queue(r, queue.len(), b, book.len(), s, sheets.len(), allowance, q, shares.len()) }
}

fn c_search(book: &[u8], sheet: &[u8], shares: &mut [u16]) -> Reply {
    unsafe { plain_c_search(book.as_ptr(), book.len(), sheet.as_ptr(), sheet.len(), shares.as_mut_ptr(), shares.len()) }
}

fn c_float_search(book: &[u8], sheet: &[u8], weights: &mut [f64; 256]) -> FloatAnswer {
    unsafe { float_search(book.as_ptr(), book.len(), sheet.as_ptr(), sheet.len(), weights.as_mut_ptr()) }
}

// ------------------------------------------------------------------- the inputs

impl Random {
    fn value(&mut self) -> i16 {
        (self.next() % 4001) as i16 - 2000
    }
}

struct Input {
    book: Vec<u8>,
    sheet: Vec<u8>,
}

fn input(rows: &[Vec<i16>], target: &[i16], steps: u16, tolerance: u32) -> Input {
    Input { book: book_of(rows), sheet: sheet_of(target, None, steps, tolerance) }
}

fn random_rows(rng: &mut Random, boats: usize, columns: usize) -> Vec<Vec<i16>> {
    (0..boats).map(|_| (0..columns).map(|_| rng.value()).collect()).collect()
}

/// The least squared distance by these factors on the way through so many steps, rounded down.
fn nearest(rows: &[Vec<i16>], target: &[i16], factors: &[u8], steps: u16) -> u32 {
    let along = |row: &[i16], r: &[i64]| {
        let products = row.iter().zip(r).map(|(v, x)| i64::from(*v) * x);
        products.zip(factors).map(|(p, f)| i64::from(*f) * p).sum::<i64>()
    };
    let mut r: Vec<i64> = rows[0].iter().zip(target).map(|(v, u)| i64::from(*v) - i64::from(*u)).collect();
    let mut nearest = i64::MAX;
    for t in 1..=i64::from(steps) {
        let best = rows.iter().min_by_key(|row| along(row, &r)).unwrap();
        if t == 1 {
            r.fill(0);
        }
        for ((x, v), u) in r.iter_mut().zip(best).zip(target) {
            *x += t * (i64::from(*v) - i64::from(*u));
        }
        let w = t * (t + 1) / 2;
        nearest = nearest.min(r.iter().zip(factors).map(|(x, f)| i64::from(*f) * x * x).sum::<i64>() / (w * w));
    }
    nearest as u32
}

/// Random rows and a random target, so that few boats are picked. The tolerance is one less than what the run with these factors
/// comes to, so that it goes on to its last step.
fn few_boats_by(factors: &[u8], boats: usize, steps: u16) -> Input {
    let mut rng = Random(2);
    let rows = random_rows(&mut rng, boats, factors.len());
    let target: Vec<i16> = (0..factors.len()).map(|_| rng.value()).collect();
    let tolerance = nearest(&rows, &target, factors, steps).saturating_sub(1);
    input(&rows, &target, steps, tolerance)
}

/// The same without factors.
fn few_boats(boats: usize, columns: usize, steps: u16) -> Input {
    few_boats_by(&vec![1; columns], boats, steps)
}

/// Random rows; the target is their mean, so that most picks are of boats not picked before.
fn many_boats(boats: usize, columns: usize, steps: u16) -> Input {
    let mut rng = Random(2);
    let rows = random_rows(&mut rng, boats, columns);
    let target: Vec<i16> = (0..columns)
        .map(|c| (rows.iter().map(|row| i32::from(row[c])).sum::<i32>() / boats as i32) as i16)
        .collect();
    input(&rows, &target, steps, 0)
}

/// A tolerance that the first step meets.
fn one_step(boats: usize, columns: usize) -> Input {
    let mut rng = Random(3);
    let rows = random_rows(&mut rng, boats, columns);
    let target = vec![0; columns];
    input(&rows, &target, 360, 1_024_000_000)
}

/// The same files with a factor for each column.
fn factored(x: &Input, factors: &[u8]) -> Input {
    let (target, trailer) = x.sheet.split_at(x.sheet.len() - 16);
    let back = (target.len() + factors.len()) as u32;
    Input { book: x.book.clone(), sheet: [target, factors, &back.to_le_bytes(), &trailer[4..12], b"WSH2"].concat() }
}

/// Half of the columns twice, the others not at all.
fn every_other(columns: usize) -> Vec<u8> {
    (0..columns).map(|c| if c % 2 == 0 { 2 } else { 0 }).collect()
}

// ------------------------------------------------------------------ the measures

/// C's struct timespec.
#[repr(C)]
struct Timespec {
    seconds: i64,
    nanoseconds: i64,
}

extern "C" {
    fn clock_gettime(clock: i32, time: *mut Timespec) -> i32;
}

/// The processor time of this thread, in seconds: what other programs use is not in it.
fn now() -> f64 {
    const CLOCK_THREAD_CPUTIME_ID: i32 = 3;
    let mut time = Timespec { seconds: 0, nanoseconds: 0 };
    assert_eq!(unsafe { clock_gettime(CLOCK_THREAD_CPUTIME_ID, &mut time) }, 0);
    time.seconds as f64 + 1e-9 * time.nanoseconds as f64
}

/// Seconds that one call takes, over `calls` calls.
fn time(calls: u32, mut call: impl FnMut()) -> f64 {
    let start = now();
    for _ in 0..calls {
        call();
    }
    (now() - start) / f64::from(calls)
}

fn median(mut times: Vec<f64>) -> f64 {
    times.sort_by(f64::total_cmp);
    times[times.len() / 2]
}

/// The times of each implementation, one a repeat.
struct Times {
    library: Vec<f64>,
    same: Vec<f64>,
    rust: Vec<f64>,
    c: Vec<f64>,
    float: Vec<f64>,
}

/// The median of the repeats' ratios.
fn ratio(of: &[f64], to: &[f64]) -> f64 {
    median(of.iter().zip(to).map(|(a, b)| a / b).collect())
}

fn microseconds(times: &[f64]) -> f64 {
    1e6 * median(times.to_vec())
}

/// How many calls take about 3 ms.
fn batch(mut call: impl FnMut()) -> u32 {
    call();
    let once = time(3, call);
    ((0.003 / once) as u32).clamp(1, 20_000)
}

/// The times of all implementations on one input. The share list is cleared before each batch of calls, outside the time.
fn measure(x: &Input, repeats: u32) -> Times {
    let (book, sheet) = (&x.book[..], &x.sheet[..]);
    let mut shares = [0u16; 256];
    let mut weights = [0f64; 256];
    let calls = batch(|| {
        black_box(plain::search(black_box(book), black_box(sheet), &mut shares));
    });
    let mut times = Times { library: Vec::new(), same: Vec::new(), rust: Vec::new(), c: Vec::new(), float: Vec::new() };
    for _ in 0..repeats {
        shares.fill(0);
        times.library.push(time(calls, || {
            black_box(library_search(black_box(book), black_box(sheet), &mut shares));
        }));
        shares.fill(0);
        times.same.push(time(calls, || {
            black_box(remembered::search(black_box(book), black_box(sheet), &mut shares));
        }));
        shares.fill(0);
        times.rust.push(time(calls, || {
            black_box(plain::search(black_box(book), black_box(sheet), &mut shares));
        }));
        shares.fill(0);
        times.c.push(time(calls, || {
            black_box(c_search(black_box(book), black_box(sheet), &mut shares));
        }));
        weights.fill(0.0);
        times.float.push(time(calls, || {
            black_box(c_float_search(black_box(book), black_box(sheet), &mut weights));
        }));
    }
    times
}

/// What the run is, after a check that the implementations agree.
fn described(x: &Input) -> String {
    let mut shares = [[0u16; 256]; 4];
    let reply = library_search(&x.book, &x.sheet, &mut shares[0]);
    assert_eq!(reply, plain::search(&x.book, &x.sheet, &mut shares[1]), "plain Rust differs");
    assert_eq!(reply, c_search(&x.book, &x.sheet, &mut shares[2]), "plain C differs");
    assert_eq!(reply, remembered::search(&x.book, &x.sheet, &mut shares[3]), "the same algorithm in Rust differs");
    assert!(reply.refusal == 0 && shares.iter().all(|other| *other == shares[0]), "shares differ");
    let mut weights = [0f64; 256];
    let float = c_float_search(&x.book, &x.sheet, &mut weights);
    let distance = reply.distance as f64 / (f64::from(reply.weight) * f64::from(reply.weight));
    let apart = if float.steps == reply.steps && float.verdict == reply.verdict {
        format!("floats {:.0e} apart", ((float.distance - distance) / distance.max(1.0)).abs().max(1e-16))
    } else {
        format!("floats end at step {}", float.steps)
    };
    let picked = shares[0].iter().filter(|q| **q != 0).count();
    format!("{} steps, {picked} boats, {apart}", reply.steps)
}

/// One row for each input: the run, the times, and the library's ratios to the others.
fn print_inputs(inputs: &[(&str, Input)], repeats: u32) {
    println!("| input | run | library | same in Rust | plain Rust | plain C | floats in C | library / same | library / Rust | library / C | library / floats |");
    println!("|---|---|---|---|---|---|---|---|---|---|---|");
    for (name, x) in inputs {
        let run = described(x);
        let t = measure(x, repeats);
        println!(
            "| {name} | {run} | {:.2} | {:.2} | {:.2} | {:.2} | {:.2} | {:.2} | {:.2} | {:.2} | {:.2} |",
            microseconds(&t.library),
            microseconds(&t.same),
            microseconds(&t.rust),
            microseconds(&t.c),
            microseconds(&t.float),
            ratio(&t.library, &t.same),
            ratio(&t.library, &t.rust),
            ratio(&t.library, &t.c),
            ratio(&t.library, &t.float)
        );
    }
}

/// How the time grows with each of the sizes, the others at their largest. The sizes take turns within a repeat, so that each is
/// compared with full size under the same load.
fn print_growth(repeats: u32) {
    println!("| boats | columns | steps | library | plain Rust | library / Rust | library, of full size | plain Rust, of full size |");
    println!("|---|---|---|---|---|---|---|---|");
    let boats = [256, 128, 64, 32].map(|n| (n, 64, 360));
    let columns = [32, 16, 8].map(|n| (256, n, 360));
    let steps = [180, 90, 45].map(|n| (256, 64, n));
    let sizes: Vec<(usize, usize, u16)> = boats.into_iter().chain(columns).chain(steps).collect();
    let inputs: Vec<Input> = sizes.iter().map(|(b, c, n)| few_boats(*b, *c, *n)).collect();
    let mut times = vec![(Vec::new(), Vec::new()); sizes.len()];
    for ((_, _, steps), x) in sizes.iter().zip(&inputs) {
        let run = described(x);
        assert!(run.starts_with(&format!("{steps} steps")), "the run ended early: {run}");
    }
    for _ in 0..repeats {
        for (x, (library, rust)) in inputs.iter().zip(&mut times) {
            let t = measure(x, 1);
            library.extend(t.library);
            rust.extend(t.rust);
        }
    }
    let (full_library, full_rust) = times[0].clone();
    for ((boats, columns, steps), (library, rust)) in sizes.iter().zip(&times) {
        println!(
            "| {boats} | {columns} | {steps} | {:.2} | {:.2} | {:.2} | {:.3} | {:.3} |",
            microseconds(library),
            microseconds(rust),
            ratio(library, rust),
            ratio(library, &full_library),
            ratio(rust, &full_rust)
        );
    }
}

/// The library's other calls beside its search, on the same files; the card that is checked is the one written.
fn print_calls(inputs: &[(&str, Input)], repeats: u32) {
    println!("| input | search | write_card | check_card | listing | write_card / search | check_card / search | listing / search |");
    println!("|---|---|---|---|---|---|---|---|");
    for (name, x) in inputs {
        let (book, sheet) = (&x.book[..], &x.sheet[..]);
        let mut shares = [0u16; 256];
        let mut buffer = [0u8; 1060];
        let mut text = [0u8; 4096];
        let written = library_write_card(book, sheet, &mut buffer);
        let card = buffer[..written.bytes].to_vec();
        assert!(written.reply.refusal == 0 && library_check_card(book, sheet, &card, &mut shares) == written.reply);
        let calls = batch(|| {
            black_box(library_search(black_box(book), black_box(sheet), &mut shares));
        });
        let mut times = [const { Vec::new() }; 4];
        for _ in 0..repeats {
            shares.fill(0);
            times[0].push(time(calls, || {
                black_box(library_search(black_box(book), black_box(sheet), &mut shares));
            }));
            buffer.fill(0);
            times[1].push(time(calls, || {
                black_box(library_write_card(black_box(book), black_box(sheet), &mut buffer));
            }));
            shares.fill(0);
            times[2].push(time(calls, || {
                black_box(library_check_card(black_box(book), black_box(sheet), black_box(&card), &mut shares));
            }));
            text.fill(0);
            times[3].push(time(calls, || {
                black_box(library_listing(black_box(book), black_box(sheet), &mut text));
            }));
        }
        let [search, write, check, list] = &times;
        println!(
            "| {name} | {:.2} | {:.2} | {:.2} | {:.2} | {:.2} | {:.3} | {:.2} |",
            microseconds(search),
            microseconds(write),
            microseconds(check),
            microseconds(list),
            ratio(write, search),
            ratio(check, search),
            ratio(list, search)
        );
    }
}

/// The library's search of a sheet with factors beside that of the sheet without, in turn.
fn print_factors(repeats: u32) {
    println!("| input | factors | steps without, with | without | with | with / without |");
    println!("|---|---|---|---|---|---|");
    let inputs: [(&str, usize, fn(&[u8]) -> Input); 5] = [
        ("full size, few boats picked", 64, |factors| few_boats_by(factors, 256, 360)),
        ("full size, many boats picked", 64, |_| many_boats(256, 64, 360)),
        ("typical, many boats picked, 40 x 20 x 60", 20, |_| many_boats(40, 20, 60)),
        ("one step, 256 x 64", 64, |_| one_step(256, 64)),
        ("one step, 3 x 2", 2, |_| one_step(3, 2)),
    ];
    for (name, columns, made) in inputs {
        let ones = vec![1; columns];
        for (kind, factors) in [("1 each", ones.clone()), ("2 and 0 in turn", every_other(columns))] {
            let (x, other) = (&made(&ones), factored(&made(&factors), &factors));
            let mut shares = [0u16; 256];
            let replies = [x, &other].map(|x| library_search(&x.book, &x.sheet, &mut shares));
            assert!(replies.iter().all(|reply| reply.refusal == 0), "a sheet is refused");
            assert!(kind != "1 each" || replies[0] == replies[1], "factors of 1 change the answer");
            let calls = batch(|| {
                black_box(library_search(black_box(&x.book), black_box(&x.sheet), &mut shares));
            });
            let mut times = [const { Vec::new() }; 2];
            for _ in 0..repeats {
                for (x, times) in [x, &other].into_iter().zip(&mut times) {
                    shares.fill(0);
                    times.push(time(calls, || {
                        black_box(library_search(black_box(&x.book), black_box(&x.sheet), &mut shares));
                    }));
                }
            }
            let [without, with] = &times;
            let (steps, more) = (replies[0].steps, replies[1].steps);
            println!("| {name} | {kind} | {steps}, {more} | {:.2} | {:.2} | {:.3} |", microseconds(without), microseconds(with), ratio(with, without));
        }
    }
}

/// The shares 1 to 360, a table with which every run is the plain one.
fn counted() -> Vec<u16> {
    (1..=360).collect()
}

/// The search and the card check with the table 1 to 360, which makes the same run, beside those without a table, in turn.
fn print_tables(inputs: &[(&str, Input)], repeats: u32) {
    println!("| input | search | with a table | with / without | check_card | with a table | with / without |");
    println!("|---|---|---|---|---|---|---|");
    let table = counted();
    for (name, x) in inputs {
        let (book, sheet) = (&x.book[..], &x.sheet[..]);
        let mut card = [0u8; 1060];
        let written = library_write_card(book, sheet, &mut card);
        let card = &card[..written.bytes];
        let mut lists = [[0u16; 256]; 4];
        let replies = [
            library_search(book, sheet, &mut lists[0]),
            library_search_with(book, sheet, EVERY_BOAT, &table, &mut lists[1]),
            library_check_card(book, sheet, card, &mut lists[2]),
            library_check_card_with(book, sheet, EVERY_BOAT, &table, card, &mut lists[3]),
        ];
        assert!(written.reply.refusal == 0 && replies.iter().all(|reply| *reply == written.reply), "the answers differ");
        assert!(lists.iter().all(|list| *list == lists[0]), "the shares differ");
        let shares = &mut lists[0];
        let mut times = [const { Vec::new() }; 4];
        let calls = batch(|| {
            black_box(library_search(black_box(book), black_box(sheet), shares));
        });
        let checks = batch(|| {
            black_box(library_check_card(black_box(book), black_box(sheet), black_box(card), shares));
        });
        for _ in 0..repeats {
            times[0].push(time(calls, || {
                black_box(library_search(black_box(book), black_box(sheet), shares));
            }));
            times[1].push(time(calls, || {
                black_box(library_search_with(black_box(book), black_box(sheet), EVERY_BOAT, black_box(&table), shares));
            }));
            times[2].push(time(checks, || {
                black_box(library_check_card(black_box(book), black_box(sheet), black_box(card), shares));
            }));
            times[3].push(time(checks, || {
                black_box(library_check_card_with(black_box(book), black_box(sheet), EVERY_BOAT, black_box(&table), black_box(card), shares));
            }));
        }
        let [plain, lent, checked, checked_lent] = &times;
        println!(
            "| {name} | {:.2} | {:.2} | {:.3} | {:.2} | {:.2} | {:.3} |",
            microseconds(plain),
            microseconds(lent),
            ratio(lent, plain),
            microseconds(checked),
            microseconds(checked_lent),
            ratio(checked_lent, checked)
        );
    }
}

/// The files with a row that is not released behind each row, twice as many boats in all, and the set of the others.
fn half_released(x: &Input, columns: usize) -> (Input, Released) {
    let mut rng = Random(7);
    let body = &x.book[..x.book.len() - 12];
    let rows: Vec<Vec<i16>> = body.chunks(2 * columns).map(|row| row.chunks(2).map(|v| i16::from_le_bytes([v[0], v[1]])).collect()).collect();
    let mixed: Vec<Vec<i16>> = rows.iter().flat_map(|row| [row.clone(), (0..columns).map(|_| rng.value()).collect()]).collect();
    let mut boats = [0; 32];
    for boat in (0..mixed.len()).step_by(2) {
        boats[boat / 8] |= 1 << (boat % 8);
    }
    (Input { book: book_of(&mixed), sheet: x.sheet.clone() }, Released { limited: true, boats })
}

/// The search among the released half of a book beside that of a book of just those rows, in turn.
fn print_sets(repeats: u32) {
    println!("| input | steps | of the rows alone | among the released | released / alone |");
    println!("|---|---|---|---|---|");
    let inputs = [
        ("128 of 256 boats, 64 columns, 360 steps, few boats picked", few_boats(128, 64, 360), 64),
        ("128 of 256 boats, 64 columns, 360 steps, many boats picked", many_boats(128, 64, 360), 64),
        ("20 of 40 boats, 20 columns, 60 steps, few boats picked", few_boats(20, 20, 60), 20),
        ("128 of 256 boats, 64 columns, one step", one_step(128, 64), 64),
    ];
    for (name, x, columns) in &inputs {
        let (all, set) = half_released(x, *columns);
        let (mut own, mut shares) = ([0u16; 256], [0u16; 256]);
        let reply = library_search(&x.book, &x.sheet, &mut own);
        assert!(reply.refusal == 0 && reply == library_search_with(&all.book, &all.sheet, set, &[], &mut shares), "the answers differ");
        let boats = (x.book.len() - 12) / (2 * columns);
        assert!((0..boats).all(|i| shares[2 * i] == own[i] && shares[2 * i + 1] == 0), "the shares differ");
        let calls = batch(|| {
            black_box(library_search(black_box(&x.book), black_box(&x.sheet), &mut own));
        });
        let mut times = [const { Vec::new() }; 2];
        for _ in 0..repeats {
            times[0].push(time(calls, || {
                black_box(library_search(black_box(&x.book), black_box(&x.sheet), &mut own));
            }));
            times[1].push(time(calls, || {
                black_box(library_search_with(black_box(&all.book), black_box(&all.sheet), black_box(set), &[], &mut shares));
            }));
        }
        let [alone, among] = &times;
        println!("| {name} | {} | {:.2} | {:.2} | {:.3} |", reply.steps, microseconds(alone), microseconds(among), ratio(among, alone));
    }
}

/// One book from two at full size, 256 and 256 boats of 64 columns: rows that differ early, rows that agree in all but their last column, and
/// books that are refused.
fn print_merges(repeats: u32) {
    println!("| books | given back | microseconds |");
    println!("|---|---|---|");
    let mut rng = Random(5);
    let drawn = random_rows(&mut rng, 256, 64);
    let late: Vec<Vec<i16>> = (0..256).map(|i| [vec![7; 63], vec![i]].concat()).collect();
    let new = random_rows(&mut rng, 128, 64);
    let half = [drawn[..128].to_vec(), new.clone()].concat();
    let late_half = [late[128..].to_vec(), late[128..].to_vec()].concat();
    let cases = [
        ("256 drawn rows, and the same", &drawn, &drawn),
        ("128 drawn rows, and 128 of them with 128 new", &drawn[..128].to_vec(), &half),
        ("256 rows alike but for their last column, and the same in reverse", &late, &late.iter().rev().cloned().collect()),
        ("128 such rows, and 128 new ones twice", &late[..128].to_vec(), &late_half),
        ("256 such rows, and the last of them 256 times: the most comparisons", &late, &vec![late[255].clone(); 256]),
        ("256 drawn rows, and 128 new: refused", &drawn, &new),
    ];
    for (name, first, second) in cases {
        let (first, second) = (book_of(first), book_of(second));
        let mut output = vec![0; 32780];
        let given = library_merge_books(&first, &second, &mut output);
        let call = |output: &mut [u8]| {
            black_box(library_merge_books(black_box(&first), black_box(&second), output));
        };
        let calls = batch(|| call(&mut output));
        let times: Vec<f64> = (0..repeats).map(|_| time(calls, || call(&mut output))).collect();
        println!("| {name} | {}, {} bytes | {:.2} |", given.refusal, given.length, microseconds(&times));
    }
}

/// A book and 16 sheets for it with so many steps each, which all go on to the last: the targets are drawn, so that few boats are picked, or
/// lie near the mean of all boats, so that many are.
struct Queue {
    book: Vec<u8>,
    sheets: Vec<Vec<u8>>,
    buffer: Vec<u8>,
    records: Vec<SheetRecord>,
    allowance: u32,
}

fn queue(boats: usize, columns: usize, steps: u16, many: bool, factors: Option<&[u8]>) -> Queue {
    let mut rng = Random(11);
    let rows = random_rows(&mut rng, boats, columns);
    let counted = factors.map_or(vec![1; columns], <[u8]>::to_vec);
    let mut sheets = Vec::new();
    for k in 0..16 {
        let mean = |c: usize| (rows.iter().map(|row| i32::from(row[c])).sum::<i32>() / boats as i32) as i16;
        let target: Vec<i16> = (0..columns).map(|c| if many { mean(c) + k } else { rng.value() }).collect();
        let tolerance = if many { 0 } else { nearest(&rows, &target, &counted, steps).saturating_sub(1) };
        let sheet = input(&rows, &target, steps, tolerance);
        sheets.push(if factors.is_some() { factored(&sheet, &counted) } else { sheet }.sheet);
    }
    let records = sheets.iter().map(|sheet| SheetRecord { length: sheet.len() as u32, ..Default::default() }).collect();
    Queue { book: book_of(&rows), buffer: sheets.concat(), sheets, records, allowance: 16 * u32::from(steps) }
}

/// A queue of 16 sheets that all get the steps they ask for beside the searches of its sheets one after the other, in turn.
fn print_queues(repeats: u32) {
    println!("| 16 sheets | steps in all | one by one | queue | queue / one by one |");
    println!("|---|---|---|---|---|");
    let half = every_other(64);
    let queues = [
        ("40 x 20 x 60, few boats picked", queue(40, 20, 60, false, None)),
        ("40 x 20 x 60, many boats picked", queue(40, 20, 60, true, None)),
        ("full size, 256 x 64 x 360, few boats picked", queue(256, 64, 360, false, None)),
        ("full size, many boats picked", queue(256, 64, 360, true, None)),
        ("full size, many boats picked, factors 2 and 0 by turns", queue(256, 64, 360, true, Some(&half))),
    ];
    for (name, mut x) in queues {
        let (mut shares, mut own) = (vec![0u16; 4096], vec![0u16; 4096]);
        assert_eq!(library_run_queue(&mut x.records, &x.book, &x.buffer, x.allowance, &mut shares), 0);
        for (i, sheet) in x.sheets.iter().enumerate() {
            let reply = library_search(&x.book, sheet, &mut own[256 * i..256 * i + 256]);
            let record = x.records[i];
            assert!(record.finished && (record.used, record.distance, record.gap) == (reply.steps, reply.distance, reply.gap), "the answers differ");
        }
        assert!(shares == own, "the shares differ");
        let steps: u32 = x.records.iter().map(|record| record.used).sum();
        let mut times = [const { Vec::new() }; 2];
        let calls = batch(|| {
            black_box(library_run_queue(&mut x.records, black_box(&x.book), black_box(&x.buffer), x.allowance, &mut shares));
        });
        for _ in 0..repeats {
            times[0].push(time(calls, || {
                for (i, sheet) in x.sheets.iter().enumerate() {
                    black_box(library_search(black_box(&x.book), black_box(sheet), &mut own[256 * i..256 * i + 256]));
                }
            }));
            times[1].push(time(calls, || {
                black_box(library_run_queue(&mut x.records, black_box(&x.book), black_box(&x.buffer), x.allowance, &mut shares));
            }));
        }
        let [alone, queued] = &times;
        println!("| {name} | {steps} | {:.2} | {:.2} | {:.2} |", microseconds(alone), microseconds(queued), ratio(queued, alone));
    }
}

extern "C" fn queue_once(input: *mut c_void) {
    let x = unsafe { &mut *input.cast::<Queue>() };
    let mut shares = [0u16; 4096];
    black_box(library_run_queue(&mut x.records, &x.book, &x.buffer, x.allowance, &mut shares));
}

extern "C" fn search_once(input: *mut c_void) {
    // `print_stack` passes an input that outlives the call.
    let x = unsafe { &*input.cast::<Input>() };
    let mut shares = [0u16; 256];
    black_box(library_search(&x.book, &x.sheet, &mut shares));
}

extern "C" fn write_card_once(input: *mut c_void) {
    let x = unsafe { &*input.cast::<Input>() };
    let mut card = [0u8; 1060];
    black_box(library_write_card(&x.book, &x.sheet, &mut card));
}

extern "C" fn listing_once(input: *mut c_void) {
    let x = unsafe { &*input.cast::<Input>() };
    let mut text = [0u8; 4096];
    black_box(library_listing(&x.book, &x.sheet, &mut text));
}

/// The calls whose stack is measured; it has the caller's own list or buffer in it.
const CALLS: [(&str, extern "C" fn(*mut c_void)); 3] =
    [("search", search_once), ("write_card", write_card_once), ("listing", listing_once)];

/// The stack that the calls use at full size, without factors and with them.
fn print_stack() {
    let mut x = many_boats(256, 64, 360);
    let mut y = factored(&x, &every_other(64));
    for (name, call) in CALLS {
        let [without, with] = [&raw mut x, &raw mut y].map(|input| unsafe { stack_of(call, input.cast()) });
        println!("stack of {name} at full size: {without} bytes, with factors {with}");
    }
    let half = every_other(64);
    let [without, with] = [None, Some(&half[..])].map(|factors| {
        let mut x = queue(256, 64, 20, true, factors);
        unsafe { stack_of(queue_once, (&raw mut x).cast()) }
    });
    println!("stack of run_queue with 16 sheets of full size: {without} bytes, with factors {with}");
}

/// One call on an input: `few` or `many` with boats, columns and steps, as few-256-64-360, or `one` with boats and columns.
fn once(name: &str, whose: &str) {
    let words: Vec<&str> = name.split('-').collect();
    let sizes: Vec<usize> = words[1..].iter().map(|word| word.parse().expect("a size")).collect();
    let x = match words[0] {
        "few" => few_boats(sizes[0], sizes[1], sizes[2] as u16),
        "many" => many_boats(sizes[0], sizes[1], sizes[2] as u16),
        _ => one_step(sizes[0], sizes[1]),
    };
    let mut shares = [0u16; 256];
    black_box(match whose {
        "library" => library_search(&x.book, &x.sheet, &mut shares),
        "table" => library_search_with(&x.book, &x.sheet, EVERY_BOAT, &counted(), &mut shares),
        "half" => {
            let (all, set) = half_released(&x, sizes[1]);
            library_search_with(&all.book, &all.sheet, set, &[], &mut shares)
        }
        "same" => remembered::search(&x.book, &x.sheet, &mut shares),
        _ => plain::search(&x.book, &x.sheet, &mut shares),
    });
}

fn main() {
    let words: Vec<String> = std::env::args().skip(1).collect();
    if let [command, name, whose] = &words[..] {
        assert_eq!(command, "once");
        return once(name, whose);
    }
    let repeats = std::env::args().nth(1).map_or(31, |word| word.parse().expect("a number of repeats"));
    println!("Processor times in microseconds a call, medians of {repeats} repeats.");
    println!("Share lists and buffers were cleared before each batch of calls, outside the time. The files are read again in each call, from the cache.");
    println!();
    let inputs = [
        ("full size, 256 x 64 x 360, few boats picked", few_boats(256, 64, 360)),
        ("full size, many boats picked", many_boats(256, 64, 360)),
        ("256 x 64 x 47, every pick a new boat", many_boats(256, 64, 47)),
        ("typical, 40 x 20 x 60, few boats picked", few_boats(40, 20, 60)),
        ("typical, many boats picked", many_boats(40, 20, 60)),
        ("one step, 256 x 64", one_step(256, 64)),
        ("one step, 40 x 20", one_step(40, 20)),
        ("one step, 3 x 2", one_step(3, 2)),
    ];
    print_inputs(&inputs, repeats);
    println!();
    println!("The library's other calls beside its search:");
    println!();
    print_calls(&inputs, repeats);
    println!();
    println!("How the time grows, few boats picked:");
    println!();
    print_growth(repeats);
    println!();
    println!("The library's search with factors beside the one without:");
    println!();
    print_factors(repeats);
    println!();
    println!("The library's search and card check with the table of shares 1 to 360 beside those without a table:");
    println!();
    print_tables(&inputs, repeats);
    println!();
    println!("The library's search among the released half of a book beside that of a book of just those rows:");
    println!();
    print_sets(repeats);
    println!();
    println!("One book from two, 256 and 256 boats of 64 columns:");
    println!();
    print_merges(repeats);
    println!();
    println!("A queue of 16 sheets on an allowance that lets all of them finish, beside its sheets run one by one:");
    println!();
    print_queues(repeats);
    println!();
    print_stack();
}
