//! Scale cells through the library and through a plain implementation of their rules: every kind of double, NaN of every payload
//! among them, and lists of every length.

use crate::encode::sheet_of;
use crate::random::Random;
use crate::reference;
use crate::{compared, files, lent, Compared};

/// dofitrano_values of include/dofitrano.h.
#[repr(C)]
#[derive(PartialEq, Debug)]
struct Values {
    refusal: u32,
    values: [i16; 64],
}

/// dofitrano_sheet of include/dofitrano.h.
#[repr(C)]
#[derive(PartialEq, Debug)]
struct Sheet {
    refusal: u32,
    length: usize,
    bytes: [u8; 144],
}

extern "C" {
    fn dofitrano_sheet_values(
        book: *const u8,
        book_length: usize,
        kinds: *const u8,
        kind_count: usize,
        first: *const f64,
        first_count: usize,
        second: *const f64,
        second_count: usize,
        units: *const u32,
        unit_count: usize,
    ) -> Values;
    fn dofitrano_scale_sheet(
        book: *const u8,
        book_length: usize,
        kinds: *const u8,
        kind_count: usize,
        first: *const f64,
        first_count: usize,
        second: *const f64,
        second_count: usize,
        units: *const u32,
        unit_count: usize,
        steps: u32,
        tolerance: u32,
    ) -> Sheet;
}

/// The cells as four lists.
struct Lists {
    kinds: Vec<u8>,
    first: Vec<f64>,
    second: Vec<f64>,
    units: Vec<u32>,
}

fn library_values(book: &[u8], c: &Lists) -> Values {
    unsafe {
        dofitrano_sheet_values(
            book.as_ptr(),
            book.len(),
            c.kinds.as_ptr(),
            c.kinds.len(),
            c.first.as_ptr(),
            c.first.len(),
            c.second.as_ptr(),
            c.second.len(),
            c.units.as_ptr(),
            c.units.len(),
        )
    }
}

fn library_sheet(book: &[u8], c: &Lists, steps: u32, tolerance: u32) -> Sheet {
    unsafe {
        dofitrano_scale_sheet(
            book.as_ptr(),
            book.len(),
            c.kinds.as_ptr(),
            c.kinds.len(),
            c.first.as_ptr(),
            c.first.len(),
            c.second.as_ptr(),
            c.second.len(),
            c.units.as_ptr(),
            c.units.len(),
            steps,
            tolerance,
        )
    }
}

// ------------------------------------------------------------------ the rules

/// n / d to the nearest whole number, of two the even one.
fn half_even(n: i64, d: i64) -> i64 {
    let down = n.div_euclid(d);
    match (2 * n.rem_euclid(d)).cmp(&d) {
        std::cmp::Ordering::Less => down,
        std::cmp::Ordering::Greater => down + 1,
        std::cmp::Ordering::Equal => down + down.rem_euclid(2),
    }
}

/// The value of cell `i`, or the number that refuses it.
fn value(c: &Lists, i: usize) -> Result<i16, u32> {
    let cell = (c.kinds.get(i), c.first.get(i), c.second.get(i), c.units.get(i));
    let (Some(kind), Some(first), Some(second), Some(unit)) = cell else { return Err(41) };
    let net = match kind {
        1 => *first,
        2 => first - second,
        _ => return Err(41),
    };
    if !net.is_finite() || net.abs() > 1_048_576.0 {
        return Err(42);
    }
    if !(1..=10_000).contains(unit) {
        return Err(43);
    }
    let value = half_even(net.round_ties_even() as i64, i64::from(*unit));
    if value.abs() > 2000 {
        return Err(43);
    }
    Ok(value as i16)
}

fn values(book: &[u8], c: &Lists) -> Result<Vec<i16>, u32> {
    let columns = reference::read_book(book)?[0].len();
    (0..columns).map(|i| value(c, i)).collect()
}

fn sheet(book: &[u8], c: &Lists, steps: u32, tolerance: u32) -> Result<Vec<u8>, u32> {
    let target = values(book, c)?;
    if !(1..=360).contains(&steps) {
        return Err(14);
    }
    if tolerance > 1_024_000_000 {
        return Err(15);
    }
    Ok(sheet_of(&target, None, steps as u16, tolerance))
}

// ------------------------------------------------------------------ the cells

fn reading(rng: &mut Random) -> f64 {
    let size = match rng.below(12) {
        // Any bits: NaN of any payload, subnormal doubles, doubles far beyond the limit.
        0 => return f64::from_bits(rng.next()),
        1 => f64::from_bits(0x7ff0_0000_0000_0000 + rng.below(3) as u64),
        2 => f64::from_bits(rng.next() >> (12 + rng.below(52))),
        3 => f64::from_bits(1_048_576f64.to_bits() - 2 + rng.below(5) as u64),
        4 => f64::from_bits(2000.5f64.to_bits() - 2 + rng.below(5) as u64),
        5 => 0.0,
        6 => rng.below(1 << 24) as f64 / 8.0,
        _ => rng.below(1 << 15) as f64 / 8.0,
    };
    if rng.one_in(2) { size } else { -size }
}

fn unit(rng: &mut Random) -> u32 {
    match rng.below(40) {
        0 => rng.of(&[0, 10_000, 10_001, u32::MAX]),
        1 => rng.below(10_003) as u32,
        _ => rng.of(&[1, 2, 4, 5, 10, 100]),
    }
}

/// As many cells as there are columns, and some more: few of them refuse, so that later ones are met too.
fn lists(rng: &mut Random) -> Lists {
    let plain = rng.one_in(2);
    let mut length = || match rng.below(40) {
        0 => rng.below(66),
        _ => 64 + rng.below(3),
    };
    let lengths = [length(), length(), length(), length()];
    let mut double = |n: usize| -> Vec<f64> {
        (0..n).map(|_| if plain { rng.between(-6000, 6000) as f64 / 8.0 } else { reading(rng) }).collect()
    };
    let (first, second) = (double(lengths[1]), double(lengths[2]));
    Lists {
        kinds: (0..lengths[0]).map(|_| if rng.one_in(60) { rng.of(&[0, 3, 255]) } else { rng.of(&[1, 2]) }).collect(),
        first,
        second,
        units: (0..lengths[3]).map(|_| unit(rng)).collect(),
    }
}

/// All that the lists hold, bit for bit: a call must leave it as it was.
fn content(c: &Lists) -> Vec<u64> {
    let doubles = c.first.iter().chain(&c.second).map(|x| x.to_bits());
    c.kinds.iter().map(|k| u64::from(*k)).chain(doubles).chain(c.units.iter().map(|u| u64::from(*u))).collect()
}

fn outcome<T>(wanted: &Result<T, u32>) -> String {
    match wanted {
        Ok(_) => "accepted".to_string(),
        Err(number) => format!("refused {number}"),
    }
}

pub fn compare_values(rng: &mut Random) -> Compared {
    let (book, _) = files(rng);
    let cells = lists(rng);
    let (before, held) = (lent("book", &book), content(&cells));
    let wanted = values(&book, &cells);
    let mut expected = Values { refusal: 0, values: [0; 64] };
    match &wanted {
        Ok(v) => expected.values[..v.len()].copy_from_slice(v),
        Err(number) => expected.refusal = *number,
    }
    let given = library_values(&book, &cells);
    compared("sheet_values", outcome(&wanted), &[(before, &book[..])], (expected, held), (given, content(&cells)))
}

pub fn compare_sheet(rng: &mut Random) -> Compared {
    let (book, _) = files(rng);
    let cells = lists(rng);
    let steps = if rng.one_in(4) { rng.of(&[0, 1, 360, 361, 65_537]) } else { 1 + rng.below(360) as u32 };
    let tolerance = rng.of(&[0, 1, 1_024_000_000, 1_024_000_001]);
    let (before, held) = (lent("book", &book), content(&cells));
    let wanted = sheet(&book, &cells, steps, tolerance);
    let mut expected = Sheet { refusal: 0, length: 0, bytes: [0; 144] };
    match &wanted {
        Ok(bytes) => {
            expected.length = bytes.len();
            expected.bytes[..bytes.len()].copy_from_slice(bytes);
            // The sheet is one for this book.
            assert!(reference::read_files(Default::default(), &book, bytes).is_ok());
        }
        Err(number) => expected.refusal = *number,
    }
    let given = library_sheet(&book, &cells, steps, tolerance);
    compared("scale_sheet", outcome(&wanted), &[(before, &book[..])], (expected, held), (given, content(&cells)))
}
