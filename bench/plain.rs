//! The search in plain Rust, one pass over the book a step: what the benchmark measures the library against.
//! Files in, reply out, with the same checks as the library.

use crate::Reply;

fn u16_at(bytes: &[u8], at: usize) -> usize {
    usize::from(u16::from_le_bytes([bytes[at], bytes[at + 1]]))
}

fn u32_at(bytes: &[u8], at: usize) -> u32 {
    u32::from_le_bytes([bytes[at], bytes[at + 1], bytes[at + 2], bytes[at + 3]])
}

pub fn values(body: &[u8]) -> impl Iterator<Item = i32> + '_ {
    body.chunks_exact(2).map(|two| i32::from(i16::from_le_bytes([two[0], two[1]])))
}

fn in_range(body: &[u8]) -> bool {
    values(body).all(|v| (-2000..=2000).contains(&v))
}

pub struct Book<'a> {
    pub boats: usize,
    pub columns: usize,
    pub body: &'a [u8],
}

pub struct Sheet<'a> {
    pub steps: u32,
    pub tolerance: u64,
    pub body: &'a [u8],
}

pub fn read_book(book: &[u8]) -> Result<Book<'_>, u32> {
    if book.len() < 12 || book.len() > 40_000 {
        return Err(1);
    }
    let end = book.len() - 12;
    if &book[end + 8..] != b"WBK1" {
        return Err(2);
    }
    let boats = u16_at(book, end + 4);
    if boats < 1 || boats > 256 {
        return Err(3);
    }
    let columns = u16_at(book, end + 6);
    if columns < 1 || columns > 64 {
        return Err(4);
    }
    let back = u32_at(book, end) as usize;
    if back != 2 * boats * columns || back > end {
        return Err(5);
    }
    let body = &book[end - back..end];
    if !in_range(body) {
        return Err(6);
    }
    Ok(Book { boats, columns, body })
}

pub fn read_sheet(sheet: &[u8], columns: usize) -> Result<Sheet<'_>, u32> {
    if sheet.len() < 16 || sheet.len() > 40_000 {
        return Err(11);
    }
    let end = sheet.len() - 16;
    if &sheet[end + 12..] != b"WSH1" {
        return Err(12);
    }
    if u16_at(sheet, end + 4) != columns {
        return Err(13);
    }
    let steps = u16_at(sheet, end + 6) as u32;
    if steps < 1 || steps > 360 {
        return Err(14);
    }
    let tolerance = u32_at(sheet, end + 8);
    if tolerance > 1_024_000_000 {
        return Err(15);
    }
    let back = u32_at(sheet, end) as usize;
    if back != 2 * columns || back > end {
        return Err(16);
    }
    let body = &sheet[end - back..end];
    if !in_range(body) {
        return Err(17);
    }
    Ok(Sheet { steps, tolerance: u64::from(tolerance), body })
}

/// The inner product of a residual and the values of a row.
fn inner(r: &[i32], row: &[u8]) -> i64 {
    r.iter().zip(values(row)).map(|(x, v)| i64::from(*x) * i64::from(v)).sum()
}

/// Of the boats of least score the lowest-numbered that holds shares, else the lowest-numbered; and that score.
fn least(r: &[i32], book: &Book, shares: &[u16; 256]) -> (usize, i64) {
    let mut best = 0;
    let mut score = i64::MAX;
    for (boat, row) in book.body.chunks_exact(2 * book.columns).enumerate() {
        let s = inner(r, row);
        if s < score || (s == score && shares[best] == 0 && shares[boat] != 0) {
            best = boat;
            score = s;
        }
    }
    (best, score)
}

/// Moves a residual by k times a row less the target.
fn step(r: &mut [i32], row: &[u8], target: &[u8], k: i32) {
    for ((x, v), u) in r.iter_mut().zip(values(row)).zip(values(target)) {
        *x += k * (v - u);
    }
}

#[inline(never)]
pub fn search(book: &[u8], sheet: &[u8], slots: &mut [u16]) -> Reply {
    let refused = |refusal| Reply { refusal, ..Reply::default() };
    let book = match read_book(book) {
        Ok(book) => book,
        Err(number) => return refused(number),
    };
    let sheet = match read_sheet(sheet, book.columns) {
        Ok(sheet) => sheet,
        Err(number) => return refused(number),
    };
    if slots.len() < book.boats {
        return refused(21);
    }
    let mut shares = [0u16; 256];
    let mut residual = [0i32; 64];
    let r = &mut residual[..book.columns];
    let row = |boat: usize| &book.body[2 * boat * book.columns..2 * (boat + 1) * book.columns];
    step(r, row(0), sheet.body, 1);
    let (mut best, _) = least(r, &book, &shares);
    r.fill(0);
    let mut t = 0u32;
    loop {
        t += 1;
        shares[best] += t as u16;
        step(r, row(best), sheet.body, t as i32);
        let (next, score) = least(r, &book, &shares);
        best = next;
        let w = i64::from(t) * i64::from(t + 1) / 2;
        let e: i64 = r.iter().map(|x| i64::from(*x) * i64::from(*x)).sum();
        // <r,y> = E + W <r,u>
        let g = e + w * (inner(r, sheet.body) - score);
        let limit = sheet.tolerance as i64 * w * w;
        let (verdict, floor, shortfall) = if e <= limit {
            (1, 0, 0)
        } else if e > g && i128::from(e - g) * i128::from(e - g) > i128::from(limit) * i128::from(e) {
            (2, e - 2 * g, 0)
        } else if t == sheet.steps {
            (3, 0, (e - limit) as u64)
        } else {
            continue;
        };
        slots[..book.boats].copy_from_slice(&shares[..book.boats]);
        return Reply {
            refusal: 0,
            verdict,
            steps: t,
            weight: w as u32,
            distance: e as u64,
            gap: g as u64,
            floor,
            shortfall,
        };
    }
}
