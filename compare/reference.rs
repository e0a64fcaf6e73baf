//! A second implementation of the files, the search, the card and the listing, which compare/main.rs sets against the
//! library. It is written from the definitions of the formats and the method and takes the plainest way: 128-bit integers,
//! every quantity computed anew after each step from the shares alone.

use std::sync::atomic::{AtomicU64, Ordering};

const MOST_BYTES: usize = 40_000;

/// How many picks went to a boat that held shares before a lower-numbered one of the same score that held none.
pub static TIES: AtomicU64 = AtomicU64::new(0);

/// The verdict of a run and what it carries.
#[derive(Clone, Copy, PartialEq, Debug)]
pub enum Verdict {
    Within,
    Beyond(i128),
    Spent(i128),
}

impl Verdict {
    pub fn number(self) -> u16 {
        match self {
            Verdict::Within => 1,
            Verdict::Beyond(_) => 2,
            Verdict::Spent(_) => 3,
        }
    }

    fn word(self) -> &'static str {
        match self {
            Verdict::Within => "within",
            Verdict::Beyond(_) => "beyond",
            Verdict::Spent(_) => "spent",
        }
    }
}

/// What says Beyond: the former test, of cards with the letters WCD1, or the sharper, of runs and of cards with WCD2.
#[derive(Clone, Copy, PartialEq, Debug)]
pub enum Test {
    Former,
    Sharper,
}

impl Test {
    fn letters(self) -> &'static [u8; 4] {
        match self {
            Test::Former => b"WCD1",
            Test::Sharper => b"WCD2",
        }
    }

    /// E - 2 G above the limit; or E above G and (E - G)² above the limit times E.
    fn holds(self, limit: i128, e: i128, g: i128) -> bool {
        match self {
            Test::Former => e - 2 * g > limit,
            Test::Sharper => e > g && (e - g) * (e - g) > limit * e,
        }
    }
}

/// Steps used, W, E, G and the verdict.
#[derive(Clone, Copy, PartialEq, Debug)]
pub struct Answer {
    pub steps: usize,
    pub weight: i128,
    pub distance: i128,
    pub gap: i128,
    pub verdict: Verdict,
}

/// What a caller may hand in beside the files: a table of shares and a released set.
#[derive(Clone, Copy, Default)]
pub struct Handed<'a> {
    pub table: Option<&'a [u16]>,
    pub released: Option<&'a [u8; 32]>,
}

/// What an accepted call is about.
pub struct Problem {
    pub rows: Vec<Vec<i128>>,
    /// The boats that may be used, ascending.
    pub usable: Vec<usize>,
    pub target: Vec<i128>,
    pub factors: Vec<i128>,
    /// The shares that the steps give, one a step that may be taken.
    pub schedule: Vec<u16>,
    pub tolerance: i128,
}

fn unsigned(bytes: &[u8]) -> u64 {
    bytes.iter().rev().fold(0, |n, b| n * 256 + u64::from(*b))
}

fn signed16(bytes: &[u8]) -> i128 {
    i128::from(i16::from_le_bytes([bytes[0], bytes[1]]))
}

fn in_range(v: &i128) -> bool {
    (-2000..=2000).contains(v)
}

/// The rows of a fleet book, or the number that refuses it.
pub fn read_book(book: &[u8]) -> Result<Vec<Vec<i128>>, u32> {
    if book.len() < 12 || book.len() > MOST_BYTES {
        return Err(1);
    }
    let (before, trailer) = book.split_at(book.len() - 12);
    if &trailer[8..] != b"WBK1" {
        return Err(2);
    }
    let boats = unsigned(&trailer[4..6]) as usize;
    if boats == 0 || boats > 256 {
        return Err(3);
    }
    let columns = unsigned(&trailer[6..8]) as usize;
    if columns == 0 || columns > 64 {
        return Err(4);
    }
    let back = unsigned(&trailer[..4]) as usize;
    if back != 2 * boats * columns || back > before.len() {
        return Err(5);
    }
    let values: Vec<i128> = before[before.len() - back..].chunks(2).map(signed16).collect();
    if !values.iter().all(in_range) {
        return Err(6);
    }
    Ok(values.chunks(columns).map(|row| row.to_vec()).collect())
}

/// A sheet.
struct Sheet {
    target: Vec<i128>,
    factors: Vec<i128>,
    steps: usize,
    tolerance: i128,
}

/// A sheet for a book of so many columns, or the number that refuses it.
fn read_sheet(sheet: &[u8], columns: usize) -> Result<Sheet, u32> {
    if sheet.len() < 16 || sheet.len() > MOST_BYTES {
        return Err(11);
    }
    let (before, trailer) = sheet.split_at(sheet.len() - 16);
    let factored = &trailer[12..] == b"WSH2";
    if !factored && &trailer[12..] != b"WSH1" {
        return Err(12);
    }
    if unsigned(&trailer[4..6]) as usize != columns {
        return Err(13);
    }
    let steps = unsigned(&trailer[6..8]) as usize;
    if steps == 0 || steps > 360 {
        return Err(14);
    }
    let tolerance = i128::from(unsigned(&trailer[8..12]));
    if tolerance > 1_024_000_000 {
        return Err(15);
    }
    let back = unsigned(&trailer[..4]) as usize;
    if back != if factored { 3 * columns } else { 2 * columns } || back > before.len() {
        return Err(16);
    }
    let (values, rest) = before[before.len() - back..].split_at(2 * columns);
    let target: Vec<i128> = values.chunks(2).map(signed16).collect();
    if !target.iter().all(in_range) {
        return Err(17);
    }
    let factors = if factored { rest.iter().map(|f| i128::from(*f)).collect() } else { vec![1; columns] };
    if !(1..=64).contains(&factors.iter().sum::<i128>()) {
        return Err(46);
    }
    Ok(Sheet { target, factors, steps, tolerance })
}

/// The shares of a lent table, or the number that refuses it.
fn read_table(table: &[u16]) -> Result<Vec<u16>, u32> {
    if table.is_empty() || table.len() > 360 {
        return Err(49);
    }
    let mut total = 0u64;
    for share in table.iter().map(|share| u64::from(*share)) {
        total += share;
        if share == 0 || share * share > 2 * total {
            return Err(50);
        }
    }
    if total > 64_980 {
        return Err(51);
    }
    Ok(table.to_vec())
}

/// The boats of a released set, or the number that refuses it in a book of so many boats.
fn read_set(released: &[u8; 32], boats: usize) -> Result<Vec<usize>, u32> {
    let named: Vec<usize> = (0..256).filter(|boat| released[boat / 8] & (1 << (boat % 8)) != 0).collect();
    if named.is_empty() || named.iter().any(|boat| *boat >= boats) {
        return Err(52);
    }
    Ok(named)
}

/// The problem of what is handed in and the two files, or the number that refuses them.
pub fn read_files(handed: Handed, book: &[u8], sheet: &[u8]) -> Result<Problem, u32> {
    let mut schedule = match handed.table {
        Some(table) => read_table(table)?,
        None => (1..=360).collect(),
    };
    let rows = read_book(book)?;
    let usable = match handed.released {
        Some(released) => read_set(released, rows.len())?,
        None => (0..rows.len()).collect(),
    };
    let Sheet { target, factors, steps, tolerance } = read_sheet(sheet, rows[0].len())?;
    schedule.truncate(steps);
    Ok(Problem { rows, usable, target, factors, schedule, tolerance })
}

impl Problem {
    /// How many steps may be taken.
    pub fn steps(&self) -> usize {
        self.schedule.len()
    }

    /// W: the total of the shares that t steps give.
    pub fn weight(&self, t: usize) -> i128 {
        self.schedule[..t].iter().map(|share| i128::from(*share)).sum()
    }

    /// The sum over the columns of factor times product.
    fn inner(&self, a: &[i128], b: &[i128]) -> i128 {
        self.factors.iter().zip(a.iter().zip(b)).map(|(f, (x, y))| f * x * y).sum()
    }

    /// Sum over boats of share times row, and that less the total of the shares times the target.
    fn point_and_residual(&self, shares: &[u16]) -> (Vec<i128>, Vec<i128>) {
        let total: i128 = shares.iter().map(|q| i128::from(*q)).sum();
        let mut y = vec![0; self.target.len()];
        for (q, row) in shares.iter().zip(&self.rows) {
            if *q != 0 {
                for (p, v) in y.iter_mut().zip(row) {
                    *p += i128::from(*q) * v;
                }
            }
        }
        let r = y.iter().zip(&self.target).map(|(p, u)| p - total * u).collect();
        (y, r)
    }

    /// E and G of some shares.
    pub fn distance_and_gap(&self, shares: &[u16]) -> (i128, i128) {
        let total: i128 = shares.iter().map(|q| i128::from(*q)).sum();
        let (y, r) = self.point_and_residual(shares);
        let gap = self.usable.iter().map(|boat| {
            let direction: Vec<i128> = y.iter().zip(&self.rows[*boat]).map(|(p, x)| p - total * x).collect();
            self.inner(&r, &direction)
        });
        (self.inner(&r, &r), gap.max().unwrap())
    }

    /// The boats that may be used, ascending, each with its score under the residual of some shares.
    pub fn scores(&self, shares: &[u16]) -> Vec<(usize, i128)> {
        let residual = self.point_and_residual(shares).1;
        self.usable.iter().map(|boat| (*boat, self.inner(&residual, &self.rows[*boat]))).collect()
    }

    /// The squared distance of two boats.
    pub fn squared_distance(&self, one: usize, other: usize) -> i128 {
        let apart: Vec<i128> = self.rows[one].iter().zip(&self.rows[other]).map(|(v, s)| v - s).collect();
        self.inner(&apart, &apart)
    }

    /// Of the boats of least score in some direction the lowest-numbered that holds shares, else the lowest-numbered.
    fn pick(&self, direction: &[i128], shares: &[u16]) -> usize {
        let score = |boat: &usize| self.inner(direction, &self.rows[*boat]);
        let least = self.usable.iter().map(score).min().unwrap();
        let equal: Vec<usize> = self.usable.iter().copied().filter(|boat| score(boat) == least).collect();
        let holding = equal.iter().copied().find(|i| shares[*i] > 0);
        if holding.is_some_and(|i| i != equal[0]) {
            TIES.fetch_add(1, Ordering::Relaxed);
        }
        holding.unwrap_or(equal[0])
    }

    /// The verdict after t steps, none where the search goes on.
    fn judge(&self, test: Test, t: usize, weight: i128, e: i128, g: i128) -> Option<Verdict> {
        let limit = self.tolerance * weight * weight;
        if e <= limit {
            Some(Verdict::Within)
        } else if test.holds(limit, e, g) {
            Some(Verdict::Beyond(e - 2 * g))
        } else if t == self.steps() {
            Some(Verdict::Spent(e - limit))
        } else {
            None
        }
    }

    /// Step t, counted from 1: the first is scored from the lowest boat that may be used, the others from the residual.
    fn step(&self, t: usize, shares: &mut [u16]) {
        let direction = match t {
            1 => self.rows[self.usable[0]].iter().zip(&self.target).map(|(x, u)| x - u).collect(),
            _ => self.point_and_residual(shares).1,
        };
        let boat = self.pick(&direction, shares);
        shares[boat] += self.schedule[t - 1];
    }

    /// The shares after t steps, whatever the verdicts are.
    pub fn shares_after(&self, steps: usize) -> Vec<u16> {
        let mut shares = vec![0u16; self.rows.len()];
        for t in 1..=steps {
            self.step(t, &mut shares);
        }
        shares
    }

    /// The answer and the shares of a run.
    pub fn run(&self) -> (Answer, Vec<u16>) {
        let mut shares = vec![0u16; self.rows.len()];
        let mut t = 0;
        loop {
            t += 1;
            self.step(t, &mut shares);
            let weight = self.weight(t);
            let (distance, gap) = self.distance_and_gap(&shares);
            if let Some(verdict) = self.judge(Test::Sharper, t, weight, distance, gap) {
                return (Answer { steps: t, weight, distance, gap, verdict }, shares);
            }
        }
    }

    /// The answer that a card of the test's edition with these shares after t steps must carry, none where no verdict is due.
    pub fn answer_of(&self, test: Test, t: usize, shares: &[u16]) -> Option<Answer> {
        let weight = self.weight(t);
        let (distance, gap) = self.distance_and_gap(shares);
        let verdict = self.judge(test, t, weight, distance, gap)?;
        Some(Answer { steps: t, weight, distance, gap, verdict })
    }

    /// The card of the test's edition of some shares and fields.
    #[allow(clippy::too_many_arguments)]
    pub fn card(&self, test: Test, shares: &[u16], verdict: u16, steps: u16, tolerance: u32, distance: u64, gap: u64) -> Vec<u8> {
        let mut card = Vec::new();
        for (boat, share) in shares.iter().enumerate() {
            if *share != 0 {
                card.extend_from_slice(&(boat as u16).to_le_bytes());
                card.extend_from_slice(&share.to_le_bytes());
            }
        }
        let back = card.len() as u32;
        card.extend_from_slice(&back.to_le_bytes());
        card.extend_from_slice(&verdict.to_le_bytes());
        card.extend_from_slice(&steps.to_le_bytes());
        card.extend_from_slice(&tolerance.to_le_bytes());
        card.extend_from_slice(&distance.to_le_bytes());
        card.extend_from_slice(&gap.to_le_bytes());
        card.extend_from_slice(&(self.rows.len() as u16).to_le_bytes());
        card.extend_from_slice(&(self.target.len() as u16).to_le_bytes());
        card.extend_from_slice(test.letters());
        card
    }

    pub fn answer_card(&self, test: Test, answer: &Answer, shares: &[u16]) -> Vec<u8> {
        self.card(
            test,
            shares,
            answer.verdict.number(),
            answer.steps as u16,
            self.tolerance as u32,
            answer.distance as u64,
            answer.gap as u64,
        )
    }

    /// The answer and the shares of a card, or the number, 31 to 39, that refuses it.
    fn read_card(&self, card: &[u8]) -> Result<(Answer, Vec<u16>), u32> {
        if card.len() < 36 || card.len() > MOST_BYTES {
            return Err(31);
        }
        let (before, trailer) = card.split_at(card.len() - 36);
        let Some(test) = [Test::Former, Test::Sharper].into_iter().find(|test| &trailer[32..] == test.letters()) else {
            return Err(32);
        };
        if unsigned(&trailer[28..30]) as usize != self.rows.len() || unsigned(&trailer[30..32]) as usize != self.target.len() {
            return Err(33);
        }
        let verdict = unsigned(&trailer[4..6]) as u16;
        let t = unsigned(&trailer[6..8]) as usize;
        if !(1..=3).contains(&verdict) || t == 0 || t > self.steps() {
            return Err(34);
        }
        let back = unsigned(&trailer[..4]) as usize;
        if back == 0 || back % 4 != 0 || back > 4 * self.rows.len() || back > before.len() {
            return Err(35);
        }
        let mut shares = vec![0u16; self.rows.len()];
        let mut lowest = 0;
        let body = &before[before.len() - back..];
        for pair in body.chunks(4) {
            let boat = unsigned(&pair[..2]) as usize;
            let share = unsigned(&pair[2..]) as u16;
            if boat < lowest || !self.usable.contains(&boat) || share == 0 {
                return Err(36);
            }
            shares[boat] = share;
            lowest = boat + 1;
        }
        let total: i128 = shares.iter().map(|q| i128::from(*q)).sum();
        if body.len() / 4 > t || total != self.weight(t) {
            return Err(37);
        }
        let Some(answer) = self.answer_of(test, t, &shares) else {
            return Err(38);
        };
        if unsigned(&trailer[12..20]) as i128 != answer.distance
            || unsigned(&trailer[20..28]) as i128 != answer.gap
            || verdict != answer.verdict.number()
        {
            return Err(38);
        }
        if i128::from(unsigned(&trailer[8..12])) != self.tolerance {
            return Err(39);
        }
        Ok((answer, shares))
    }
}

/// The search: its answer or refusal; the share list is filled only where it answers.
pub fn search(handed: Handed, book: &[u8], sheet: &[u8], slots: &mut [u16]) -> Result<Answer, u32> {
    let problem = read_files(handed, book, sheet)?;
    if slots.len() < problem.rows.len() {
        return Err(21);
    }
    let (answer, shares) = problem.run();
    slots[..shares.len()].copy_from_slice(&shares);
    Ok(answer)
}

/// The writer: its answer and the bytes written, or its refusal; the buffer is written only where it answers.
pub fn write_card(handed: Handed, book: &[u8], sheet: &[u8], buffer: &mut [u8]) -> Result<(Answer, usize), u32> {
    let problem = read_files(handed, book, sheet)?;
    let (answer, shares) = problem.run();
    let card = problem.answer_card(Test::Sharper, &answer, &shares);
    if buffer.len() < card.len() {
        return Err(22);
    }
    buffer[..card.len()].copy_from_slice(&card);
    Ok((answer, card.len()))
}

/// The card check: the card's answer or its refusal; the share list is filled only where it accepts.
pub fn check_card(handed: Handed, book: &[u8], sheet: &[u8], card: &[u8], slots: &mut [u16]) -> Result<Answer, u32> {
    let problem = read_files(handed, book, sheet)?;
    if slots.len() < problem.rows.len() {
        return Err(21);
    }
    let (answer, shares) = problem.read_card(card)?;
    slots[..shares.len()].copy_from_slice(&shares);
    Ok(answer)
}

/// A sheet in its other edition, put at the front of a buffer: the edition and its bytes, or the refusal. 13 is for columns that no book has.
pub fn other_edition(sheet: &[u8], buffer: &mut [u8]) -> Result<(u32, usize), u32> {
    let own = if sheet.len() < 16 { 0 } else { unsigned(&sheet[sheet.len() - 12..sheet.len() - 10]) as usize };
    let columns = if (1..=64).contains(&own) { own } else { own + 1 };
    let factors = read_sheet(sheet, columns)?.factors;
    if factors.iter().any(|f| *f != 1) {
        return Err(47);
    }
    let trailer = &sheet[sheet.len() - 16..];
    let (edition, had, has, letters) = if trailer.ends_with(b"WSH2") { (1, 3, 2, b"WSH1") } else { (2, 2, 3, b"WSH2") };
    let mut made = sheet[..sheet.len() - 16 - had * columns + 2 * columns].to_vec();
    made.extend(vec![1u8; (has - 2) * columns]);
    made.extend_from_slice(&((has * columns) as u32).to_le_bytes());
    made.extend_from_slice(&trailer[4..12]);
    made.extend_from_slice(letters);
    if buffer.len() < made.len() || MOST_BYTES < made.len() {
        return Err(48);
    }
    buffer[..made.len()].copy_from_slice(&made);
    Ok((edition, made.len()))
}

/// The better of two cards, or the refusal: the number of the card, and offset and length of its body and trailer.
pub fn better_card(book: &[u8], sheet: &[u8], first: &[u8], second: &[u8]) -> Result<(u32, usize, usize), u32> {
    let a = check_card(Handed::default(), book, sheet, first, &mut [0; 256])?;
    let b = check_card(Handed::default(), book, sheet, second, &mut [0; 256])?;
    // E is below 2^62 and W² below 2^32, so the products are exact.
    let nearer = b.distance * a.weight * a.weight < a.distance * b.weight * b.weight;
    let (number, card) = if nearer { (2, second) } else { (1, first) };
    let trailer = card.len() - 36;
    let back = u32::from_le_bytes(card[trailer..trailer + 4].try_into().unwrap()) as usize;
    Ok((number, trailer - back, back + 36))
}

/// One book from two, or the refusal: the rows of the first, then each of the second that equals no row before it.
pub fn merged_book(first: &[u8], second: &[u8]) -> Result<Vec<u8>, u32> {
    let mut rows = read_book(first)?;
    let others = read_book(second)?;
    if rows[0].len() != others[0].len() {
        return Err(55);
    }
    for row in others {
        if !rows.contains(&row) {
            rows.push(row);
        }
    }
    if rows.len() > 256 {
        return Err(56);
    }
    let rows: Vec<Vec<i16>> = rows.iter().map(|row| row.iter().map(|v| *v as i16).collect()).collect();
    Ok(crate::encode::book_of(&rows))
}

/// The listing of a search, or the one line of its refusal.
pub fn listing(book: &[u8], sheet: &[u8]) -> Vec<u8> {
    let problem = match read_files(Handed::default(), book, sheet) {
        Ok(problem) => problem,
        Err(number) => return format!("refused {number}\n").into_bytes(),
    };
    let (answer, shares) = problem.run();
    let mut text = format!("fleet {} {}\n", problem.rows.len(), problem.target.len());
    text += &format!("sheet {} {}\n", problem.tolerance, problem.steps());
    text += &format!("{} {} {}\n", answer.verdict.word(), answer.steps, answer.weight);
    text += &format!("distance {}\ngap {}\n", answer.distance, answer.gap);
    for (boat, share) in shares.iter().enumerate().filter(|(_, q)| **q != 0) {
        text += &format!("boat {boat} {share}\n");
    }
    text.into_bytes()
}
