//! Spent runs worked over through the library and through the reference: with and without a released set, with factors, moves allowed at and
//! past their limits, buffers next to the length of the card.

use crate::random::Random;
use crate::reference::{self, Answer, Handed, Problem, Test, Verdict};
use crate::terms::Terms;
use crate::{called, compared, files_for, lent, length_near, outcome_name, put, reply_of, sizes, CardReply, Compared, GUARD};

/// The shares after at most so many moves, every score anew from the shares before each.
fn worked(problem: &Problem, mut shares: Vec<u16>, moves: u32) -> Vec<u16> {
    for _ in 0..moves {
        let holding: Vec<(usize, i128)> = problem.scores(&shares).into_iter().filter(|(boat, _)| shares[*boat] > 0).collect();
        let greatest = holding.iter().map(|(_, score)| *score).max().unwrap();
        let least = holding.iter().map(|(_, score)| *score).min().unwrap();
        let first = |wanted: i128| holding.iter().find(|(_, score)| *score == wanted).unwrap().0;
        let (from, to) = (first(greatest), first(least));
        if greatest == least {
            return shares;
        }
        // The whole number below the exact best amount, and one more where what is left of it is above a half.
        let apart = problem.squared_distance(from, to);
        let below = (greatest - least) / apart;
        let nearest = if 2 * (greatest - least - below * apart) > apart { below + 1 } else { below };
        let amount = nearest.min(i128::from(shares[from])) as u16;
        if amount == 0 {
            return shares;
        }
        shares[from] -= amount;
        shares[to] += amount;
    }
    shares
}

/// The card of a call that is not refused by its files, set, run or moves, with its answer; else the number.
fn worked_card(handed: Handed, book: &[u8], sheet: &[u8], moves: u32) -> Result<(Answer, Vec<u8>), u32> {
    let problem = reference::read_files(handed, book, sheet)?;
    let (run, shares) = problem.run();
    if !matches!(run.verdict, Verdict::Spent(_)) {
        return Err(53);
    }
    if !(1..=1000).contains(&moves) {
        return Err(54);
    }
    let shares = worked(&problem, shares, moves);
    let answer = problem.answer_of(Test::Sharper, problem.steps(), &shares).unwrap();
    Ok((answer, problem.answer_card(Test::Sharper, &answer, &shares)))
}

/// Whether the search of accepted files ends Spent.
fn ends_spent(handed: Handed, book: &[u8], sheet: &[u8]) -> bool {
    reference::read_files(handed, book, sheet).is_ok_and(|problem| matches!(problem.run().0.verdict, Verdict::Spent(_)))
}

/// A tolerance at which the result of a Spent run is just Within, or not any more, or just Beyond.
fn tolerance(rng: &mut Random, problem: &Problem) -> u64 {
    let shares = worked(problem, problem.run().1, 1000);
    let (e, g) = problem.distance_and_gap(&shares);
    let square = problem.weight(problem.steps()).pow(2);
    let near = if e > g && !rng.one_in(3) { ((e - g) * (e - g) - 1) / e / square } else { e / square + i128::from(rng.between(0, 1)) };
    near as u64
}

/// A book and a sheet, those that are accepted mostly drawn again until the search ends Spent.
fn files(rng: &mut Random, size: (usize, usize, u16), handed: Handed) -> (Vec<u8>, Vec<u8>) {
    let (mut book, mut sheet) = files_for(rng, size, handed);
    if reference::read_files(handed, &book, &sheet).is_err() {
        return (book, sheet);
    }
    for _ in 0..8 {
        if rng.one_in(2) {
            put(&mut sheet, 8, 4, 0);
        }
        if ends_spent(handed, &book, &sheet) {
            let problem = reference::read_files(handed, &book, &sheet).unwrap();
            if !rng.one_in(3) {
                let near = tolerance(rng, &problem);
                put(&mut sheet, 8, 4, near);
            }
            break;
        }
        (book, sheet) = files_for(rng, size, handed);
    }
    (book, sheet)
}

pub fn compare_work_over(rng: &mut Random) -> Compared {
    let size = sizes(rng);
    let terms = Some(Terms::drawn_without_table(rng, size.0));
    let handed = terms.as_ref().unwrap().handed();
    let (book, sheet) = files(rng, size, handed);
    let some = 1 + rng.below(60) as u32;
    let moves = rng.of(&[1, 1, 2, 3, some, some, some, 999, 1000, 1000, 1001, 0, u32::MAX]);
    let found = worked_card(handed, &book, &sheet, moves);
    let needed = found.as_ref().map_or(48, |(_, card)| card.len());
    let length = length_near(rng, needed);
    let whole = rng.bytes(length + 2 * GUARD);
    let mut wanted = whole.clone();
    let outcome = match found {
        Ok((_, card)) if length < card.len() => Err(22),
        Ok((answer, card)) => {
            wanted[GUARD..GUARD + card.len()].copy_from_slice(&card);
            Ok((answer, card.len()))
        }
        Err(number) => Err(number),
    };
    let expected = CardReply {
        reply: reply_of(&outcome.map(|(answer, _)| answer)),
        bytes: outcome.map_or(0, |(_, bytes)| bytes),
    };
    let before = (lent("book", &book), lent("sheet", &sheet));
    let given = called(rng, &terms, &book, &sheet, |book, sheet| {
        let mut given = whole.clone();
        let reply = terms.as_ref().unwrap().work_over(book, sheet, moves, &mut given[GUARD..GUARD + length]);
        (reply, given)
    });
    let files = [(before.0, &book[..]), (before.1, &sheet[..])];
    compared("work_over", outcome_name(&expected.reply), &files, (expected, wanted), given)
}
