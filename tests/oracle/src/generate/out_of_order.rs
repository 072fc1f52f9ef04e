//! Tables out of number order, aimed at refusal 21.

use super::wild;
use super::word_faults::{refused_word, with_any_field};
use crate::limits;
use crate::random::Random;
use crate::syntax::Sheet;
use crate::write;

/// The words of a set with its tables in another order. Often the rows after the table word that is refused are wrong too:
/// they are not read.
pub fn words(random: &mut Random, sheet: Sheet) -> Vec<u32> {
    let mut words = write::sheet(&tables(random, sheet));
    if let Some(at) = refused_word(&words).filter(|_| random.chance(40)) {
        spoil_rows(random, &mut words, at + 1);
    }
    words
}

/// Two neighbours that change places, one table moved, any order, or a table that comes too early and again in its place.
pub fn tables(random: &mut Random, mut sheet: Sheet) -> Sheet {
    let tables = &mut sheet.tables;
    let count = tables.len();
    if count < 2 {
        return sheet;
    }
    let at = random.between(1, count - 1);
    match random.below(6) {
        0 | 1 => tables.swap(at - 1, at),
        2 | 3 => {
            let table = tables.remove(at);
            tables.insert(random.below(at), table);
        }
        4 => random.shuffle(tables),
        _ => {
            let early = tables[at].clone();
            tables.insert(random.below(at), early);
        }
    }
    sheet
}

/// The rows of a table, from its first row word on, made wrong: an early end, another word, a field out of range, a row or
/// a level of depth too many.
fn spoil_rows(random: &mut Random, words: &mut Vec<u32>, first: usize) {
    match random.below(5) {
        0 => words.truncate(first + random.below(2)),
        1 => words[first + random.below(2)] = wild::noise_word(random),
        2 => words[first] = with_any_field(random, words[first]),
        3 => {
            let rows = [words[first], write::FALSE].repeat(limits::ROWS);
            words.splice(first..first, rows);
        }
        _ => {
            words.splice(first + 1..first + 1, [write::OR; limits::DEPTH]);
        }
    }
}
