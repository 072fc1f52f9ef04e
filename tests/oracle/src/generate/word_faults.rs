//! Faults of single words, aimed at refusals 2, 3 and 5.

use super::wild;
use crate::random::Random;
use crate::read::read;
use crate::syntax::{Class, Sheet};
use crate::word::{self, field, kind};
use crate::write;
use std::collections::BTreeSet;

/// A word of another kind, a word too many or too few, an early end.
pub fn misplaced(random: &mut Random, mut words: Vec<u32>) -> Vec<u32> {
    if words.is_empty() {
        return words;
    }
    let at = random.below(words.len());
    match random.below(4) {
        0 => words[at] = (words[at] & 0x0FFF_FFFF) | (random.below(16) as u32) << 28,
        1 => words.truncate(at + 1),
        2 => words.insert(at, wild::noise_word(random)),
        _ => {
            words.remove(at);
        }
    }
    words
}

/// A spare bit set: any kind that has one, any word of that kind, any spare bit of it.
pub fn spare_bit(random: &mut Random, mut words: Vec<u32>) -> Vec<u32> {
    let has_spare = |kind: &u32| word::spare_bits(*kind) != 0;
    let kinds: BTreeSet<u32> = words.iter().map(|&word| kind(word)).filter(has_spare).collect();
    let kinds: Vec<u32> = kinds.into_iter().collect();
    if !kinds.is_empty() {
        let chosen = *random.pick(&kinds);
        let places: Vec<usize> = (0..words.len()).filter(|&at| kind(words[at]) == chosen).collect();
        let bits: Vec<u32> = (0..28).map(|bit| 1 << bit).filter(|bit| word::spare_bits(chosen) & bit != 0).collect();
        words[*random.pick(&places)] |= *random.pick(&bits);
    }
    words
}

/// A named field just past its range, or with any value.
pub fn out_of_range(random: &mut Random, sheet: &Sheet) -> Vec<u32> {
    let mut words = write::sheet(sheet);
    let edges = edges(sheet, &words);
    if !edges.is_empty() && random.chance(70) {
        let (at, word) = *random.pick(&edges);
        words[at] = word;
    } else if !words.is_empty() {
        let at = random.below(words.len());
        words[at] = with_any_field(random, words[at]);
    }
    words
}

fn fields(kind: u32) -> &'static [(u32, u32)] {
    match kind {
        word::VARIABLE => &[(27, 24), (23, 12), (11, 0)],
        word::TABLE => &[(27, 24), (23, 16), (15, 8)],
        word::ROW | word::INPUT_EVENT => &[(27, 20), (7, 0)],
        word::TEST => &[(27, 20), (19, 16), (7, 0)],
        word::CHANGE | word::ASSERTION => &[(27, 24)],
        word::CONSTANT => &[(0, 0)],
        _ => &[],
    }
}

fn with_field(word: u32, (high, low): (u32, u32), value: u32) -> u32 {
    let most = field(u32::MAX, high, low);
    (word & !(most << low)) | (value & most) << low
}

pub(super) fn with_any_field(random: &mut Random, word: u32) -> u32 {
    let fields = fields(kind(word));
    if fields.is_empty() {
        return word;
    }
    let (high, low) = *random.pick(fields);
    let most = field(u32::MAX, high, low);
    let bound = if random.chance(50) { most.min(8) } else { most };
    with_field(word, (high, low), random.value_below(bound + 1))
}

/// Every word of a set with one of its fields just past its range, by index.
fn edges(sheet: &Sheet, words: &[u32]) -> Vec<(usize, u32)> {
    let mut edges = Vec::new();
    // The table that the rows belong to.
    let mut table_word = 0;
    for (at, &word) in words.iter().enumerate() {
        if kind(word) == word::TABLE {
            table_word = word;
        }
        for (&place, bound) in fields(kind(word)).iter().zip(bounds_past(sheet, table_word, word)) {
            let edited = with_field(word, place, bound);
            if field(edited, place.0, place.1) == bound {
                edges.push((at, edited));
            }
        }
    }
    edges
}

/// For each field of a word the first value past its range. Where a constant stands for an event, that is true.
fn bounds_past(sheet: &Sheet, table_word: u32, word: u32) -> Vec<u32> {
    let count = sheet.variables.len() as u32;
    let size = |variable: u32| sheet.variables.get(variable as usize).map_or(0, |variable| variable.size);
    match kind(word) {
        word::VARIABLE => vec![5, if field(word, 27, 24) == 2 { 256 } else { 257 }, field(word, 23, 12)],
        word::TABLE => vec![4, count, count],
        word::ROW => vec![size(field(table_word, 15, 8)), size(field(table_word, 23, 16))],
        word::TEST => vec![count, 2, size(field(word, 27, 20))],
        word::CHANGE => vec![3],
        word::ASSERTION => vec![2],
        word::CONSTANT => vec![1],
        _ => vec![],
    }
}

/// A table word with another type, variable or class read, or a second table of a variable. In a set out of number order it
/// is the word that is refused for that.
pub fn unfit_table(random: &mut Random, mut sheet: Sheet) -> Vec<u32> {
    if sheet.tables.is_empty() {
        return write::sheet(&sheet);
    }
    if random.chance(15) {
        let again = random.pick(&sheet.tables).clone();
        let at = random.below(sheet.tables.len() + 1);
        sheet.tables.insert(at, again);
        return write::sheet(&sheet);
    }
    let mut words = write::sheet(&sheet);
    let places: Vec<usize> = (0..words.len()).filter(|&at| kind(words[at]) == word::TABLE).collect();
    let at = refused_word(&words).unwrap_or_else(|| *random.pick(&places));
    let count = sheet.variables.len() as u32;
    words[at] = match random.below(4) {
        0 => with_field(words[at], (27, 24), random.value_below(3) + 1),
        1 => {
            let any = random.value_below(count);
            let input = any_of(random, &sheet, Class::Monitored).filter(|_| random.chance(50));
            with_field(words[at], (23, 16), input.unwrap_or(any))
        }
        2 => with_field(words[at], (15, 8), if random.chance(20) { word::NONE } else { random.value_below(count) }),
        _ => with_field(words[at], (15, 8), any_of(random, &sheet, Class::ModeClass).unwrap_or(word::NONE)),
    };
    words
}

/// A variable of a class, if there is one.
fn any_of(random: &mut Random, sheet: &Sheet, class: Class) -> Option<u32> {
    let variables = 0..sheet.variables.len() as u32;
    let fit: Vec<u32> = variables.filter(|&variable| sheet.variables[variable as usize].class == class).collect();
    (!fit.is_empty()).then(|| *random.pick(&fit))
}

/// Another fault in the word that is refused already: of one word the refusals have an order.
pub fn second_fault(random: &mut Random, mut words: Vec<u32>) -> Vec<u32> {
    if let Some(at) = refused_word(&words) {
        let word = words[at];
        words[at] = if random.chance(60) { with_any_field(random, word) } else { word ^ 1 << random.below(28) };
    }
    words
}

/// The index of the word that is refused by itself, if there is one.
pub(super) fn refused_word(words: &[u32]) -> Option<usize> {
    let refusal = read(words).err().filter(|refusal| matches!(refusal.number, 2..=5 | 21))?;
    // An early end carries the length.
    Some(refusal.carried[0] as usize).filter(|&index| index < words.len())
}
