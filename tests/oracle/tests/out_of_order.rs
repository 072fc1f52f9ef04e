//! Sets out of number order come with everything that refusal 21 is tested before, and with everything it is tested after.

use oracle::check::typed_steps;
use oracle::generate::{aimed, nth_set};
use oracle::random::Random;
use oracle::word::{field, kind, ASSERTION, TABLE};
use oracle::{check_fast, read, Answer};

fn variable_defined(table: u32) -> u32 {
    field(table, 23, 16)
}

fn table_words(words: &[u32]) -> Vec<u32> {
    words.iter().copied().filter(|&word| kind(word) == TABLE).collect()
}

/// The same with its tables in number order, each with what follows up to the next table word or assertion.
fn in_number_order(words: &[u32]) -> Vec<u32> {
    let first = words.iter().position(|&word| kind(word) == TABLE).unwrap();
    let (variables, others) = words.split_at(first);
    let end = others.iter().position(|&word| kind(word) == ASSERTION).unwrap_or(others.len());
    let (tables, assertions) = others.split_at(end);
    let mut tables: Vec<&[u32]> = tables.chunk_by(|_, &next| kind(next) != TABLE).collect();
    tables.sort_by_key(|table| variable_defined(table[0]));
    [variables, &tables.concat(), assertions].concat()
}

/// Sets refused with 21, each with the index of the table word.
fn refused_sets() -> impl Iterator<Item = (Vec<u32>, usize)> {
    (0..2000).filter_map(|index| {
        let words = aimed::aimed_at(&mut Random::of_item(21, index), 21);
        let refusal = read(&words).err().filter(|refusal| refusal.number == 21)?;
        Some((words, refusal.carried[0] as usize))
    })
}

#[test]
fn at_the_second_table_and_at_later_ones() {
    let mut places = [0; 32];
    refused_sets().for_each(|(words, at)| places[table_words(&words[..at]).len()] += 1);
    assert!(places[1] >= 200 && places[2] >= 100 && places[3..].iter().sum::<u32>() >= 100, "{places:?}");
}

/// Had they been in number order, some would pass, and others would have each refusal of a word or of a set.
#[test]
fn before_every_later_fault() {
    let mut otherwise = [0; 22];
    for (words, _) in refused_sets() {
        let words = in_number_order(&words);
        if read(&words).map_or(true, |set| typed_steps(&set) <= 20_000) {
            otherwise[check_fast(&words).refusal_number() as usize] += 1;
        }
    }
    for number in [0].into_iter().chain(2..=14) {
        assert!(otherwise[number] >= 10, "refusal {number}: {otherwise:?}");
    }
}

/// What else is wrong with a table word whose variable is lower than that of the table before, or the same.
#[derive(Default, Debug)]
struct Beside {
    misplaced: u32,
    out_of_range: u32,
    monitored: u32,
    tabled: u32,
    same: u32,
    unfit: u32,
}

#[test]
fn after_every_fault_of_the_table_word() {
    let mut beside = Beside::default();
    for index in 0..8000 {
        let words = nth_set(22, index);
        let Answer::Refuse(refusal) = check_fast(&words) else { continue };
        let (2 | 3 | 5, Some(&word)) = (refusal.number, words.get(refusal.carried[0] as usize)) else { continue };
        let before = table_words(&words[..refusal.carried[0] as usize]);
        let before: Vec<u32> = before.into_iter().map(variable_defined).collect();
        let variable = variable_defined(word);
        if kind(word) != TABLE || before.last().is_none_or(|&last| variable > last) {
            continue;
        }
        *match refusal.number {
            2 => &mut beside.misplaced,
            3 => &mut beside.out_of_range,
            _ if before.last() == Some(&variable) => &mut beside.same,
            _ if before.contains(&variable) => &mut beside.tabled,
            _ if field(words[variable as usize], 27, 24) == 1 => &mut beside.monitored,
            _ => &mut beside.unfit,
        } += 1;
    }
    let Beside { misplaced, out_of_range, monitored, tabled, same, unfit } = beside;
    assert!([misplaced, out_of_range, monitored, tabled, same, unfit].iter().all(|&count| count >= 8), "{beside:?}");
}

/// In number order, a table may read the variable of a later one.
#[test]
fn dependency_order_often_goes_against_number_order() {
    let mut against = 0;
    for index in 0..2000 {
        let words = nth_set(23, index);
        if check_fast(&words).refusal_number() == 0 {
            let set = read(&words).unwrap();
            assert!(set.sheet.tables.is_sorted_by_key(|table| table.variable));
            against += usize::from(!set.order.is_sorted());
        }
    }
    assert!(against >= 200, "{against}");
}
