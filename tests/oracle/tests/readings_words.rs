//! The settled readings of documents 01 and 02 on reading a set, one by one.

mod common;

use common::{joined, pass, refuse, spliced, ASSERTION, SET_A};
use oracle::generate::bounds;
use oracle::write::{
    equals, input_event, row, table, test, variable, AND, ASSERTION as ASSERT, AT_F, AT_T, FALSE, NOT, OR, TRUE,
};
use oracle::{check, read, Answer};

const INPUT: u32 = 1;
const MODE: u32 = 2;
const TERM: u32 = 3;
const CONTROLLED: u32 = 4;

/// An input and a term of two values, variables 0 and 1.
const TWO: [u32; 2] = [variable_word(INPUT), variable_word(TERM)];
/// A table of variable 1 without class, by type.
const EVENT_TABLE: u32 = 0x2201_FF00;
const CONDITION_TABLE: u32 = 0x2301_FF00;
/// A row for every mode with value 0.
const ROW: u32 = 0x3FF0_0000;

const fn variable_word(class: u32) -> u32 {
    1 << 28 | class << 24 | 2 << 12
}

fn refused(words: &[u32]) -> Answer {
    let answer = check(words);
    assert_eq!(read(words).map_err(Answer::Refuse).err(), Some(answer.clone()));
    answer
}

/// Two variables, then a condition row with this formula.
fn condition_set(formula: &[u32]) -> Vec<u32> {
    joined(&[&TWO, &[CONDITION_TABLE, ROW], formula])
}

/// Two variables, then an event row with this formula.
fn event_set(formula: &[u32]) -> Vec<u32> {
    joined(&[&TWO, &[EVENT_TABLE, ROW], formula])
}

// Reading 1: word by word; of one word 2, then 4, then 3, then 5; the first word refused wins.

#[test]
fn reading_1_spare_bits_before_a_field_out_of_range() {
    assert_eq!(table(0, 1, 255), 0x2001_FF00);
    assert_eq!(refused(&joined(&[&TWO, &[0x2001_FF00]])), refuse(3, &[2]));
    assert_eq!(refused(&joined(&[&TWO, &[0x2001_FF01]])), refuse(2, &[2]));
}

#[test]
fn reading_1_a_limit_before_a_field_out_of_range() {
    let too_many = joined(&[&bounds::inputs(32), &[variable(0, 0, 0)]]);
    assert_eq!(refused(&too_many), refuse(4, &[32]));
    let assertions = joined(&[&[ASSERT, TRUE].repeat(32), &[0xA200_0000]]);
    assert_eq!(refused(&assertions), refuse(4, &[64]));
    let rows = joined(&[&bounds::constant_rows(3, 64), &[row(255, 9)]]);
    assert_eq!(refused(&rows), refuse(4, &[130]));
    let deep = condition_set(&joined(&[&[NOT; 16], &[test(9, 9, 9)]]));
    assert_eq!(refused(&deep), refuse(4, &[20]));
}

#[test]
fn reading_1_spare_bits_before_a_limit() {
    let rows = joined(&[&bounds::constant_rows(3, 64), &[row(255, 9) | 1 << 8]]);
    assert_eq!(refused(&rows), refuse(2, &[130]));
    let assertions = joined(&[&[ASSERT, TRUE].repeat(32), &[ASSERT | 1]]);
    assert_eq!(refused(&assertions), refuse(2, &[64]));
    let deep = condition_set(&joined(&[&[NOT; 16], &[equals(0, 0) | 1 << 15]]));
    assert_eq!(refused(&deep), refuse(2, &[20]));
}

#[test]
fn reading_1_a_field_out_of_range_before_an_unfit_table() {
    assert_eq!(refused(&joined(&[&TWO, &[table(2, 0, 255)]])), refuse(5, &[2]));
    assert_eq!(refused(&joined(&[&TWO, &[table(2, 0, 2)]])), refuse(3, &[2]));
    assert_eq!(refused(&joined(&[&TWO, &[table(2, 2, 255)]])), refuse(3, &[2]));
}

#[test]
fn reading_1_the_first_word_wins() {
    let unfit_first = joined(&[&TWO, &[table(2, 0, 255), 0]]);
    assert_eq!(refused(&unfit_first), refuse(5, &[2]));
    let range_first = [variable(0, 2, 0), 0];
    assert_eq!(refused(&range_first), refuse(3, &[0]));
}

#[test]
fn spare_bits_of_each_kind() {
    let event = joined(&[&TWO, &[EVENT_TABLE, ROW, AT_T, equals(0, 1), TRUE]]);
    let words = joined(&[&event, &[ASSERT, AND, OR, NOT, FALSE, test(0, 1, 0), TRUE]]);
    assert!(read(&words).is_ok());
    // Table, row, change, test, constant, assertion, and, or, not.
    let spare = [
        (2, 0x0000_00FF),
        (3, 0x000F_FF00),
        (4, 0x00FF_FFFF),
        (5, 0x0000_FF00),
        (6, 0x0FFF_FFFE),
        (7, 0x00FF_FFFF),
        (8, 0x0FFF_FFFF),
        (9, 0x0FFF_FFFF),
        (10, 0x0FFF_FFFF),
    ];
    for (index, mask) in spare {
        for bit in (0..28).map(|bit| 1 << bit) {
            let answer = check(&spliced(&words, index..index + 1, &[words[index] ^ bit]));
            let refused_here = answer == refuse(2, &[index as u64]);
            assert_eq!(refused_here, mask & bit != 0, "word {index} bit {bit:x}");
        }
    }
}

// Reading 2: a table without a row.

#[test]
fn reading_2_a_table_without_a_row() {
    assert_eq!(refused(&joined(&[&TWO, &[EVENT_TABLE]])), refuse(2, &[3]));
    assert_eq!(refused(&joined(&[&TWO, &[EVENT_TABLE, ASSERT, TRUE]])), refuse(2, &[3]));
    assert_eq!(refused(&joined(&[&TWO, &[EVENT_TABLE, CONDITION_TABLE]])), refuse(2, &[3]));
    // The table word itself comes first.
    assert_eq!(refused(&joined(&[&TWO, &[table(2, 0, 255)]])), refuse(5, &[2]));
}

// Reading 3: depth.

#[test]
fn reading_3_a_change_is_a_level_of_depth() {
    let chain = |nots: usize| joined(&[&[AT_T], &vec![NOT; nots], &[equals(0, 1), TRUE]]);
    assert!(read(&event_set(&chain(14))).is_ok());
    assert_eq!(refused(&event_set(&chain(15))), refuse(4, &[20]));
    let when = |nots: usize| joined(&[&[AT_F, TRUE], &vec![NOT; nots], &[equals(0, 1)]]);
    assert!(read(&event_set(&when(14))).is_ok());
    assert_eq!(refused(&event_set(&when(15))), refuse(4, &[21]));
    // A change at depth 16 has its conditions at 17.
    let ors = |count: usize| joined(&[&vec![OR; count], &[AT_T, TRUE, TRUE], &vec![FALSE; count]]);
    assert!(read(&event_set(&ors(14))).is_ok());
    assert_eq!(refused(&event_set(&ors(15))), refuse(4, &[20]));
}

#[test]
fn reading_3_the_word_at_depth_17_is_one_over() {
    assert!(read(&condition_set(&joined(&[&[NOT; 15], &[TRUE]]))).is_ok());
    assert_eq!(refused(&condition_set(&joined(&[&[NOT; 16], &[TRUE]]))), refuse(4, &[20]));
    // A kind not allowed there is found first.
    assert_eq!(refused(&condition_set(&joined(&[&[NOT; 16], &[AT_T]]))), refuse(2, &[20]));
    // An operator at depth 16 with nothing after it.
    assert_eq!(refused(&condition_set(&[NOT; 16])), refuse(2, &[20]));
    assert_eq!(refused(&condition_set(&[NOT; 17])), refuse(4, &[20]));
}

// Reading 4: codes without a meaning, type 1 without a class, initial values.

#[test]
fn reading_4_codes_without_a_meaning() {
    for code in 0..16 {
        let class = check(&[variable(code, 2, 0)]);
        let expected = if (1..=4).contains(&code) { u32::from(code != 1) * 6 } else { 3 };
        assert_eq!(class.refusal_number(), expected, "class {code}");
        let table_type = check(&joined(&[&TWO, &[table(code, 1, 255), ROW, FALSE]])).refusal_number();
        assert_eq!(table_type == 3, code == 0 || code > 3, "type {code}");
        let test_code = check(&condition_set(&[OR, TRUE, test(0, code, 0)])).refusal_number();
        assert_eq!(test_code, if code > 1 { 3 } else { 0 }, "test {code}");
        let change = check(&event_set(&[8 << 28 | code << 24, equals(0, 0), TRUE])).refusal_number();
        assert_eq!(change, if code == 1 || code == 2 { 0 } else { 3 }, "change {code}");
        let assertion = check(&[10 << 28 | code << 24, TRUE]).refusal_number();
        assert_eq!(assertion, if code == 1 { 0 } else { 3 }, "assertion {code}");
    }
}

#[test]
fn reading_4_type_1_without_a_class() {
    let mode = variable(MODE, 2, 0);
    assert_eq!(refused(&[mode, table(1, 0, 255), ROW, FALSE]), refuse(5, &[1]));
    assert_eq!(check(&[mode, table(1, 0, 0), ROW, FALSE]), pass(2, 0, 0));
}

#[test]
fn reading_4_initial_value_not_below_the_size() {
    for class in [INPUT, MODE, TERM, CONTROLLED] {
        assert_eq!(refused(&[variable(class, 3, 3)]), refuse(3, &[0]));
    }
    let settled = |initial| [variable(TERM, 3, initial), table(3, 0, 255), ROW, TRUE];
    assert_eq!(check(&settled(0)), pass(1, 0, 0));
    assert_eq!(refused(&settled(1)), refuse(7, &[0]));
    assert_eq!(refused(&settled(2)), refuse(7, &[0]));
    assert_eq!(refused(&settled(3)), refuse(3, &[0]));
}

// Reading 5: kinds in the place of an event and of a condition.

#[test]
fn reading_5_kinds_allowed_in_each_place() {
    for kind in 0..16 {
        let refused_here = |words: Vec<u32>| check(&words) == refuse(2, &[4]);
        let event = refused_here(event_set(&[kind << 28]));
        assert_eq!(event, ![7, 8, 9].contains(&kind), "kind {kind} as an event");
        let condition = refused_here(condition_set(&[kind << 28]));
        assert_eq!(condition, ![4, 5, 6, 7, 9].contains(&kind), "kind {kind} as a condition");
    }
}

#[test]
fn reading_5_kinds_that_are_never_in_a_set() {
    for index in 0..SET_A.len() {
        for kind in [0, 11, 12, 13, 14, 15] {
            let words = spliced(&SET_A, index..index + 1, &[kind << 28]);
            assert_eq!(refused(&words), refuse(2, &[index as u64]));
        }
    }
    let words = joined(&[&SET_A, &[input_event(0, 1)]]);
    assert_eq!(refused(&words), refuse(2, &[29]));
}

#[test]
fn reading_5_the_constant_true_as_an_event() {
    assert_eq!(refused(&event_set(&[TRUE])), refuse(3, &[4]));
    assert_eq!(refused(&event_set(&[OR, FALSE, TRUE])), refuse(3, &[6]));
    assert_eq!(check(&event_set(&[OR, FALSE, FALSE])), pass(4, 4, 0));
}

#[test]
fn parts_of_a_set_in_their_order() {
    let whole = event_set(&[FALSE]);
    assert_eq!(refused(&joined(&[&whole, &TWO])), refuse(2, &[5]));
    assert_eq!(refused(&joined(&[&whole, &[ASSERT, TRUE, EVENT_TABLE]])), refuse(2, &[7]));
    assert_eq!(refused(&joined(&[&whole, &[ASSERT, TRUE, ROW]])), refuse(2, &[7]));
    assert_eq!(refused(&joined(&[&TWO, &[ROW]])), refuse(2, &[2]));
    assert_eq!(refused(&joined(&[&whole, &[TRUE]])), refuse(2, &[5]));
    // A set may lack any of the three.
    assert_eq!(check(&[ASSERT, TRUE]), pass(1, 0, 1));
    assert_eq!(check(&[ASSERT, FALSE]), refuse(13, &[0]));
    assert_eq!(refused(&[EVENT_TABLE, ROW, FALSE]), refuse(3, &[0]));
}

#[test]
fn rows_and_tests_out_of_range() {
    let moded = |word| {
        joined(&[
            &[variable(MODE, 3, 0), variable(TERM, 2, 0), table(1, 0, 0), ROW, FALSE, table(2, 1, 0), word],
            &[FALSE],
        ])
    };
    assert_eq!(check(&moded(row(2, 1))), pass(6, 0, 0));
    assert_eq!(check(&moded(row(255, 1))), pass(6, 0, 0));
    assert_eq!(refused(&moded(row(3, 1))), refuse(3, &[6]));
    assert_eq!(refused(&moded(row(254, 1))), refuse(3, &[6]));
    assert_eq!(refused(&moded(row(2, 2))), refuse(3, &[6]));
    // Without a class every mode but 255 is out of range.
    assert_eq!(refused(&joined(&[&TWO, &[EVENT_TABLE, row(0, 0), FALSE]])), refuse(3, &[3]));
    assert_eq!(refused(&condition_set(&[equals(2, 0)])), refuse(3, &[4]));
    assert_eq!(refused(&condition_set(&[equals(255, 0)])), refuse(3, &[4]));
    assert_eq!(refused(&condition_set(&[test(0, 1, 2)])), refuse(3, &[4]));
}

#[test]
fn unfit_tables() {
    let three = [variable(MODE, 2, 0), variable(MODE, 2, 0), variable(TERM, 2, 0)];
    let with = |word| refused(&joined(&[&three, &[word, ROW, FALSE]]));
    assert_eq!(with(table(1, 2, 2)), refuse(5, &[3]));
    assert_eq!(with(table(2, 0, 0)), refuse(5, &[3]));
    assert_eq!(with(table(3, 0, 0)), refuse(5, &[3]));
    assert_eq!(with(table(1, 0, 1)), refuse(5, &[3]));
    assert_eq!(with(table(2, 2, 2)), refuse(5, &[3]));
    let twice = joined(&[&three, &[table(1, 0, 0), ROW, FALSE, table(1, 0, 0), ROW, FALSE]]);
    assert_eq!(refused(&twice), refuse(5, &[6]));
}

// Document 02, request 2.7: tables in number order; of a table word 2, then 3, then 5, then 21.

/// An input, a mode class and two terms.
const FOUR: [u32; 4] = [variable_word(INPUT), variable_word(MODE), variable_word(TERM), variable_word(TERM)];

/// A table of one of these three, by which it never changes.
fn never(variable: u32) -> [u32; 3] {
    let mode = variable == 1;
    [table(if mode { 1 } else { 2 }, variable, if mode { 1 } else { 255 }), ROW, FALSE]
}

#[test]
fn order_by_the_variable_defined() {
    let set = |variables: &[u32]| {
        let tables = variables.iter().flat_map(|&variable| never(variable));
        FOUR.into_iter().chain(tables).collect::<Vec<u32>>()
    };
    assert_eq!(check(&set(&[1, 2, 3])), pass(16, 16, 0));
    // At the second table and at the third.
    assert_eq!(refused(&set(&[2, 1, 3])), refuse(21, &[7]));
    assert_eq!(refused(&set(&[3, 1, 2])), refuse(21, &[7]));
    assert_eq!(refused(&set(&[3, 2, 1])), refuse(21, &[7]));
    assert_eq!(refused(&set(&[1, 3, 2])), refuse(21, &[10]));
    assert_eq!(refused(&set(&[2, 3, 1])), refuse(21, &[10]));
    // Rising, not one by one: what is left out is found after the words.
    assert_eq!(refused(&set(&[1, 3])), refuse(6, &[2]));
    assert_eq!(refused(&set(&[3, 1])), refuse(21, &[7]));
    // A first table has none before it.
    assert_eq!(check(&[variable(TERM, 2, 0), table(2, 0, 255), ROW, FALSE]), pass(2, 0, 0));
}

#[test]
fn order_after_2_and_3() {
    let after_3 = |word| refused(&joined(&[&FOUR, &never(3), &[word, ROW, FALSE]]));
    assert_eq!(after_3(table(2, 2, 255)), refuse(21, &[7]));
    for bit in 0..8 {
        assert_eq!(after_3(table(2, 2, 255) | 1 << bit), refuse(2, &[7]));
    }
    for table_type in [0, 4, 15] {
        assert_eq!(after_3(table(table_type, 2, 255)), refuse(3, &[7]));
    }
    assert_eq!(after_3(table(2, 2, 4)), refuse(3, &[7]));
    assert_eq!(after_3(table(2, 4, 255)), refuse(3, &[7]));
    // All at once.
    assert_eq!(after_3(table(0, 0, 4) | 1), refuse(2, &[7]));
    assert_eq!(after_3(table(0, 0, 4)), refuse(3, &[7]));
}

#[test]
fn order_after_5() {
    let after_3 = |word| refused(&joined(&[&FOUR, &never(3), &[word, ROW, FALSE]]));
    // Monitored; the type of another class; a class read that is no mode class or not the variable itself.
    let unfit = [
        table(2, 0, 255),
        table(3, 0, 1),
        table(2, 1, 1),
        table(3, 1, 255),
        table(1, 2, 2),
        table(2, 2, 0),
        table(3, 2, 3),
        table(1, 1, 255),
    ];
    for word in unfit {
        assert_eq!(after_3(word), refuse(5, &[7]), "{word:x}");
    }
    for fit in [table(1, 1, 1), table(2, 2, 255), table(2, 2, 1), table(3, 2, 1)] {
        assert_eq!(after_3(fit), refuse(21, &[7]), "{fit:x}");
    }
    // Tabled already: the same variable again, and a lower one.
    assert_eq!(after_3(table(2, 3, 255)), refuse(5, &[7]));
    assert_eq!(refused(&joined(&[&FOUR, &never(2), &never(3), &never(2)])), refuse(5, &[10]));
    assert_eq!(refused(&joined(&[&FOUR, &never(1), &never(3), &never(1)])), refuse(5, &[10]));
}

#[test]
fn order_before_the_rows_are_read() {
    let row_of_no_mode =
        [0x1100_2000, 0x1300_2000, 0x1300_2000, 0x2302_FF00, 0x3FF0_0000, 0x9000_0001, 0x2301_FF00, 0x3000_0005];
    assert_eq!(refused(&row_of_no_mode), refuse(21, &[6]));
    // What follows the table word, and the number it would have in number order.
    let followed: [(u32, Vec<u32>); 11] = [
        (2, vec![]),
        (2, vec![ASSERT, TRUE]),
        (2, vec![table(1, 1, 1), ROW, FALSE]),
        (2, vec![0]),
        (2, vec![ROW | 1 << 8, FALSE]),
        (2, vec![ROW, NOT, FALSE]),
        (3, vec![row(0, 0), FALSE]),
        (3, vec![row(255, 2), FALSE]),
        (3, vec![ROW, TRUE]),
        (4, [ROW, FALSE].repeat(65)),
        (4, joined(&[&[ROW], &[OR; 16], &[FALSE; 17]])),
    ];
    for (number, rows) in followed {
        let set = |first, second| joined(&[&FOUR, &never(first), &[table(2, second, 255)], &rows]);
        assert_eq!(refused(&set(2, 3)).refusal_number(), number, "{rows:x?}");
        assert_eq!(refused(&set(3, 2)), refuse(21, &[7]), "{rows:x?}");
    }
}

#[test]
fn order_where_the_first_word_wins() {
    // A row of the table before it, a table word after it, a table further down, an assertion.
    let wrong_row = [table(2, 3, 255), row(255, 2), FALSE];
    assert_eq!(refused(&joined(&[&FOUR, &wrong_row, &never(2)])), refuse(3, &[5]));
    assert_eq!(refused(&joined(&[&FOUR, &never(3), &never(2), &[table(2, 0, 255)]])), refuse(21, &[7]));
    assert_eq!(refused(&joined(&[&FOUR, &never(3), &never(2), &never(2)])), refuse(21, &[7]));
    assert_eq!(refused(&joined(&[&FOUR, &never(3), &never(2), &[ASSERT]])), refuse(21, &[7]));
    assert_eq!(refused(&joined(&[&FOUR, &[table(2, 0, 255)], &never(3), &never(2)])), refuse(5, &[4]));
}

#[test]
fn order_before_all_that_shows_after_the_words() {
    let (input, term, large) = (variable(INPUT, 2, 0), variable(TERM, 2, 0), variable(TERM, 256, 0));
    let held = |number| vec![table(2, number, 255), ROW, FALSE];
    let settled = |formula: &[u32]| joined(&[&[table(3, 1, 255), ROW], formula]);
    let twice = [ROW, AT_T, equals(0, 1), TRUE].repeat(2);
    // The number, the variables, the table of 1, what follows the table of 2.
    let sets: [(u32, [u32; 3], Vec<u32>, Vec<u32>); 9] = [
        (6, [term; 3], held(1), vec![]),
        (7, [input, variable(TERM, 2, 1), term], settled(&[TRUE]), vec![]),
        (8, [variable(INPUT, 256, 0), large, term], held(1), vec![]),
        (9, [input, term, term], settled(&[equals(1, 0)]), vec![]),
        (10, [input, term, term], settled(&[FALSE]), vec![]),
        (11, [input, term, term], settled(&[TRUE, ROW, TRUE]), vec![]),
        (12, [input, term, term], joined(&[&[table(2, 1, 255)], &twice]), vec![]),
        (13, [input, term, term], held(1), vec![ASSERT, FALSE]),
        (14, [input, term, term], held(1), vec![ASSERT, equals(0, 0)]),
    ];
    for (number, variables, table_of_1, after) in sets {
        assert_eq!(check(&joined(&[&variables, &table_of_1, &held(2), &after])).refusal_number(), number);
        assert_eq!(refused(&joined(&[&variables, &held(2), &table_of_1, &after])), refuse(21, &[6]), "{number}");
    }
}

// Reading 6: 6 over all variables, then 7, then 8, then 9.

#[test]
fn reading_6_order_after_the_words() {
    let always = |number| [table(3, number, 255), ROW, TRUE];
    // 7 at variable 0 and 6 at variable 1; the lowest 6 of two.
    let tabled = [variable(TERM, 2, 1), variable(TERM, 2, 0), variable(TERM, 2, 0)];
    assert_eq!(refused(&joined(&[&tabled, &always(0)])), refuse(6, &[1]));
    assert_eq!(refused(&joined(&[&tabled, &always(0), &always(1), &always(2)])), refuse(7, &[0]));
    // The lowest 7 of two.
    let two = [variable(TERM, 2, 0), variable(TERM, 2, 1), variable(TERM, 2, 1)];
    assert_eq!(refused(&joined(&[&two, &always(0), &always(1), &always(2)])), refuse(7, &[1]));
    // 8 at variable 2 and 7 at variable 3.
    let large = variable(INPUT, 256, 0);
    let many = [large, large, large, variable(TERM, 2, 1)];
    assert_eq!(refused(&joined(&[&many, &always(3)])), refuse(7, &[3]));
    // 9 at variable 3 and 8 at variable 2.
    let cyclic = [table(3, 3, 255), ROW, equals(3, 0)];
    let many = [large, large, large, variable(TERM, 2, 0)];
    assert_eq!(refused(&joined(&[&many, &cyclic])), refuse(8, &[2]));
    assert_eq!(
        refused(&joined(&[&[large, large, variable(TERM, 2, 0)], &[table(3, 2, 255), ROW, equals(2, 0)]])),
        refuse(9, &[2, 1])
    );
}

#[test]
fn reading_6_only_held_sizes_are_multiplied() {
    let large = variable(INPUT, 256, 0);
    let settled = variable(TERM, 256, 0);
    let always = |number| [table(3, number, 255), ROW, TRUE];
    let words = joined(&[&[large, settled, large, settled, variable(INPUT, 2, 0)], &always(1), &always(3)]);
    assert_eq!(refused(&words), refuse(8, &[4]));
    // The product of 32 sizes of 256 is 2 to the power 256.
    assert_eq!(refused(&[large; 32]), refuse(8, &[2]));
}

// Readings 7 and 8: reads and cycles.

#[test]
fn reading_7_a_type_3_table_reads_its_class() {
    let variables = [variable(INPUT, 2, 0), variable(MODE, 2, 0), variable(TERM, 2, 0)];
    let mode_table = [table(1, 1, 1), ROW, AT_T, equals(2, 1), TRUE];
    let settled = |class| [table(3, 2, class), ROW, TRUE];
    assert_eq!(refused(&joined(&[&variables, &mode_table, &settled(1)])), refuse(9, &[1, 2]));
    assert_eq!(check(&joined(&[&variables, &mode_table, &settled(255)])), pass(4, 4, 0));
    // The class of an event table and tests in d are of the past.
    let past_class = [table(2, 2, 1), row(1, 1), AT_T, equals(0, 1), equals(2, 0)];
    assert_eq!(check(&joined(&[&variables, &mode_table, &past_class])), pass(8, 8, 0));
}

#[test]
fn reading_7_reads_go_by_what_is_named() {
    let variables = [variable(INPUT, 2, 0), variable(TERM, 2, 0)];
    let without_effect = [table(3, 1, 255), ROW, OR, TRUE, equals(1, 0)];
    assert_eq!(refused(&joined(&[&variables, &without_effect])), refuse(9, &[1, 1]));
    let inside_an_or = [table(2, 1, 255), ROW, OR, FALSE, AT_F, AND, FALSE, equals(1, 0), TRUE];
    assert_eq!(refused(&joined(&[&variables, &inside_an_or])), refuse(9, &[1, 1]));
}

#[test]
fn reading_7_a_mode_class_that_tests_itself_inside_c() {
    let variables = [variable(INPUT, 2, 0), variable(MODE, 2, 0)];
    let inside_c = [table(1, 1, 1), ROW, AT_T, equals(1, 1), TRUE];
    assert_eq!(refused(&joined(&[&variables, &inside_c])), refuse(9, &[1, 1]));
    let inside_d = [table(1, 1, 1), ROW, AT_T, equals(0, 1), equals(1, 1)];
    assert_eq!(check(&joined(&[&variables, &inside_d])), pass(4, 4, 0));
}

/// Condition variables of which each reads those listed.
fn readers(reads: &[&[u32]]) -> Vec<u32> {
    let mut words = vec![variable(TERM, 2, 0); reads.len()];
    for (number, read) in reads.iter().enumerate() {
        words.extend([table(3, number as u32, 255), ROW]);
        for &other in *read {
            words.extend([AND, equals(other, 0)]);
        }
        words.push(TRUE);
    }
    words
}

#[test]
fn reading_8_the_cycle_shown() {
    // From 0 into the ring 1, 2: after 32 moves at 2.
    assert_eq!(refused(&readers(&[&[1], &[2], &[1]])), refuse(9, &[2, 2]));
    // Within the ring 0, 1, 2: after 32 moves at 2.
    assert_eq!(refused(&readers(&[&[1], &[2], &[0]])), refuse(9, &[2, 3]));
    // A lead of two: after 32 moves at 2 again, now of the ring 2, 3, 4.
    assert_eq!(refused(&readers(&[&[1], &[2], &[3], &[4], &[2]])), refuse(9, &[2, 3]));
    // Of two stuck variables read, the lowest; variables taken don't count.
    assert_eq!(refused(&readers(&[&[], &[0, 3, 2], &[1, 0], &[4], &[1]])), refuse(9, &[1, 2]));
    // Stuck, but not on a cycle: variable 0 leads to the one that reads itself.
    assert_eq!(refused(&readers(&[&[2], &[], &[2, 1]])), refuse(9, &[2, 1]));
}

#[test]
fn reading_8_a_ring_of_all_variables() {
    let next: Vec<[u32; 1]> = (0..32).map(|number| [(number + 1) % 32]).collect();
    let lists: Vec<&[u32]> = next.iter().map(|one| &one[..]).collect();
    assert_eq!(refused(&readers(&lists)), refuse(9, &[0, 32]));
    let next: Vec<[u32; 1]> = (0..31).map(|number| [(number + 1) % 31]).collect();
    let lists: Vec<&[u32]> = next.iter().map(|one| &one[..]).collect();
    assert_eq!(refused(&readers(&lists)), refuse(9, &[1, 31]));
}

#[test]
fn dependency_order_takes_the_lowest_again_and_again() {
    let set = read(&readers(&[&[3], &[], &[0], &[]])).unwrap();
    assert_eq!(set.order, [1, 3, 0, 2]);
    assert_eq!(read(&SET_A).unwrap().order, [0, 1, 2, 3]);
    assert_eq!(SET_A[ASSERTION], ASSERT);
}

#[test]
fn dependency_order_against_number_order() {
    let words = readers(&[&[1], &[2], &[]]);
    assert_eq!(read(&words).unwrap().order, [2, 1, 0]);
    assert_eq!(check(&words), pass(1, 0, 0));
    // The tables in dependency order.
    let in_dependency_order = joined(&[&words[..3], &words[13..], &words[8..13], &words[3..8]]);
    assert_eq!(refused(&in_dependency_order), refuse(21, &[6]));
}
