//! Tests of an update: its versions, sizes, sums and flags.

use super::{verdict, write};
use crate::make::{self, Recipe};
use crate::update::{number, sizes, Fault, Update};

#[test]
fn both_versions_must_be_1() {
    for value in [0, 2, 0x101, 0x0100_0001, 0x8000_0001, 0xFFFF_FFFF] {
        let mut version = Recipe::new(8, &[(0x650, 2)], 2048);
        version.version = value;
        let mut loader = Recipe::new(8, &[(0x650, 2)], 2048);
        loader.loader = value;
        for mut recipe in [version, loader] {
            assert_eq!(verdict(&recipe.build()), 0x9500);
            // The header is judged before the sums.
            recipe.wrong.total = 1;
            assert_eq!(verdict(&recipe.build()), 0x9500);
        }
    }
}

#[test]
fn the_count_field_is_judged_whole() {
    for (count, ax) in [
        (2, 0),
        (0, 0x9500),
        (1, 0x9500),
        (3, 0x9500),
        (0x102, 0x9500),
    ] {
        let mut recipe = Recipe::new(1, &[(0x650, 2), (0x651, 2), (0x652, 2)], 2048);
        recipe.count = count;
        assert_eq!(verdict(&recipe.build()), ax);
    }
}

#[test]
fn a_table_without_entries_breaks_a_size_rule() {
    assert_eq!(sizes(1980, 2048), None);
    let mut recipe = Recipe::new(1, &[(0x650, 2)], 2048);
    recipe.data_field = 1980;
    assert_eq!(verdict(&recipe.build()), 0x9500);
}

#[test]
fn data_size_0_means_2048_bytes() {
    for total_field in [0, 1, 1024, 4096, 0xFFFF_FFFF] {
        let mut recipe = Recipe::short(1, 0x650, 2);
        recipe.total_field = total_field;
        let update = recipe.build();
        assert_eq!(verdict(&update), 0);
        assert_eq!(verdict(&update[..2047]), 0x9500);
        assert_eq!(verdict(&update[..1024]), 0x9500);
        assert_eq!(sizes(0, total_field), sizes(2000, 2048), "{total_field}");
    }
    let written_out = sizes(2000, 2048).unwrap();
    assert_eq!((written_out.data, written_out.total), (2000, 2048));
}

#[test]
fn the_size_rules_are_as_many_as_document_01_says() {
    // Without a table every kilobyte; with n entries every D from 4 to 32,700 - 12n.
    let mut good = [0; 65];
    for total in 0..=33_792u32 {
        for data in total.saturating_sub(900).max(1)..=total {
            if let Some(sizes) = sizes(data, total) {
                good[sizes.entries as usize] += 1;
            }
        }
    }
    assert_eq!(good[0], 32);
    for (entries, good) in good.iter().enumerate().skip(1) {
        assert_eq!(*good, (32_700 - 12 * entries) / 4, "{entries} entries");
    }
}

#[test]
fn the_lent_length_is_judged_against_t() {
    let update = Recipe::new(8, &[(0x650, 2)], 3072).build();
    assert_eq!(verdict(&update), 0);
    assert_eq!(verdict(&update[..3071]), 0x9500);
    assert_eq!(verdict(&update[..48]), 0x9500);
    assert_eq!(verdict(&update[..47]), 0x9500);
    assert_eq!(verdict(&[]), 0x9500);
    // Bytes behind T are neither judged nor stored.
    let mut longer = update.clone();
    longer.extend([0x77; 1500]);
    let answer = write(&make::unused(3), &[(0x650, 1)], &longer);
    assert_eq!(answer.ax, 0);
    assert!(answer.store == make::store(3, &[(0, &update)]));
}

#[test]
fn each_sum_is_judged() {
    let recipe = Recipe::new(8, &[(0x650, 2), (0x651, 2), (0x652, 0)], 2048);
    assert_eq!(verdict(&recipe.build()), 0);
    let mut total = recipe.clone();
    total.wrong.total = 1;
    let mut table = recipe.clone();
    table.wrong.table = 0x8000_0000;
    let mut first = recipe.clone();
    first.wrong.entry = Some((0, 1));
    let mut last = recipe;
    last.wrong.entry = Some((1, 0xFFFF_FFFF));
    for wrong in [total, table, first, last] {
        let bytes = wrong.build();
        assert_eq!(Update::parse(&bytes).unwrap_err(), Fault::Sums);
        assert_eq!(verdict(&bytes), 0x9600);
    }
}

#[test]
fn no_byte_of_an_update_is_left_out_of_its_sums() {
    let good = Recipe::new(8, &[(0x650, 2), (0x651, 2)], 2048).build();
    let mut bytes = good.clone();
    for at in 0..2048 {
        for bit in [0x01, 0x80] {
            bytes[at] ^= bit;
            let fault = Update::parse(&bytes).expect_err("a changed byte");
            // The versions, the size fields and the table's count are judged before.
            let header = [0..4, 20..24, 28..36, 2016..2020];
            let header = header.iter().any(|part| part.contains(&at));
            assert_eq!(fault == Fault::Header, header, "byte {at}");
            bytes[at] = good[at];
        }
    }
}

#[test]
fn reserved_bytes_and_date_may_hold_anything() {
    let mut recipe = Recipe::new(8, &[(0x650, 2), (0x651, 2)], 2048);
    recipe.reserved = [0xEE; 12];
    recipe.table_reserved = [0xDD; 12];
    recipe.date = 0xFFFF_FFFF;
    assert_eq!(verdict(&recipe.build()), 0);
}

#[test]
fn only_the_low_eight_flag_bits_cover() {
    let high = Recipe::short(8, 0x650, 0xFFFF_FF00).build();
    assert_eq!(verdict(&high), 0x9400);
    let both = Recipe::short(8, 0x650, 0xFFFF_FF02).build();
    let answer = write(&make::unused(1), &[(0x650, 1)], &both);
    assert_eq!((answer.ax, number(&answer.store, 24)), (0, 0xFFFF_FF02));
    let entry = Recipe::new(8, &[(0x999, 0), (0x650, 2)], 2048).build();
    assert_eq!(verdict(&entry), 0);
}
