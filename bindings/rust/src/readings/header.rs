//! For tests: the constants of `township.h` that number the variants of an enum.

use std::fmt::Debug;

const HEADER: &str = include_str!(concat!(env!("TOWNSHIP_FILES"), "/include/township.h"));

/// Compares an enum with the constants whose names begin with a prefix: from 1, each has the name of the next variant,
/// such as `TOWNSHIP_ASSUMES_NOT_LAND` for `NotLand`.
pub(super) fn assert_numbered<T: Debug>(prefix: &str, variants: &[T]) {
    for (number, variant) in (1..).zip(variants) {
        let mut name = String::from(prefix);
        for letter in format!("{variant:?}").chars() {
            if letter.is_uppercase() {
                name.push('_');
            }
            name.push(letter.to_ascii_uppercase());
        }
        let line = format!("#define {name} {number}u ");
        assert!(HEADER.contains(&line), "the header has no line {line}");
    }
    let constants = HEADER.matches(&format!("#define {prefix}_")).count();
    assert_eq!(constants, variants.len());
}
