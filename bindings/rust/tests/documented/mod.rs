//! The refusals of `docs/REFUSALS.md`: the example of each row, as the input that it names.

use crate::samples::{EVEN_NOTES, TRACTS};
use std::iter;
use township::Refusal;

const REFUSALS: &str = include_str!(concat!(env!("TOWNSHIP_FILES"), "/docs/REFUSALS.md"));

/// An input with its refusal.
pub struct Example {
    pub refusal: Refusal,
    /// The refusal of a tract's description.
    pub inner: Option<Refusal>,
    pub given: Vec<u8>,
}

/// The examples in the sections with these headings.
pub fn examples(headings: &[&str]) -> Vec<Example> {
    let sections = REFUSALS
        .split("\n## ")
        .filter(|section| headings.iter().any(|heading| section.starts_with(heading)));
    let found: Vec<_> = sections
        .flat_map(str::lines)
        .filter_map(example_of)
        .collect();
    assert!(!found.is_empty(), "no examples: {headings:?}");
    found
}

/// The example of a line, if it is a row of a table of refusals. The cell before the last one has
/// the input, and after it ``: `refused 42 at 8` ``.
fn example_of(line: &str) -> Option<Example> {
    let row = line.strip_prefix("| ")?;
    row.split(' ').next()?.parse::<u32>().ok()?;
    let (input, answer) = row.rsplit(" | ").nth(1)?.split_once(": `refused ")?;
    let numbers: Vec<u32> = answer
        .split(|letter: char| !letter.is_ascii_digit())
        .filter_map(|digits| digits.parse().ok())
        .collect();
    let mut refusals = numbers.chunks_exact(2).map(|pair| Refusal {
        number: pair[0],
        at: pair[1],
    });
    let refusal = refusals.next()?;
    let sample = if refusal.number < 40 {
        EVEN_NOTES
    } else {
        TRACTS
    };
    Some(Example {
        refusal,
        inner: refusals.next(),
        given: given_by(input, sample),
    })
}

/// The input that an example names: a text, the sample with a record replaced or removed, or so many
/// of something.
fn given_by(words: &str, sample: &[u8]) -> Vec<u8> {
    if words == "an empty file" {
        return Vec::new();
    }
    if let Some(text) = in_backquotes(words) {
        return text.into();
    }
    if let Some(number) = words.strip_prefix("no record ") {
        return with_record(sample, number, None);
    }
    if let Some(record) = words.strip_prefix("record ") {
        let (number, text) = record.split_once(' ').expect("a number and a text");
        return with_record(sample, number, in_backquotes(text));
    }
    let (count, unit) = words.split_once(' ').expect("a number and a unit");
    so_many(count.replace(',', "").parse().expect("a number"), unit)
}

fn in_backquotes(text: &str) -> Option<&str> {
    text.strip_prefix('`')?.strip_suffix('`')
}

/// The sample with one record removed, or replaced, or added after the last one.
fn with_record(sample: &[u8], number: &str, record: Option<&str>) -> Vec<u8> {
    let index = number.parse::<usize>().expect("a number") - 1;
    let mut lines: Vec<_> = std::str::from_utf8(sample).unwrap().lines().collect();
    let end = lines.len().min(index + 1);
    lines.splice(index..end, record);
    (lines.join("\n") + "\n").into()
}

fn so_many(count: usize, unit: &str) -> Vec<u8> {
    match unit {
        "spaces" => vec![b' '; count],
        "line feeds" => vec![b'\n'; count],
        "tracts" => iter::once("name,description\n".to_owned())
            .chain((0..count).map(|tract| format!("{tract},\"sec. 8, {}.\"\n", place(tract))))
            .collect::<String>()
            .into(),
        _ => panic!("no input is made of: {unit}"),
    }
}

/// One of the smallest parts of a section, of which there are 1,024.
fn place(number: usize) -> String {
    let corners = ["NE1/4", "NW1/4", "SW1/4", "SE1/4"];
    (0..5)
        .map(|step| corners[number >> (2 * step) & 3])
        .collect()
}
