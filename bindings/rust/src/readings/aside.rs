//! The readings of a text, without the phrases in it that the caller says are not land.

use std::ops::Range;

use super::{readings_of, Assumption, Change, Phrases, Reading, Rule, Suggestion, Unread};
use crate::ffi;

/// Suggests how a text would be written as a description without phrases that are not land.
///
/// All places stay those of the text. Each reading has a change for each place of a phrase, with the
/// rule [`Rule::SetAside`] and the assumption [`Assumption::SetAside`]; in its text, each run of white
/// space is one space.
///
/// ```
/// use township::{suggest, suggest_without, Assumption, Phrases};
///
/// let text = "Payout group Kestrel NE/4 Sec. 14";
/// assert!(suggest(text).readings.is_empty());
/// let found = suggest_without(text, &Phrases::new(["Payout group Kestrel"])?);
/// assert_eq!(found.readings[0].text, "sec. 14, NE1/4");
/// let assumed: Vec<_> = found.readings[0].assumptions().map(|change| change.assumes).collect();
/// assert_eq!(assumed, [Some(Assumption::SetAside)]);
/// # Ok::<(), township::Refused>(())
/// ```
pub fn suggest_without(text: impl AsRef<[u8]>, phrases: &Phrases) -> Suggestion {
    let text = text.as_ref();
    readings_without(text, &phrases.places_in(text), None).with_standard_lots()
}

/// Returns the readings of a text without these places, which are in order: on the plat of a lot
/// table, or else with the standard lots.
pub(crate) fn readings_without(
    text: &[u8],
    aside: &[Range<usize>],
    lots: Option<&ffi::Lots>,
) -> Suggestion {
    if aside.is_empty() {
        return readings_of(text, lots);
    }
    let left = blanked(text, aside);
    let found = readings_of(&left, lots);
    Suggestion {
        readings: found
            .readings
            .into_iter()
            .map(|reading| with_aside(&left, reading, aside))
            .collect(),
        unread: found
            .unread
            .into_iter()
            .flat_map(|unread| unread_outside(&left, unread, aside))
            .collect(),
        beyond: found.beyond,
    }
}

/// Returns a text with a space over each byte of these places.
pub(super) fn blanked(text: &[u8], aside: &[Range<usize>]) -> Vec<u8> {
    let mut left = text.to_vec();
    for place in aside {
        left[place.clone()].fill(b' ');
    }
    left
}

/// Returns a reading that says what was left out before the text was read.
fn with_aside(left: &[u8], reading: Reading, aside: &[Range<usize>]) -> Reading {
    let left_out = aside.iter().map(|place| left_out(place, &reading.changes));
    let kept = reading
        .changes
        .iter()
        .flat_map(|change| outside(left, change, aside));
    let mut changes: Vec<Change> = kept.chain(left_out).collect();
    // What is written where a phrase begins comes before it.
    changes.sort_by_key(|change| (change.start, change.end));
    let words: Vec<&str> = reading.text.split_whitespace().collect();
    Reading {
        text: words.join(" "),
        changes,
        ..reading
    }
}

/// Returns the change that leaves out a place. A space stays, unless the reading leaves that out, too.
fn left_out(place: &Range<usize>, changes: &[Change]) -> Change {
    let is_covered = is_left_out(place, changes);
    Change {
        start: place.start,
        end: place.end,
        written: if is_covered { "" } else { " " }.to_owned(),
        rule: Rule::SetAside,
        assumes: Some(Assumption::SetAside),
    }
}

/// Returns whether changes leave out all of a place: one that spans it, or several that touch, since
/// each space may be left out separately.
fn is_left_out(place: &Range<usize>, changes: &[Change]) -> bool {
    // The changes are in order, and none of them begins within another one.
    let after = changes.partition_point(|change| change.start <= place.start);
    let Some(first) = changes[..after].last() else {
        return false;
    };
    let mut end = first.end;
    for change in &changes[after..] {
        if change.start != end {
            break;
        }
        end = change.end;
    }
    place.end <= end
}

/// Returns the parts of a change outside of the places that are left out. The first one writes what
/// the change does.
fn outside(left: &[u8], change: &Change, aside: &[Range<usize>]) -> Vec<Change> {
    let mut written = change.written.clone();
    let mut found = Vec::new();
    for part in parts_outside(change.start..change.end, aside) {
        // White space that is left out assumes nothing.
        let is_said = is_around(change.assumes) || !is_blank(&left[part.clone()]);
        if !part.is_empty() || !written.is_empty() {
            found.push(Change {
                start: part.start,
                end: part.end,
                written: std::mem::take(&mut written),
                rule: change.rule,
                assumes: change.assumes.filter(|_| is_said),
            });
        }
    }
    found
}

/// Returns whether an assumption is about the words around a change.
fn is_around(assumes: Option<Assumption>) -> bool {
    matches!(
        assumes,
        Some(Assumption::WrongLetter | Assumption::NoMissingComma)
    )
}

fn is_blank(bytes: &[u8]) -> bool {
    bytes.iter().all(u8::is_ascii_whitespace)
}

/// Returns the parts of a place outside of others, or, if there are none, where the first of those
/// begins.
fn parts_outside(whole: Range<usize>, aside: &[Range<usize>]) -> Vec<Range<usize>> {
    // These share bytes with the place, or, if it has no bytes, it is within one of them.
    let first = aside.partition_point(|other| other.end <= whole.start);
    let end = aside.partition_point(|other| other.start < whole.end);
    let others = &aside[first..end.max(first)];
    let mut parts = Vec::new();
    let mut at = whole.start;
    for other in others {
        if at < other.start {
            parts.push(at..other.start);
        }
        at = other.end;
    }
    if at < whole.end {
        parts.push(at..whole.end);
    }
    if parts.is_empty() {
        let at = others
            .first()
            .map_or(whole.start, |other| other.start.min(whole.start));
        parts.push(at..at);
    }
    parts
}

/// Returns what of something unread is outside of the places that are left out.
fn unread_outside(left: &[u8], unread: Unread, aside: &[Range<usize>]) -> Vec<Unread> {
    if unread.ways.is_some() {
        return vec![unread];
    }
    parts_outside(unread.start..unread.end, aside)
        .into_iter()
        .filter(|part| !is_blank(&left[part.clone()]))
        .map(|part| {
            let white = |byte: &&u8| byte.is_ascii_whitespace();
            let words = &left[part.clone()];
            Unread {
                start: part.start + words.iter().take_while(white).count(),
                end: part.end - words.iter().rev().take_while(white).count(),
                ways: None,
            }
        })
        .collect()
}

#[cfg(test)]
mod tests {
    use super::*;

    fn ranges(pairs: &[(usize, usize)]) -> Vec<Range<usize>> {
        pairs.iter().map(|&(start, end)| start..end).collect()
    }

    #[test]
    fn parts_of_a_place() {
        let rows: [(Range<usize>, &[_], &[_]); 7] = [
            (4..13, &[(0, 2), (5, 12)], &[(4, 5), (12, 13)]),
            (4..13, &[(4, 6), (6, 8), (10, 20)], &[(8, 10)]),
            (4..13, &[], &[(4, 13)]),
            (4..4, &[(0, 4), (4, 9)], &[(4, 4)]),
            // Nothing is left, or something is written within a place.
            (5..12, &[(5, 12)], &[(5, 5)]),
            (6..8, &[(5, 12)], &[(5, 5)]),
            (7..7, &[(0, 2), (5, 12)], &[(5, 5)]),
        ];
        for (whole, aside, parts) in rows {
            let found = parts_outside(whole.clone(), &ranges(aside));
            assert_eq!(found, ranges(parts), "{whole:?} {aside:?}");
        }
    }
}
