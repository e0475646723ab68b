//! Refusals: their numbers, places, and explanations.

mod documented;
mod samples;

use documented::examples;
use samples::{even, uneven, NOTES, TRACTS};
use std::error::Error;
use township::{Account, Plat, Refusal, Refused};

/// A refusal, and the one of a tract's description.
fn refusal_of(refused: &Refused) -> (Refusal, Option<Refusal>) {
    let refusal = Refusal {
        number: refused.number,
        at: refused.at,
    };
    (refusal, refused.inner)
}

/// The number and the place of a refusal that contains no other.
fn number_and_place(refused: &Refused) -> (u32, u32) {
    assert_eq!(refused.inner, None);
    (refused.number, refused.at)
}

#[test]
fn numbers_and_places_of_descriptions() {
    let plat = uneven();
    let stages = [
        "The text of a description",
        "The land that a description names",
    ];
    for example in examples(&stages) {
        let description = &example.given;
        let refusals = [
            plat.acres(description).unwrap_err(),
            plat.acres_by(description, Account::Plat).unwrap_err(),
            plat.area(description).unwrap_err(),
            plat.area_by(description, Account::Plat).unwrap_err(),
            plat.normal(description).unwrap_err(),
            plat.notes(description).unwrap_err(),
        ];
        for refused in &refusals {
            assert_eq!(refusal_of(refused), (example.refusal, None));
            assert_eq!(refused, &refusals[0]);
        }
    }
}

#[test]
fn numbers_and_places_of_notes() {
    for example in examples(&["Field notes", "The plat"]) {
        let refused = Plat::read(&example.given).unwrap_err();
        assert_eq!(refusal_of(&refused), (example.refusal, None));
    }
}

#[test]
fn numbers_and_places_of_lists() {
    for example in examples(&["A list of tracts"]) {
        let refused = uneven().report(&example.given).unwrap_err();
        assert_eq!(refusal_of(&refused), (example.refusal, example.inner));
    }
}

#[test]
fn line_and_column() {
    let land = "sec. 14, NE1/4;\nsec. 15, N1/2, NW1/4.\n";
    let refused = even().acres(land).unwrap_err();
    assert_eq!(refused.at, 31);
    assert_eq!((refused.line, refused.column), (Some(2), Some(16)));
}

#[test]
fn places_count_bytes_and_columns_characters() {
    // Each half is two bytes, and one character.
    let refused = even().acres("sec. 14, N½, N½.").unwrap_err();
    assert_eq!(number_and_place(&refused), (67, 14));
    assert_eq!(refused.column, Some(14));
}

#[test]
fn explanation() {
    let refused = even().acres("sec. 14, NE1/4 and N1/2.").unwrap_err();
    let message = "description:1:20: this land was named before";
    assert_eq!(refused.to_string(), message);
    assert_eq!(refused.sentence(), "this land was named before");
    let lines: Vec<_> = refused.explanation.lines().collect();
    assert_eq!(
        lines,
        [
            "township: description:1:20: this land was named before",
            "  1 | sec. 14, NE1/4 and N1/2.",
            "    |                    ^^^^",
            "  `NE1/4` at 1:10 overlaps it; both include sec. 14, NE1/4.",
        ]
    );
}

#[test]
fn odd_bytes() {
    let refused = even().acres(b"sec. 14\xff").unwrap_err();
    assert_eq!(number_and_place(&refused), (42, 7));
    assert_eq!(even().acres("sec. 14.\0").unwrap_err().at, 8);
    assert_eq!(even().acres("\0sec. 14.").unwrap_err().at, 0);
}

#[test]
fn nothing() {
    assert_eq!(number_and_place(&even().acres("").unwrap_err()), (44, 0));
    assert_eq!(
        number_and_place(&even().acres([0_u8; 0]).unwrap_err()),
        (44, 0)
    );
    assert_eq!(number_and_place(&even().normal("").unwrap_err()), (44, 0));
    assert_eq!(number_and_place(&Plat::read(b"").unwrap_err()), (2, 1));
    assert_eq!(number_and_place(&even().report("").unwrap_err()), (81, 1));
}

#[test]
fn the_most_bytes() {
    let land = "sec. 14.";
    let most = land.to_owned() + &" ".repeat(65_536 - land.len());
    assert_eq!(even().acres(&most).unwrap().hundredths(), 64_000);
    assert_eq!(even().acres(most + " ").unwrap_err().number, 41);
}

/// The uneven notes without the lines that begin like this.
fn notes_without(front: &str) -> Vec<u8> {
    let notes = std::str::from_utf8(NOTES).unwrap();
    let kept: Vec<_> = notes
        .split_inclusive('\n')
        .filter(|line| !line.starts_with(front))
        .collect();
    kept.concat().into_bytes()
}

/// The uneven notes with one text replaced by another; the text occurs once in them.
fn notes_with(old: &str, new: &str) -> Vec<u8> {
    let notes = std::str::from_utf8(NOTES).unwrap();
    assert_eq!(notes.matches(old).count(), 1);
    notes.replace(old, new).into_bytes()
}

#[test]
fn notes_without_a_line() {
    let refused = Plat::read(&notes_without("W,6,7,")).unwrap_err();
    assert_eq!(number_and_place(&refused), (11, 53));
    assert_eq!((refused.line, refused.column), (None, None));
    assert_eq!(
        refused.sentence(),
        "missing record: W,6,7 (section line 53)"
    );
    assert_eq!(
        refused.explanation,
        "township: notes: missing record: W,6,7 (section line 53)\n"
    );
}

#[test]
fn notes_with_a_record_that_is_no_line() {
    let refused = Plat::read(&notes_with("N,1,,", "N,40,,")).unwrap_err();
    assert_eq!(number_and_place(&refused), (7, 3));
    assert_eq!(refused.line, Some(3));
}

#[test]
fn notes_of_no_plat() {
    let notes = notes_with("N,1,,40.00,80.00", "N,1,,80.00,40.00");
    assert_eq!(number_and_place(&Plat::read(&notes).unwrap_err()), (21, 0));
}

#[test]
fn notes_that_are_too_large() {
    let refused = Plat::read(&[b'\n'; 65_537]).unwrap_err();
    assert_eq!(number_and_place(&refused), (1, 65_536));
}

#[test]
fn tract_with_its_own_refusal() {
    let refused = uneven()
        .report_of([("A", "sec. 14, NE1/4 and N1/2.")])
        .unwrap_err();
    assert_eq!((refused.number, refused.at), (83, 2));
    assert_eq!(refused.inner, Some(Refusal { number: 67, at: 19 }));
    assert_eq!(refused.inner.unwrap().to_string(), "refused 67 at 19");
    assert_eq!(refused.line, Some(2));
    assert_eq!(refused.sentence(), "tract `A`: this land was named before");
}

#[test]
fn other_lists() {
    let lot = "sec. 7, lot 1.";
    let spaces = " ".repeat(1_048_576);
    let rows = [
        ((81, 2), vec![("", lot)]),
        ((81, 3), vec![("A", lot), ("Peña", lot)]),
        ((82, 3), vec![("A", lot), ("A", lot)]),
        ((84, 3), vec![("A", lot), ("B", "sec. 7, lots 1 and 4.")]),
        ((80, 1_048_576), vec![("A", lot), ("B", spaces.as_str())]),
    ];
    for (wanted, tracts) in rows {
        let refused = uneven().report_of(tracts).unwrap_err();
        assert_eq!(number_and_place(&refused), wanted);
    }
}

#[test]
fn list_without_its_heading() {
    let list = TRACTS.strip_prefix(b"name,description\n").unwrap();
    let refused = uneven().report(list).unwrap_err();
    assert_eq!(number_and_place(&refused), (81, 1));
}

#[test]
fn refusals_are_errors() {
    fn acres(notes: &[u8], description: &str) -> Result<String, Box<dyn Error + Send + Sync>> {
        Ok(Plat::read(notes)?.acres(description)?.to_string())
    }
    assert_eq!(acres(NOTES, "sec. 5, lot 1.").unwrap(), "40.45");
    for (notes, description, message) in [
        (
            NOTES,
            "sec. 5, lot 5.",
            "description:1:13: section 5 has lots 1 to 4",
        ),
        (
            b"".as_slice(),
            "sec. 5, lot 1.",
            "notes: the field notes are empty: they begin with `line,between,and,quarter,corner`",
        ),
    ] {
        let error = acres(notes, description).unwrap_err();
        assert_eq!(error.to_string(), message);
        assert!(error.is::<Refused>());
    }
}
