//! Reports of tracts.

mod samples;

use samples::{even, uneven, TRACTS};

// The figures are those of the documents, worked out there by hand: lots 1 and 4 of section 7 have
// 39.175 and 39.025 acres.

const TWO_LOTS: [(&str, &str); 2] = [("A", "sec. 7, lot 1."), ("B", "sec. 7, lot 4.")];

const TWO_LOTS_TEXT: &str = "\
tract A: 39.18 acres
tract B: 39.03 acres
total: 78.20 acres
remaining: 22959.37 acres
";

#[test]
fn list_of_the_samples() {
    assert_eq!(uneven().report(TRACTS).unwrap(), TWO_LOTS_TEXT);
}

#[test]
fn tracts() {
    let report = uneven().report_of(TWO_LOTS).unwrap();
    let tracts: Vec<_> = report
        .tracts
        .iter()
        .map(|tract| (tract.name.as_str(), tract.acres.hundredths()))
        .collect();
    assert_eq!(tracts, [("A", 3_918), ("B", 3_903)]);
    assert_eq!(report.total.hundredths(), 7_820);
    assert_eq!(report.remaining.hundredths(), 2_295_937);
    assert_eq!(report.to_string(), TWO_LOTS_TEXT);
    assert_eq!(uneven().report_csv(TRACTS), Ok(report));
}

#[test]
fn no_tracts() {
    let report = uneven().report_of::<&str, &str>([]).unwrap();
    assert!(report.tracts.is_empty());
    assert_eq!(report.total.hundredths(), 0);
    assert_eq!(report.remaining.hundredths(), 2_303_757);
}

#[test]
fn names_of_any_printable_characters() {
    let longest = "~".repeat(64);
    let names = [
        "Jones, heirs of",
        "the \"old\" place",
        "a: 1.00 acres",
        "total",
        " ",
        "remaining: 0.00 acres",
        &longest,
    ];
    let tracts = (14..).map(|section| format!("sec. {section}."));
    let report = even().report_of(names.into_iter().zip(tracts)).unwrap();
    let found: Vec<_> = report.tracts.iter().map(|tract| &tract.name).collect();
    assert_eq!(found, names);
    assert_eq!(report.total.hundredths(), 7 * 64_000);
}

#[test]
fn description_of_several_lines() {
    let report = uneven()
        .report_of([("A", "sec. 14;\r\nsec. 15.\n")])
        .unwrap();
    assert_eq!(report.total.hundredths(), 128_000);
}

#[test]
fn report_longer_than_its_first_room() {
    // 64 squares of 10 acres in each of ten sections.
    let quarters = ["NE1/4", "NW1/4", "SE1/4", "SW1/4"];
    let square = |k: usize| [k / 16 % 4, k / 4 % 4, k % 4].map(|quarter| quarters[quarter]);
    let tracts = (0..640).map(|k| {
        let (section, square) = (8 + k / 64, square(k).concat());
        (format!("{k:064}"), format!("sec. {section}, {square}."))
    });
    let report = uneven().report_of(tracts).unwrap();
    assert_eq!(report.tracts.len(), 640);
    assert_eq!(report.tracts[639].name, format!("{:064}", 639));
    assert_eq!(report.tracts[639].acres.hundredths(), 1_000);
    assert_eq!(report.total.hundredths(), 640_000);
}

// Each fault that a tract can have by itself: lot 5 of section 7 does not exist, and D names land
// twice.
const MIXED: &str = "\
name,description
A,\"sec. 7, lot 1.\"
B,\"sec. 7, lot 5.\"
C
A,sec. 14
C,sec. 14,more
C,sec. 15
D,\"sec. 14, NE1/4 and N1/2.\"
\"E, \"\"the\"\" one\",sec. 14
F,\"sec. 14, NE1/4\"
";

#[test]
fn answers_to_each_tract() {
    let answers = uneven().report_each_csv(MIXED).unwrap();
    let found: Vec<_> = answers
        .iter()
        .map(|tract| match &tract.answer {
            Ok(acres) => (tract.name.as_str(), acres.hundredths(), 0, None),
            Err(refused) => {
                let inner = refused.inner.map(|inner| (inner.number, inner.at));
                assert_eq!(refused.refusal.number == 83, inner.is_some());
                (tract.name.as_str(), 0, refused.refusal.number, inner)
            }
        })
        .collect();
    let wanted = [
        ("A", 3_918, 0, None),
        ("B", 0, 83, Some((64, 12))),
        ("", 0, 81, None),
        ("A", 0, 82, None),
        ("", 0, 81, None),
        ("C", 0, 82, None),
        ("D", 0, 83, Some((67, 19))),
        ("E, \"the\" one", 64_000, 0, None),
        ("F", 16_000, 0, None),
    ];
    assert_eq!(found, wanted);
    for (index, tract) in answers.iter().enumerate() {
        if let Err(refused) = tract.answer {
            assert_eq!(refused.refusal.at, index as u32 + 2);
        }
    }
    assert_eq!(uneven().report_each::<&str, &str>([]), Ok(vec![]));
}

#[test]
fn lists_that_are_refused_as_a_whole() {
    let many = format!("name,description\n{}", "A,sec. 14\n".repeat(1_001));
    let large = format!("name,description\n{}", " ".repeat(1_048_576));
    for (list, number, at) in [
        ("", 81, 1),
        ("name\n", 81, 1),
        (&many, 85, 1_002),
        (&large, 80, 1_048_576),
    ] {
        let refused = uneven().report_each_csv(list).unwrap_err();
        assert_eq!((refused.number, refused.at), (number, at));
    }
}

#[test]
fn overlaps_whatever_else_is_wrong() {
    let found = |list: &str| -> Vec<_> {
        let overlaps = uneven().overlaps_csv(list).unwrap();
        overlaps
            .iter()
            .map(|overlap| (overlap.first, overlap.second, overlap.acres.hundredths()))
            .collect()
    };
    // The tracts with indexes 3, 7, and 8 have land of section 14; 8 has its northeast quarter.
    assert_eq!(
        found(MIXED),
        [(3, 7, 64_000), (3, 8, 16_000), (7, 8, 16_000)]
    );
    assert_eq!(found("name,description\n"), []);
    // 20 tracts of the same land make 20 * 19 / 2 pairs.
    let many = even().overlaps((0..20).map(|k: u32| (k.to_string(), "sec. 36.")));
    let many = many.unwrap();
    assert_eq!(many.len(), 190);
    assert_eq!((many[189].first, many[189].second), (18, 19));
    assert_eq!(uneven().overlaps_csv("name\n").unwrap_err().number, 81);
}
