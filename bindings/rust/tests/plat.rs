//! Plats: how they are made, the answers they give, and that they are values.

mod samples;

use samples::{even, rounded, uneven, NOTES};
use std::collections::HashSet;
use township::{Account, Acres, Area, EastWest, NoPlat, NorthSouth, Plat, Township, LINES};

// The figures are those of the documents, worked out there by hand.

/// All section lines of the even township.
const QUARTERS: [u32; LINES] = [20_000; LINES];

/// T. 2 N., R. 3 W.
fn sample_township() -> Township {
    Township::new(2, NorthSouth::North, 3, EastWest::West).unwrap()
}

fn acres(hundredths: u64) -> Acres {
    Acres::from_hundredths(hundredths)
}

#[test]
fn acres_of_lots_and_of_parts() {
    assert_eq!(
        uneven().acres("sec. 5, lots 1 and 2, S1/2NE1/4."),
        Ok(acres(16_100))
    );
    assert_eq!(uneven().acres("sec. 5, lot 1."), Ok(acres(4_045)));
    // 5/8 of an acre.
    assert_eq!(
        even().acres("sec. 14, NE1/4NE1/4NE1/4NE1/4NE1/4."),
        Ok(acres(63))
    );
    assert_eq!(even().acres("secs. 1 thru 36, all."), Ok(acres(2_304_000)));
}

#[test]
fn accounts() {
    let lots = "sec. 7, lots 1 to 4, inclusive.";
    assert_eq!(uneven().acres(lots), Ok(acres(15_640)));
    for (account, hundredths) in [(Account::Exact, 15_640), (Account::Plat, 15_642)] {
        assert_eq!(uneven().acres_by(lots, account), Ok(acres(hundredths)));
    }
    assert_eq!(Account::default(), Account::Exact);
}

#[test]
fn area() {
    let parts = |description| {
        let area = uneven().area(description).unwrap();
        (area.numerator(), area.denominator())
    };
    // 20 chains by the mean of 20.2 and 20.25, over 10.
    assert_eq!(parts("sec. 5, lot 1."), (809, 20));
    assert_eq!(parts("sec. 36."), (640, 1));
    assert_eq!(parts("sec. 14, NE1/4NE1/4NE1/4NE1/4NE1/4."), (5, 8));
}

#[test]
fn area_by_the_plat() {
    let lots = "sec. 7, lots 1 to 4.";
    let area = uneven().area_by(lots, Account::Plat).unwrap();
    assert_eq!((area.numerator(), area.denominator()), (15_642 / 2, 50));
    let exact = uneven().area_by(lots, Account::Exact).unwrap();
    assert_eq!(exact, uneven().area(lots).unwrap());
    assert!(exact < area);
}

#[test]
fn normal() {
    assert_eq!(
        uneven().normal("sec. 14, SE1/4, NE1/4, NW1/4.").unwrap(),
        "T. 2 N., R. 3 W.,\nsec. 14, N1/2, SE1/4.\n"
    );
}

/// 16 squares of 2.5 acres in each of twenty sections, no two of which make up a larger part.
fn land_with_a_long_text() -> String {
    let mut squares = vec![String::new()];
    for _ in 0..4 {
        let finer =
            |square: &String| ["NE1/4", "SW1/4"].map(|quarter| format!("{square}{quarter}"));
        squares = squares.iter().flat_map(finer).collect();
    }
    let squares = squares.join(", ");
    let sections = (8..18).chain(20..30);
    let items: Vec<String> = sections
        .map(|section| format!("sec. {section}, {squares}"))
        .collect();
    items.join("; ")
}

#[test]
fn normal_longer_than_its_first_room() {
    let normal = uneven().normal(land_with_a_long_text()).unwrap();
    assert!(normal.len() > 4096);
    assert_eq!(uneven().normal(&normal).unwrap(), normal);
    // Twenty sections of 16 squares of 2.5 acres.
    assert_eq!(uneven().acres(&normal), Ok(acres(80_000)));
}

#[test]
fn notes_on_places_read_in_two_ways() {
    assert_eq!(uneven().notes("sec. 14, NE1/4, SE1/4."), Ok(vec![]));
    let notes = uneven().notes("sec. 14, N½;\nsec. 15, NE¼ SE¼.").unwrap();
    assert_eq!(notes.len(), 1);
    assert_eq!((notes[0].line, notes[0].column), (2, 14));
    // A quarter of a quarter has 40 acres, and two quarters have 320.
    let sentence = notes[0].sentence();
    assert!(sentence.starts_with("NE1/4 SE1/4 is read as one part of 40.00 acres, the NE1/4 of"));
    assert!(sentence.ends_with("write a comma after NE1/4 (320.00 acres)"));
    assert_eq!(
        notes[0].to_string(),
        format!("description:2:14: note: {sentence}")
    );
    let several = uneven().notes("sec. 14, NE1/4 SE1/4; sec. 15, W1/2 E1/2.");
    assert!(several.unwrap()[0]
        .text
        .ends_with("\n  1 more such place\n"));
}

#[test]
fn strings_and_bytes() {
    let half = String::from("sec. 14, S½NE¼.");
    assert_eq!(even().acres(&half), Ok(acres(8_000)));
    assert_eq!(even().acres(half.as_bytes()), Ok(acres(8_000)));
    assert_eq!(even().acres(half.into_bytes()), Ok(acres(8_000)));
    assert_eq!(even().acres(b"sec. 14, S1/2NE1/4."), Ok(acres(8_000)));
}

#[test]
fn printed() {
    let text = uneven().print();
    assert!(text.starts_with("sec. 1: lot 1 40.00, lot 2 40.00, "));
    assert!(text.ends_with("sec. 36: total 640.00\ntownship total 23037.57\n"));
    assert_eq!(
        text.lines().nth(6),
        Some("sec. 7: lot 1 39.18, lot 2 39.13, lot 3 39.08, lot 4 39.03, total 636.40")
    );
    assert_eq!(text.lines().count(), 37);
}

#[test]
fn figures_are_those_of_the_text() {
    let plat = uneven();
    let figures = plat.figures();
    let mut text = String::new();
    for section in &figures.sections {
        text.push_str(&format!("sec. {}: ", section.number));
        for (lot, acres) in (1..).zip(&section.lots) {
            text.push_str(&format!("lot {lot} {acres}, "));
        }
        text.push_str(&format!("total {}\n", section.total));
    }
    text.push_str(&format!("township total {}\n", figures.total));
    assert_eq!(text, plat.print());
}

#[test]
fn sections_and_lots_by_number() {
    let figures = uneven().figures();
    let section = figures.section(6).unwrap();
    assert_eq!((section.number, section.lots.len()), (6, 7));
    assert_eq!(section.lot(7), section.lots.last().copied());
    assert_eq!((section.lot(0), section.lot(8)), (None, None));
    assert_eq!(figures.section(14).unwrap().lot(1), None);
    assert_eq!((figures.section(0), figures.section(37)), (None, None));
    assert_eq!(figures.section(36).unwrap().number, 36);
}

/// The lots and the section of a printed line, such as `sec. 7: lot 1 39.18, total 636.40`, with
/// their figures.
fn printed_lands(line: &str) -> Vec<(String, &str)> {
    let (section, figures) = line.split_once(": ").unwrap();
    let land = |name: &str| match name {
        "total" => format!("{section}."),
        lot => format!("{section}, {lot}."),
    };
    figures
        .split(", ")
        .map(|figure| figure.rsplit_once(' ').unwrap())
        .map(|(name, acres)| (land(name), acres))
        .collect()
}

#[test]
fn each_printed_figure_is_that_of_its_land() {
    let plat = uneven();
    let text = plat.print();
    let lands: Vec<_> = text.lines().take(36).flat_map(printed_lands).collect();
    // 36 totals, four lots in each of ten sections, and the seven of section 6.
    assert_eq!(lands.len(), 36 + 4 * 10 + 7);
    for (land, figure) in lands {
        assert_eq!(plat.acres(&land).unwrap().to_string(), figure, "{land}");
    }
}

#[test]
fn acres_are_the_area_rounded() {
    let plat = uneven();
    let text = plat.print();
    for (land, _) in text.lines().take(36).flat_map(printed_lands) {
        for account in [Account::Exact, Account::Plat] {
            let area = plat.area_by(&land, account).unwrap();
            let acres = plat.acres_by(&land, account).unwrap();
            assert_eq!(acres.hundredths(), rounded(area), "{land}");
            assert_eq!(acres, area.rounded(), "{land}");
        }
    }
}

#[test]
fn parts_of_a_plat_make_it() {
    let plat = uneven();
    assert_eq!(plat.township(), sample_township());
    let made = Plat::from_parts(plat.township(), *plat.closing_quarters());
    assert_eq!(made, Ok(plat));
    assert_eq!(Plat::from_parts(sample_township(), QUARTERS), Ok(even()));
}

#[test]
fn conversions() {
    assert_eq!(Plat::try_from(NOTES), Ok(uneven()));
    assert_eq!(Plat::try_from(b"".as_slice()), Plat::read(b""));
    assert_eq!(std::str::from_utf8(NOTES).unwrap().parse(), Ok(uneven()));
    assert_eq!("line".parse::<Plat>().unwrap_err().number, 3);
    assert_eq!(Plat::try_from((sample_township(), QUARTERS)), Ok(even()));
    assert_eq!(Plat::try_from((sample_township(), [0; LINES])), Err(NoPlat));
}

#[test]
fn sums_of_areas_are_exact() {
    // Lots 1 to 4 of section 7 have 39.175, 39.125, 39.075, and 39.025 acres.
    let lots = (1..=4).map(|lot| format!("sec. 7, lot {lot}."));
    let areas: Vec<_> = lots.map(|lot| uneven().area(lot).unwrap()).collect();
    let all = uneven().area("sec. 7, lots 1 to 4.").unwrap();
    assert_eq!(areas.iter().sum::<Area>(), all);
    assert_eq!(all.to_string(), "782/5");
    assert_eq!(areas[0] + areas[3], "391/5".parse().unwrap());
}

#[test]
fn townships_parsed() {
    for text in ["T. 2 N., R. 3 W.", "T. 99 S., R. 1 E."] {
        assert_eq!(text.parse::<Township>().unwrap().to_string(), text);
    }
    let spellings = [
        "T. 2 N., R. 3 W",
        "T2N R3W",
        "t-2-n, r-3-w",
        "2N-3W",
        "0020N 0030W",
        "Township 2 North, Range 3 West",
        "Township Two North, Range Three West",
    ];
    for text in spellings {
        assert_eq!(text.parse(), Ok(sample_township()), "{text}");
    }
    for (text, number, at) in [
        ("", 31, 0),
        ("T. 0 N., R. 3 W.", 31, 3),
        ("T. 300 N., R. 3 W.", 31, 3),
        ("T. +2 N., R. 3 W.", 31, 3),
        ("T. 2 E., R. 3 W.", 32, 5),
        ("T. 2 N., R. 100 W.", 33, 12),
        ("T. 2 N., R. 3 n.", 34, 14),
        ("T. 2 N., R. 3 W., sec. 14", 35, 18),
    ] {
        let refused = text.parse::<Township>().unwrap_err();
        assert_eq!((refused.number, refused.at), (number, at), "{text}");
        assert_eq!(
            (refused.line, refused.column),
            (Some(1), Some(at + 1)),
            "{text}"
        );
    }
    let long = "2".repeat(65_537).parse::<Township>().unwrap_err();
    assert_eq!((long.number, long.at, long.line), (36, 65_536, None));
}

#[test]
fn sides_and_accounts_parsed() {
    for side in [NorthSouth::North, NorthSouth::South] {
        assert_eq!(side.to_string().parse(), Ok(side));
    }
    for side in [EastWest::East, EastWest::West] {
        assert_eq!(side.to_string().parse(), Ok(side));
    }
    for account in [Account::Exact, Account::Plat] {
        assert_eq!(account.to_string().parse(), Ok(account));
    }
    assert!("n".parse::<NorthSouth>().is_err());
    assert!("N".parse::<EastWest>().is_err());
    assert!("printed".parse::<Account>().is_err());
}

#[test]
fn each_side() {
    for north_south in [NorthSouth::North, NorthSouth::South] {
        for east_west in [EastWest::East, EastWest::West] {
            let township = Township::new(99, north_south, 1, east_west).unwrap();
            assert_eq!(
                township.to_string(),
                format!("T. 99 {north_south}., R. 1 {east_west}.")
            );
            let plat = Plat::from_parts(township, QUARTERS).unwrap();
            assert_eq!(plat.township(), township);
            let normal = plat.normal("sec. 14.").unwrap();
            assert_eq!(normal, format!("{township},\nsec. 14, all.\n"));
        }
    }
}

#[test]
fn parts_of_a_township() {
    let township = uneven().township();
    assert_eq!((township.number(), township.range()), (2, 3));
    assert_eq!(township.north_south(), NorthSouth::North);
    assert_eq!(township.east_west(), EastWest::West);
}

#[test]
fn numbers_of_no_township() {
    for (number, range) in [(0, 3), (100, 3), (2, 0), (2, 100), (255, 255)] {
        let township = Township::new(number, NorthSouth::North, range, EastWest::West);
        assert_eq!(township, None, "{number} and {range}");
    }
}

#[test]
fn quarters_that_are_no_plats() {
    // Lines 0 and 83 close, and therefore have 5 to 25 chains; lines 7 and 58 do not.
    for (line, quarter) in [
        (0, 0),
        (0, 4_999),
        (83, 25_001),
        (7, 19_999),
        (58, 20_001),
        (0, u32::MAX),
    ] {
        let mut quarters = QUARTERS;
        quarters[line] = quarter;
        let made = Plat::from_parts(sample_township(), quarters);
        assert_eq!(made, Err(NoPlat), "line {line} of {quarter}");
    }
    assert_eq!(NoPlat.to_string(), "no plat has these closing quarters");
}

#[test]
fn quarters_at_their_limits() {
    for quarter in [5_000, 25_000] {
        let mut quarters = QUARTERS;
        quarters[0] = quarter;
        let made = Plat::from_parts(sample_township(), quarters).unwrap();
        assert_eq!(made.closing_quarters(), &quarters);
    }
}

#[test]
fn equal_plats_are_one_value() {
    let again = Plat::read(NOTES).unwrap();
    assert_eq!(again, uneven());
    assert_eq!(again.clone(), again);
    assert_ne!(again, even());
    assert_eq!(HashSet::from([again, uneven(), even()]).len(), 2);
}

#[test]
fn version() {
    let version = township::version();
    let numbers: Vec<_> = version.split('.').map(str::parse::<u32>).collect();
    assert_eq!(numbers.len(), 3);
    assert!(numbers.iter().all(Result::is_ok), "{version}");
}

#[test]
fn many_in_order() {
    let plat = uneven();
    let descriptions = ["sec. 36.", "sec. 14, NE1/4 and N1/2.", "", "sec. 5, lot 1."];
    let answers: Vec<_> = plat
        .acres_of(descriptions)
        .map(|answer| answer.map_err(|refused| (refused.number, refused.at)))
        .collect();
    assert_eq!(
        answers,
        [
            Ok(acres(64_000)),
            Err((67, 19)),
            Err((44, 0)),
            Ok(acres(4_045))
        ]
    );
    assert_eq!(plat.acres_of([""; 0]).count(), 0);
}

#[test]
fn many_by_one_call() {
    let plat = uneven();
    let descriptions = [
        "sec. 36.",
        "",
        "sec. 7, lots 1 to 4.",
        "sec. 14, N½ and NE¼.",
    ];
    for account in [Account::Exact, Account::Plat] {
        let wanted: Vec<_> = descriptions.map(|land| plat.acres_by(land, account)).into();
        assert_eq!(plat.acres_many(&descriptions, account), wanted);
    }
    assert!(plat.acres_many(&[""; 0], Account::Exact).is_empty());
}

#[test]
fn canonical_texts_of_many_are_those_of_each() {
    let plat = uneven();
    // The text of the last one is longer than the room that the call for many has for it.
    let long: Vec<_> = (1..=36)
        .step_by(2)
        .map(|section| format!("sec. {section}"))
        .collect();
    let long = format!("{}.", long.join("; "));
    let descriptions = ["sec. 14, S1/2, N1/2.", "sec. 5, lot 5.", "", &long];
    let wanted: Vec<_> = descriptions.map(|land| plat.normal(land)).into();
    assert!(wanted[3].as_ref().unwrap().len() > 256);
    assert_eq!(plat.normal_many(&descriptions), wanted);
    assert!(plat.normal_many(&[""; 0]).is_empty());
}

#[test]
fn many_are_taken_one_at_a_time() {
    let plat = uneven();
    let endless = (8..).map(|section| format!("sec. {section}."));
    let answers: Vec<_> = plat.acres_of(endless).take(3).collect();
    assert_eq!(
        answers,
        [Ok(acres(64_000)), Ok(acres(64_000)), Ok(acres(64_000))]
    );
}
