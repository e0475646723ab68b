//! Readings on the plat of a lot table, and those that assume the standard lots because no plat is known.

mod samples;

use samples::{lake, uneven, LAKE};
use township::{
    suggest, suggest_without, Assumption, Lots, Manner, PartReadings, Phrases, Plats, Reading,
};

/// The only lot of section 14 is in its northeast corner.
const CORNER: &str = "section,lot,acres,land\nT,2,N,3,W\n14,1,38.50,NE1/4NE1/4\n";

/// The north half of section 14 on that plat.
const NORTH_HALF: &str = "T. 2 N., R. 3 W.,\nsec. 14, lot 1, NW1/4NE1/4, S1/2NE1/4, NW1/4.\n";

fn corner() -> Lots {
    CORNER.parse().unwrap()
}

fn only(readings: Vec<Reading>) -> Reading {
    let [reading] = <[Reading; 1]>::try_from(readings).unwrap();
    reading
}

/// Asserts that the first part of a text has one reading, and that it has these acres by the lots of its plat.
fn assert_read_on_its_plat(plats: &Plats, mut parts: Vec<PartReadings>, acres: &str, text: &str) {
    let reading = only(parts.remove(0).suggestion.readings);
    let found = plats.acres(&reading.text).unwrap().to_string();
    assert_eq!(found, acres, "{text}");
    assert!(!reading.assumes_standard_lots, "{text}");
}

#[test]
fn lots_of_the_table_are_named() {
    let reading = only(corner().suggest("Sec 14: N2").readings);
    assert_eq!(reading.manner, Manner::LotsNamed);
    // 38.50, and 40, 80, and 160 acres.
    assert_eq!(corner().acres(&reading).unwrap().to_string(), "318.50");
    assert_eq!(corner().normal(&reading).unwrap(), NORTH_HALF);
    // With the standard lots, the same text is the half of a section without lots.
    let reading = only(suggest("Sec 14: N2").readings);
    assert_eq!(
        (reading.text.as_str(), reading.manner),
        ("Sec 14: N1/2", Manner::Changed)
    );
    assert_eq!(uneven().acres(&reading).unwrap().to_string(), "320.00");
}

#[test]
fn standard_lots_are_not_named() {
    // Section 6 has no record, and so no lots.
    let reading = only(lake().suggest("NW4 Sec 6").readings);
    assert_eq!(
        (reading.text.as_str(), reading.manner),
        ("sec. 6, NW1/4", Manner::Changed)
    );
    assert_eq!(
        only(suggest("NW4 Sec 6").readings).manner,
        Manner::LotsNamed
    );
}

#[test]
fn a_lot_that_only_the_table_has() {
    let reading = only(lake().suggest("L4 Sec 14").readings);
    assert_eq!(lake().acres(&reading).unwrap().to_string(), "71.10");
    assert_eq!(suggest("L4 Sec 14").readings, []);
    // Of the standard lots of section 5, this plat has only the first one.
    assert_eq!(lake().suggest("Lot 2, Sec 5").readings, []);
    assert_eq!(suggest("Lot 2, Sec 5").readings.len(), 1);
}

#[test]
fn an_exception() {
    // All that the plat has in section 14, which is 581.65 acres, without lot 1 of 38.50 acres.
    let text = "Sec 14: All less Lot 1";
    let reading = only(lake().suggest(text).readings);
    assert_eq!(reading.manner, Manner::Remainder);
    assert_eq!(lake().acres(&reading).unwrap().to_string(), "543.15");
    assert_eq!(suggest(text).readings, []);
}

#[test]
fn a_table_with_the_standard_lots() {
    let lots = Lots::new("T. 2 N., R. 3 W.".parse().unwrap());
    for text in [
        "N2 Sec 5",
        "Sec 14: N2",
        "sec. 14: NE¼NE¼ SW¼SW¼",
        "the old mill",
        "",
    ] {
        let mut without = suggest(text);
        for reading in &mut without.readings {
            reading.assumes_standard_lots = false;
        }
        assert_eq!(lots.suggest(text), without, "{text}");
    }
}

#[test]
fn phrases_are_left_out() {
    let phrases = Phrases::new(["Kestrel:"]).unwrap();
    let found = corner().suggest_without("Kestrel: Sec 14: N2", &phrases);
    let reading = only(found.readings);
    assert_eq!(corner().acres(&reading).unwrap().to_string(), "318.50");
    let assumed: Vec<_> = reading
        .assumptions()
        .map(|change| change.assumes.unwrap())
        .collect();
    assert_eq!(assumed, [Assumption::SetAside]);
}

#[test]
fn what_assumes_the_standard_lots() {
    let assumes = |text: &str| only(suggest(text).readings).assumes_standard_lots;
    // A lot, whole sections, lots in place of an aliquot part, and what an exception leaves.
    for text in [
        "Lot 1, Sec 5",
        "sec. 14.",
        "Sec 14: all",
        "sec. 14, N1/2, S1/2.",
        "T2N R3W sec. 6, lot 7.",
        "N2 Sec 5",
        "Sec 14: W2 less the NENW",
    ] {
        assert!(assumes(text), "{text}");
    }
    let readings = corner().suggest("sec. 14.").readings;
    assert!(!only(readings).assumes_standard_lots);
    // Aliquot parts without lots; and descriptions that a plat with the standard lots refuses: of a lot
    // that it lacks, and of a part that includes lots.
    for text in [
        "Sec 14: N2",
        "S2 Sec 5",
        "sec. 14, NE1/4.",
        "sec. 14, lot 1.",
        "sec. 5, N1/2.",
    ] {
        assert!(!assumes(text), "{text}");
    }
    let phrases = Phrases::new(["blah"]).unwrap();
    assert!(only(suggest_without("blah sec. 14.", &phrases).readings).assumes_standard_lots);
    assert_eq!(
        Assumption::StandardLots.to_string(),
        "the plat has the standard lots"
    );
}

/// The parts of a text that have these readings.
fn places_in<'a>(text: &'a str, parts: &[PartReadings]) -> Vec<&'a str> {
    parts
        .iter()
        .map(|part| &text[part.start..part.end])
        .collect()
}

#[test]
fn several_townships() {
    let text = "T2N-R3W Sec 14: N2; T3N-R3W Sec 5: N2; and T4N-R3W Sec 5: N2";
    let north = Lots::new("T. 3 N., R. 3 W.".parse().unwrap());
    let plats = Plats::new([corner(), north]).unwrap();
    let parts = plats.suggest(text).unwrap();
    assert_eq!(
        places_in(text, &parts),
        [
            "T2N-R3W Sec 14: N2",
            "T3N-R3W Sec 5: N2",
            "T4N-R3W Sec 5: N2"
        ]
    );
    let readings: Vec<_> = parts
        .into_iter()
        .map(|part| only(part.suggestion.readings))
        .collect();
    assert_eq!(corner().normal(&readings[0]).unwrap(), NORTH_HALF);
    assert_eq!(
        plats.acres(&readings[1].text).unwrap().to_string(),
        "320.00"
    );
    let assumed: Vec<_> = readings
        .iter()
        .map(|reading| reading.assumes_standard_lots)
        .collect();
    // Of the last township, no plat is known.
    assert_eq!(assumed, [false, false, true]);
    // By field notes, the standard lots are those of the plat.
    let plats = Plats::new([uneven()]).unwrap();
    let parts = plats.suggest("T2N R3W Sec 5: N2").unwrap();
    assert!(!parts[0].suggestion.readings[0].assumes_standard_lots);
}

#[test]
fn land_before_its_heading() {
    let plats = Plats::new([lake()]).unwrap();
    let phrases = Phrases::new(["Kestrel"]).unwrap();
    for (text, acres) in [
        ("L4 of Sec 14, T2N R3W", "71.10"),
        ("Kestrel Sec 14-2N-3W NE4", "150.55"),
        ("All of Sec 14 less Lot 1, T2N R3W", "543.15"),
    ] {
        let parts = plats.suggest_without(text, &phrases).unwrap();
        assert_eq!(parts.len(), 1, "{text}");
        assert_eq!((parts[0].start, parts[0].end), (0, text.len()));
        assert_read_on_its_plat(&plats, parts, acres, text);
    }
}

#[test]
fn lots_that_only_the_table_has() {
    // A regular township has no lots in section 14. The township is in no heading.
    let others = Lots::read(
        LAKE.replace("T,2,N", "T,3,N")
            .replace("71.10", "70.10")
            .as_bytes(),
    );
    let plats = Plats::new([others.unwrap(), lake()]).unwrap();
    for (text, acres) in [
        ("L4 Sec 14-2N-3W", "71.10"),
        ("Lots 1, 2 of Sec 14-02N-03W", "50.75"),
        ("Sec 14-3N-3W L4", "70.10"),
        ("Fractional NE/4 Sec 14-2N-3W", "150.55"),
    ] {
        let parts = plats.suggest(text).unwrap();
        assert_read_on_its_plat(&plats, parts, acres, text);
    }
    // A lot that the plat doesn't have; another range and another side, of which there is no table.
    for text in ["L9 Sec 14-2N-3W", "L4 Sec 14-2N-4W", "L4 Sec 14-2S-3W"] {
        let parts = plats.suggest(text).unwrap();
        assert!(parts[0].suggestion.readings.is_empty(), "{text}");
    }
}

#[test]
fn phrases_between_parts() {
    // A phrase before the separator is in the first part, and one after it in the second.
    let phrases = Phrases::new(["Kestrel", "Merlin"]).unwrap();
    let text = "T2N R3W Sec 14: N2 Kestrel; Merlin T3N R3W Sec 14: N2";
    let parts = Plats::default().suggest_without(text, &phrases).unwrap();
    assert_eq!(
        places_in(text, &parts),
        ["T2N R3W Sec 14: N2 Kestrel", "Merlin T3N R3W Sec 14: N2"]
    );
    for part in &parts {
        assert_eq!(part.suggestion.readings[0].assumptions().count(), 1);
    }
}

#[test]
fn texts_that_are_too_long() {
    let text = "T2N R3W sec. 14".to_owned() + &" ".repeat(1 << 20);
    let refused = Plats::default().suggest(&text).unwrap_err();
    assert_eq!(refused.number, 39);
}
