//! Lot tables that say where their lots lie, and land on their plats.

mod samples;

use samples::{lake, LAKE};
use std::collections::{BTreeMap, HashSet};
use township::{
    Comparison, Date, Land, Lots, NoLandAcres, OtherPlat, Part, Plats, Refusal, Township,
};

/// Lot 9 lies in two parts, of which one shares a quarter-quarter with land that is not there; and
/// section 20 is not there at all.
const PARTS: &str = "section,lot,acres,land
T,2,N,3,W
14,9,45.01,\"NE1/4NE1/4, SW1/4SW1/4SW1/4\"
14,,,\"N1/2SW1/4SW1/4, SE1/4SW1/4SW1/4\"
20,,,\"N1/2, S1/2\"
";

fn parts() -> Lots {
    PARTS.parse().unwrap()
}

fn township() -> Township {
    lake().township()
}

#[test]
fn tables() {
    let lots = lake();
    let date: Date = "1912-03-04".parse().unwrap();
    assert_eq!((lots.date(), lots.has_land()), (Some(date), true));
    assert_eq!(
        (parts().date(), Lots::new(township()).has_land()),
        (None, false)
    );
    let figures: Vec<_> = lots
        .figures()
        .map(|(section, lot, acres)| (section, lot, acres.unwrap().hundredths()))
        .collect();
    let wanted = [
        (5, 1, 4045),
        (14, 1, 3850),
        (14, 2, 1225),
        (14, 3, 1980),
        (14, 4, 7110),
    ];
    assert_eq!(figures, wanted);
    assert_eq!(lots.figure(14, 3).unwrap().to_string(), "19.80");
    assert_eq!(lots.figure(14, 5), None);
}

#[test]
fn where_lots_lie() {
    let of = |lots: &Lots, section, lot| lots.land_of_lot(section, lot);
    assert_eq!(of(&lake(), 14, 2).as_deref(), Some("N1/2NW1/4NE1/4"));
    assert_eq!(
        of(&parts(), 14, 9).as_deref(),
        Some("NE1/4NE1/4, SW1/4SW1/4SW1/4")
    );
    for (section, lot) in [(14, 5), (14, 0), (13, 1), (0, 1), (37, 1)] {
        assert_eq!(of(&lake(), section, lot), None);
    }
    // Of a regular township, along the west boundary from the north.
    let standard = Lots::new(township());
    assert_eq!(of(&standard, 19, 1).as_deref(), Some("NW1/4NW1/4"));
    assert_eq!(of(&standard, 6, 7).as_deref(), Some("SW1/4SW1/4"));

    let section: Vec<_> = lake()
        .section(14)
        .into_iter()
        .map(|each| {
            (
                each.lot,
                each.acres.map(|acres| acres.hundredths()),
                each.land,
            )
        })
        .collect();
    let each = |lot, acres, land: &str| (lot, acres, land.to_owned());
    assert_eq!(
        section,
        [
            each(Some(1), Some(3850), "NE1/4NE1/4"),
            each(Some(2), Some(1225), "N1/2NW1/4NE1/4"),
            each(Some(3), Some(1980), "S1/2NW1/4NE1/4"),
            each(Some(4), Some(7110), "E1/2NW1/4"),
            each(None, None, "NW1/4NW1/4"),
        ]
    );
    assert_eq!(parts().section(20)[0].land, "N1/2, S1/2");
    assert!(lake().section(13).is_empty() && lake().section(37).is_empty());
}

#[test]
fn texts() {
    for table in [
        LAKE,
        PARTS,
        "section,lot,acres\nT,2,N,3,W,0099-12-31\n5,1,40.45\n",
        "section,lot,acres,land\nT,9,S,8,E\n",
    ] {
        let lots: Lots = table.parse().unwrap();
        assert_eq!(lots.to_string(), table);
    }
    // The records in another order, and the parts otherwise spelled.
    let lines: Vec<&str> = LAKE.lines().collect();
    let again = [
        &lines[..2],
        &[lines[7], lines[6], lines[5], lines[4], lines[3], lines[2]],
    ]
    .concat()
    .join("\n")
    .replace("E1/2NW1/4", "\"NE1/4NW1/4 and SE1/4 of the NW¼\"");
    let again: Lots = again.parse().unwrap();
    assert_eq!(again, lake());
    assert_eq!(HashSet::from([again, lake(), parts()]).len(), 2);
    assert_ne!(lake(), LAKE.replace("1912", "1913").parse().unwrap());
    assert_ne!(lake(), LAKE.replace("14,,,NW", "14,,,SW").parse().unwrap());
}

#[test]
fn descriptions() {
    for (description, acres) in [
        // 38.50 + 12.25 + 19.80.
        ("sec. 14, lots 1 to 3.", "70.55"),
        // The four lots have 141.65 acres; 640 - 160 - 40 others are there.
        ("sec. 14.", "581.65"),
        ("sec. 14, SW1/4NW1/4, S1/2NE1/4.", "120.00"),
        ("sec. 5, lot 1, NW1/4NE1/4.", "80.45"),
    ] {
        assert_eq!(lake().acres(description).unwrap().to_string(), acres);
        let land = lake().land(description).unwrap();
        assert_eq!(lake().land_acres(&land).unwrap().to_string(), acres);
    }
    assert_eq!(
        parts().acres("sec. 14, lot 9.").unwrap().to_string(),
        "45.01"
    );
    let normal = lake().normal("sec. 14, SE1/4, lot 3 and lot 1.").unwrap();
    assert_eq!(normal, "T. 2 N., R. 3 W.,\nsec. 14, lots 1, 3, SE1/4.\n");
    let many = lake().normal_many(&["sec. 14, lot 2.", "sec. 14, lot 5."]);
    assert_eq!(
        many[0].as_deref(),
        Ok("T. 2 N., R. 3 W.,\nsec. 14, lot 2.\n")
    );
    assert_eq!(many[1].as_ref().unwrap_err().number, 64);
    assert!(lake().notes("sec. 14, lots 1 to 3.").unwrap().is_empty());
    assert_eq!(lake().notes("sec. 14, SE1/4 SW1/4.").unwrap().len(), 1);
}

#[test]
fn refusals() {
    for (description, number, at, sentence, hint) in [
        (
            "sec. 14, lot 5.",
            64,
            13,
            "section 14 has lots 1 to 4",
            None,
        ),
        (
            "sec. 5, lots 1 and 2.",
            64,
            19,
            "section 5 has only lot 1",
            None,
        ),
        (
            "sec. 14, NE1/4.",
            66,
            9,
            "this part includes lots; name the lots instead",
            Some("write sec. 14, lots 1, 2 and 3, S1/2NE1/4"),
        ),
        (
            "sec. 14, NW1/4NW1/4.",
            68,
            9,
            "the plat has no land in this part",
            None,
        ),
    ] {
        let refused = lake().acres(description).unwrap_err();
        assert_eq!((refused.number, refused.at), (number, at));
        assert_eq!(refused.sentence(), sentence);
        assert_eq!(refused.hints().first().map(String::as_str), hint);
        for other in [
            lake().land(description).unwrap_err(),
            lake().normal(description).unwrap_err(),
            lake().notes(description).unwrap_err(),
        ] {
            assert_eq!(other, refused);
        }
    }
    for (table, number, at, sentence) in [
        (
            "section,lot,acres,land\nT,2,N,3,W,1913-02-29\n",
            95,
            2,
            "`1913-02-29` is not a date",
        ),
        (
            "section,lot,acres,land\nT,2,N,3,W\n14,1,38.50,NENE\n",
            96,
            3,
            "`NENE` is not land",
        ),
        (
            "section,lot,acres,land\nT,2,N,3,W\n14,1,38.50,NE1/4\n14,,,N1/2\n",
            98,
            4,
            "this land shares a place",
        ),
        (
            "section,lot,acres,land\nT,2,N,3,W\n14,1,38.50,N1/2NE1/4NE1/4\n",
            100,
            3,
            "a quarter-quarter of this lot also contains land",
        ),
    ] {
        let refused = Lots::read(table.as_bytes()).unwrap_err();
        assert_eq!((refused.number, refused.at), (number, at));
        assert!(refused.sentence().starts_with(sentence), "{refused}");
    }
}

#[test]
fn number_in_a_gap() {
    let table = "section,lot,acres,land\nT,2,N,3,W\n14,2,40.00,NE1/4NE1/4\n14,5,40.00,NW1/4NE1/4\n";
    let lots: Lots = table.parse().unwrap();
    for (lot, hint) in [
        (1, None),
        (3, Some("the nearest lots are 2 and 5")),
        (4, Some("the nearest lots are 2 and 5")),
        (6, None),
    ] {
        let refused = lots.acres(format!("sec. 14, lot {lot}.")).unwrap_err();
        assert_eq!(refused.number, 64);
        assert_eq!(refused.sentence(), "section 14 has lots 2 and 5");
        assert_eq!(refused.hints().first().map(String::as_str), hint);
    }
}

#[test]
fn land_on_a_plat() {
    let land = lake().land("sec. 14, lots 1 and 4.").unwrap();
    assert_eq!((land.date(), land.lots()), (lake().date(), Some(&lake())));
    assert_eq!(land.to_string(), "T. 2 N., R. 3 W.,\nsec. 14, lots 1, 4.\n");
    let section = lake().land("sec. 14.").unwrap();
    let rest = &section - &lake().land("sec. 14, lots 1 to 3.").unwrap();
    assert_eq!(
        rest.to_string(),
        "T. 2 N., R. 3 W.,\nsec. 14, lot 4, S1/2NE1/4, SW1/4NW1/4, S1/2.\n"
    );
    // 71.10 + 440
    assert_eq!(lake().land_acres(&rest).unwrap().to_string(), "511.10");
    assert!(rest < section && section.contains(&rest) && rest.overlaps(&section));
    let (number, in_section) = rest.sections().next().unwrap();
    assert_eq!((number, &in_section), (14, &rest));
}

#[test]
fn parts_of_land() {
    let block = |part: &Part| (part.lot, part.column, part.row, part.columns, part.rows);
    let blocks = |lots: Lots, description: &str| -> Vec<_> {
        let land = lots.land(description).unwrap();
        land.parts().iter().map(block).collect()
    };
    assert_eq!(
        blocks(lake(), "sec. 14, lots 2 and 3, SE1/4."),
        [
            (Some(2), 8, 28, 8, 4),
            (Some(3), 8, 24, 8, 4),
            (None, 0, 0, 16, 16)
        ]
    );
    assert_eq!(
        blocks(parts(), "sec. 14, lot 9."),
        [(Some(9), 0, 24, 8, 8), (Some(9), 28, 0, 4, 4)]
    );
    assert!(blocks(lake(), "sec. 14.")
        .iter()
        .all(|part| part.0.is_none()));
}

#[test]
fn different_plats() {
    let land = lake().land("sec. 13.").unwrap();
    let on = |table: String| table.parse::<Lots>().unwrap().land("sec. 13.").unwrap();
    let moved = LAKE.replace("14,1,38.50,NE1/4NE1/4", "14,1,38.50,SE1/4NE1/4");
    for other in [
        on(LAKE.replace("1912-03-04", "1950-01-01")),
        on(LAKE.replace(",1912-03-04", "")),
        on("section,lot,acres\nT,2,N,3,W,1912-03-04\n".to_owned()),
        Land::read(township(), "sec. 13.").unwrap(),
        // The same date, but lot 1 is elsewhere.
        on(moved),
    ] {
        for combine in [
            Land::union,
            Land::intersection,
            Land::difference,
            Land::symmetric_difference,
        ] {
            let error: OtherPlat = combine(&land, &other).unwrap_err();
            assert_eq!((error.first, error.second), (township(), township()));
            assert_eq!(
                error.to_string(),
                "these are on two different plats of T. 2 N., R. 3 W."
            );
        }
        assert_eq!(land.compare(&other), Comparison::OtherPlat);
        assert_eq!(land.partial_cmp(&other), None);
        for call in [Land::is_disjoint, Land::overlaps, Land::contains] {
            assert!(std::panic::catch_unwind(|| call(&land, &other)).is_err());
        }
    }
    let standard = Land::read(township(), "sec. 5, lot 1.").unwrap();
    for (lots, land) in [(lake(), &standard), (parts(), &land)] {
        assert!(matches!(
            lots.land_acres(land),
            Err(NoLandAcres::OtherPlat(_))
        ));
    }
    // Land that was read without a table is on each plat with the standard lots.
    let dated: Lots = "section,lot,acres\nT,2,N,3,W,1912-03-04\n5,1,40.45\n"
        .parse()
        .unwrap();
    assert_eq!(dated.land_acres(&standard).unwrap().to_string(), "40.45");
    assert_eq!(dated.land("sec. 5.").unwrap().date(), dated.date());
}

#[test]
fn land_of_other_lots() {
    // Two tables without a date, whose plats the library can't tell apart, with lots at other places.
    let table = |land: &str| -> Lots {
        let text = format!("section,lot,acres,land\nT,2,N,3,W\n14,1,38.50,{land}\n");
        text.parse().unwrap()
    };
    let whole = table("NE1/4NE1/4");
    for other in [
        table("N1/2NE1/4NE1/4\n14,2,18.50,S1/2NE1/4NE1/4"),
        table("SE1/4NE1/4"),
    ] {
        let land = other.land("sec. 14, lot 1.").unwrap();
        assert!(matches!(
            whole.land_acres(&land),
            Err(NoLandAcres::OtherPlat(_))
        ));
        assert!(matches!(
            whole.land_area(&land),
            Err(NoLandAcres::OtherPlat(_))
        ));
    }
    // The same lots with another acreage.
    let again: Lots = whole.to_string().replace("38.50", "38.60").parse().unwrap();
    let land = whole.land("sec. 14, lot 1.").unwrap();
    assert_eq!(again.land_acres(&land).unwrap().to_string(), "38.60");
}

#[test]
fn tracts() {
    let tracts = [
        ("A", "sec. 14, lots 1 and 2."),
        ("B", "sec. 14, lot 3, SE1/4."),
    ];
    let report = lake().report_of(tracts).unwrap();
    // 50.75 + 179.80
    assert_eq!(report.total.to_string(), "230.55");
    let refused = lake().report_of([("A", "sec. 14, NE1/4.")]).unwrap_err();
    assert_eq!(
        (refused.number, refused.inner),
        (83, Some(Refusal { number: 66, at: 9 }))
    );
    let refused = lake()
        .report_of([("A", "sec. 14."), ("B", "sec. 14, lot 1.")])
        .unwrap_err();
    assert_eq!((refused.number, refused.at), (84, 3));

    let listed = [
        tracts[0],
        tracts[1],
        ("C", "sec. 14, lot 5."),
        ("A", "sec. 14."),
        ("E", "sec. 14, lots 2 and 4."),
    ];
    let answers = lake().report_each(listed).unwrap();
    let acres: Vec<_> = answers
        .iter()
        .map(|each| each.answer.map(|acres| acres.hundredths()).ok())
        .collect();
    assert_eq!(acres, [Some(5075), Some(17980), None, None, Some(8335)]);
    let overlaps = lake().overlaps(listed).unwrap();
    let found: Vec<_> = overlaps
        .iter()
        .map(|each| (each.first, each.second, each.acres.unwrap().hundredths()))
        .collect();
    assert_eq!(
        found,
        [(0, 3, 5075), (1, 3, 17980), (0, 4, 1225), (3, 4, 8335)]
    );
}

#[test]
fn several_townships() {
    let plats = Plats::new([lake()]).unwrap();
    let acres = plats.acres("T2N R3W sec. 14, lots 1 to 3").unwrap();
    assert_eq!(acres.to_string(), "70.55");
    let lands = plats
        .land("T2N R3W sec. 14, lot 1; T3N R3W sec. 5, lot 1")
        .unwrap();
    assert_eq!(lands.get(township()).unwrap().lots(), Some(&lake()));
}

/// The same numbers below a limit in each run.
struct Chance(u64);

impl Chance {
    fn below(&mut self, limit: u64) -> u64 {
        self.0 ^= self.0 << 13;
        self.0 ^= self.0 >> 7;
        self.0 ^= self.0 << 17;
        self.0 % limit
    }

    /// Parts that make up a part: itself, or those of its halves or quarters.
    fn pieces(&mut self, part: &str, depth: u64) -> Vec<String> {
        let into: &[&str] = match self.below(6) {
            _ if depth == 0 => return vec![part.to_owned()],
            0 => &["NE1/4", "NW1/4", "SE1/4", "SW1/4"],
            1 => &["N1/2", "S1/2"],
            2 => &["E1/2", "W1/2"],
            _ => return vec![part.to_owned()],
        };
        into.iter()
            .flat_map(|each| self.pieces(&format!("{each}{part}"), depth - 1))
            .collect()
    }
}

/// The records of a table, with the parts of each lot by its section and number.
fn random_table(chance: &mut Chance) -> (String, BTreeMap<(u8, u8), Vec<String>>) {
    let mut table = "section,lot,acres,land\nT,2,N,3,W\n".to_owned();
    let mut lots: BTreeMap<(u8, u8), Vec<String>> = BTreeMap::new();
    for section in 8..=15 {
        for large in ["NE1/4", "NW1/4", "SE1/4", "SW1/4"] {
            for small in ["NE1/4", "NW1/4", "SE1/4", "SW1/4"] {
                if chance.below(3) > 0 {
                    continue;
                }
                for piece in chance.pieces(&format!("{small}{large}"), 3) {
                    if chance.below(9) == 0 {
                        table += &format!("{section},,,{piece}\n");
                    } else {
                        let lot = 1 + chance.below(40) as u8;
                        lots.entry((section, lot)).or_default().push(piece);
                    }
                }
            }
        }
    }
    for ((section, lot), parts) in &lots {
        table += &format!("{section},{lot},{lot}.50,\"{}\"\n", parts.join(", "));
    }
    (table, lots)
}

#[test]
fn random_tables() {
    let mut chance = Chance(63);
    for _ in 0..200 {
        let (table, wanted) = random_table(&mut chance);
        let lots: Lots = table.parse().unwrap();
        let text = lots.to_string();
        assert_eq!(text.parse::<Lots>().as_ref(), Ok(&lots), "{table}\n{text}");
        assert_eq!(lots.figures().count(), wanted.len());
        for ((section, lot), parts) in wanted {
            // A regular township has no lots in these sections.
            let of_parts = |parts: &str| {
                let land = Land::read(township(), format!("sec. {section}, {parts}.")).unwrap();
                *land.rows()
            };
            let land = lots.land(format!("sec. {section}, lot {lot}.")).unwrap();
            assert_eq!(*land.rows(), of_parts(&parts.join(", ")), "{table}");
            let text = lots.land_of_lot(section, lot).unwrap();
            assert_eq!(*land.rows(), of_parts(&text), "{table}");
        }
    }
}
