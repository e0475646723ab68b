//! Lot tables: how they are read, the acreage by them, and how they differ from a plat.

mod samples;

use samples::{even, uneven};
use township::{Account, Acres, Land, Lots, NoLandAcres, Plat, Refusal};

const HEADING: &str = "section,lot,acres\nT,2,N,3,W\n";
const TABLE: &str = "section,lot,acres\nT,2,N,3,W\n5,1,40.45\n6,7,36.86\n5,2,40.50\n";

fn table() -> Lots {
    TABLE.parse().unwrap()
}

fn land(description: &str) -> Land {
    Land::read(even().township(), description).unwrap()
}

fn acres(hundredths: u64) -> Acres {
    Acres::from_hundredths(hundredths)
}

/// The figures that a plat prints, as a lot table.
fn printed(plat: &Plat) -> Lots {
    let mut table = HEADING.to_owned();
    for section in plat.figures().sections {
        for (lot, acres) in (1..).zip(section.lots) {
            table += &format!("{},{lot},{acres}\n", section.number);
        }
    }
    table.parse().unwrap()
}

#[test]
fn read() {
    assert_eq!(table().township(), even().township());
    assert_eq!(table().figure(5, 2), Some(acres(4_050)));
    assert_eq!(table().figure(6, 7), Some(acres(3_686)));
    for (section, lot) in [(5, 3), (5, 5), (14, 1), (0, 0), (37, 1)] {
        assert_eq!(table().figure(section, lot), None);
    }
    assert_eq!(Lots::try_from(TABLE.as_bytes()), Ok(table()));
    assert_eq!(TABLE.replace('\n', "\r\n").parse(), Ok(table()));
}

#[test]
fn each_lot_has_its_own_figure() {
    // 10.01 acres for the first lot, 10.47 for the last.
    let mut text = HEADING.to_owned();
    let lots: Vec<(u8, u8)> = table()
        .figures()
        .map(|(section, lot, _)| (section, lot))
        .collect();
    assert_eq!(lots.len(), 47);
    for ((section, lot), hundredths) in lots.iter().zip(1_001..) {
        text += &format!("{section},{lot},{}\n", acres(hundredths));
    }
    let made: Lots = text.parse().unwrap();
    for ((section, lot), hundredths) in lots.iter().zip(1_001..) {
        assert_eq!(made.figure(*section, *lot), Some(acres(hundredths)));
        let description = format!("sec. {section}, lot {lot}.");
        assert_eq!(made.acres(description), Ok(acres(hundredths)));
    }
}

#[test]
fn figures_are_in_the_order_of_the_library() {
    // Each lot alone in a table: the library puts its figure where the crate finds it.
    for (section, lot, _) in table().figures() {
        let made: Lots = format!("{HEADING}{section},{lot},12.34\n").parse().unwrap();
        for (its_section, its_lot, figure) in made.figures() {
            let wanted = ((its_section, its_lot) == (section, lot)).then(|| acres(1_234));
            assert_eq!(figure, wanted, "{section} {lot}: {its_section} {its_lot}");
        }
    }
}

#[test]
fn to_fill_in() {
    let mut wanted = HEADING.to_owned();
    for (section, count) in [
        (1, 4),
        (2, 4),
        (3, 4),
        (4, 4),
        (5, 4),
        (6, 7),
        (7, 4),
        (18, 4),
        (19, 4),
        (30, 4),
        (31, 4),
    ] {
        for lot in 1..=count {
            wanted += &format!("{section},{lot},40.00\n");
        }
    }
    let made = Lots::new(even().township());
    assert_eq!(made.to_string(), wanted);
    assert_eq!(wanted.parse(), Ok(made));
}

#[test]
fn written() {
    let sorted = format!("{HEADING}5,1,40.45\n5,2,40.50\n6,7,36.86\n");
    assert_eq!(table().to_string(), sorted);
    assert_eq!(sorted.parse(), Ok(table()));
    let shown = format!("{:?}", table());
    assert!(
        shown.contains("(5, 1): 4045, (5, 2): 4050, (6, 7): 3686"),
        "{shown}"
    );
}

#[test]
fn refused_tables() {
    let too_large = HEADING.to_owned() + &" ".repeat(65_537 - HEADING.len());
    let records = |records: &str| HEADING.to_owned() + records;
    for (table, number, at) in [
        (too_large, 86, 65_536),
        (String::new(), 87, 1),
        ("section,lot\n".to_owned(), 88, 1),
        ("section,lot,acres\nT,2,N,3\n".to_owned(), 89, 2),
        (records("5,1\n"), 89, 3),
        ("section,lot,acres\nT,100,N,3,W\n".to_owned(), 90, 2),
        ("section,lot,acres\n".to_owned(), 90, 2),
        (records("5,1,40.45\n5,5,40.00\n"), 91, 4),
        (records("5,1,40.455\n"), 92, 3),
        (records("5,1,40.45\n5,2,40.45\n5,1,40.45\n"), 93, 5),
    ] {
        let refused = Lots::read(table.as_bytes()).unwrap_err();
        assert_eq!((refused.number, refused.at), (number, at));
        assert_eq!(refused.inner, None);
        // No record is shown if there is none, or none that is at fault.
        let is_shown = number != 86 && !["", "section,lot,acres\n"].contains(&table.as_str());
        // A record is on the line with its number.
        assert_eq!(refused.line, is_shown.then_some(at));
        assert_eq!(refused.column.is_some(), is_shown);
        let place = if is_shown {
            format!(":{at}")
        } else {
            String::new()
        };
        let sentence = refused.sentence();
        assert_eq!(refused.to_string(), format!("lots{place}: {sentence}"));
        // A long sentence takes more than one line.
        let words: Vec<&str> = refused.explanation.split_whitespace().collect();
        assert!(words.join(" ").starts_with(&format!("township: {refused}")));
    }
}

#[test]
fn tables_are_read_as_spreadsheets_save_them() {
    let wanted: Lots = TABLE.parse().unwrap();
    for table in [
        "section,lot,acres,,\nT,2,N,3,W\n5,1,40.45,,\n,,,,\n6,7,36.86,,\n5,2,40.5,,\n",
        "section;lot;acres;;\r\nT;2;N;3;W\r\n5;1;40.45;;\r\n6;7;36.86;;\r\n5;2;40.5;;\r\n",
        "section\tlot\tacres\nT\t2\tN\t3\tW\n5\t1\t40.45\n6\t7\t36.86\n5\t2\t40.5\n",
    ] {
        assert_eq!(table.parse(), Ok(wanted.clone()));
    }
}

#[test]
fn refusal_of_a_spreadsheet_has_its_line_and_no_bytes() {
    let table = "section;lot;acres;;\nT;2;N;3;W\n;;;;\n5;1;40,5;;\n";
    let refused = Lots::read(table.as_bytes()).unwrap_err();
    assert_eq!((refused.number, refused.at, refused.line), (92, 3, Some(4)));
    assert_eq!((refused.span(), refused.other()), (None, None));
    assert!(refused.explanation.contains("  4 | 5,1,\"40,5\"\n"));
}

#[test]
fn table_is_shown_at_the_fields_that_are_wrong() {
    let table = HEADING.to_owned() + "5,1,40.45\n5,2,40.5000\n";
    let refused = Lots::read(table.as_bytes()).unwrap_err();
    assert_eq!(
        (refused.number, refused.line, refused.column),
        (92, Some(4), Some(5))
    );
    assert_eq!(&table[refused.span().unwrap()], "40.5000");
    assert_eq!(refused.hints(), ["write `40.50`"]);

    let again = HEADING.to_owned() + "5,1,40.45\n05,1,40.50\n";
    let refused = Lots::read(again.as_bytes()).unwrap_err();
    let other = refused.other().unwrap();
    assert_eq!(
        (refused.number, refused.line, other.record),
        (93, Some(4), Some(3))
    );
    assert_eq!(&again[refused.span().unwrap()], "05,1");
    assert_eq!(&again[other.span.clone()], "5,1");
    assert_eq!(refused.hints(), ["record 3 at line 3 is also for this lot"]);
}

#[test]
fn measured() {
    // Two returned lots, and two quarter-quarters of 40 acres.
    let description = "sec. 5, lots 1 and 2, S1/2NE1/4.";
    assert_eq!(table().acres(description), Ok(acres(16_095)));
    assert_eq!(table().land_acres(&land(description)), Ok(acres(16_095)));
    assert_eq!(table().area(description), Ok("3219/20".parse().unwrap()));
    assert_eq!(
        table().land_area(&land(description)),
        Ok("3219/20".parse().unwrap())
    );
    // 5/8 of an acre.
    assert_eq!(
        table().acres("sec. 14, NE1/4NE1/4NE1/4NE1/4NE1/4."),
        Ok(acres(63))
    );
}

#[test]
fn lacking_lots() {
    let sentence = |lot: u32, section: u32| {
        format!("the lot table has no record for lot {lot} of section {section}")
    };
    for (description, section, lot) in [
        ("sec. 5, lots 1 to 4.", 5, 3),
        ("sec. 6; sec. 5, lot 4.", 5, 4),
        ("sec. 6, lots 7 and 6.", 6, 6),
    ] {
        for refused in [
            table().acres(description).unwrap_err(),
            table().area(description).unwrap_err(),
        ] {
            assert_eq!((refused.number, refused.at), (94, 100 * section + lot));
            assert_eq!(
                refused.to_string(),
                format!("description: {}", sentence(lot, section))
            );
        }
        for error in [
            table().land_acres(&land(description)).unwrap_err(),
            table().land_area(&land(description)).unwrap_err(),
        ] {
            assert_eq!(
                error.to_string(),
                format!("land: {}", sentence(lot, section))
            );
            assert!(matches!(error, NoLandAcres::Lacking(refused) if refused.number == 94));
        }
    }
}

#[test]
fn refused_descriptions() {
    // They are refused as on a plat, before any lot that is lacking.
    for description in [
        "",
        "sec. 5, lot 5.",
        "sec. 5, N1/2.",
        "sec. 7, lots 1 and 1.",
        "T. 3 N., R. 3 W., sec. 14.",
    ] {
        let refused = uneven().acres(description).unwrap_err();
        assert_eq!(table().acres(description), Err(refused.clone()));
        assert_eq!(table().area(description), Err(refused));
    }
}

#[test]
fn report() {
    // 40.45 acres; 40.50 and 80 acres.
    let tracts = [
        ("A", "sec. 5, lot 1."),
        ("the \"old\" place", "sec. 5, lot 2, S1/2NE1/4."),
    ];
    let report = table().report_of(tracts).unwrap();
    let shown: Vec<_> = report.tracts.iter().map(ToString::to_string).collect();
    assert_eq!(
        shown,
        [
            "tract A: 40.45 acres",
            "tract the \"old\" place: 120.50 acres"
        ]
    );
    assert_eq!(report.total, acres(16_095));
    let none = table().report("name,description\n").unwrap();
    assert_eq!((none.tracts, none.total), (vec![], acres(0)));
    // Each tract has 5/8 of an acre, 0.63 rounded; together they have 1.25.
    let smallest = [
        ("A", "sec. 14, NE1/4NE1/4NE1/4NE1/4NE1/4."),
        ("B", "sec. 14, NW1/4NE1/4NE1/4NE1/4NE1/4."),
    ];
    let report = table().report_of(smallest).unwrap();
    assert!(report.tracts.iter().all(|tract| tract.acres == acres(63)));
    assert_eq!(report.total, acres(125));
}

#[test]
fn refused_lists() {
    // Of section 5, the table has lots 1 and 2. The lot comes before what is wrong with later tracts.
    for (list, name, at, lot) in [
        ("A,\"sec. 5, lots 1 to 4.\"\n", "A", 2, 503),
        ("A,sec. 14.\nB,\"sec. 14; sec. 5, lot 4.\"\n", "B", 3, 504),
        (
            "A,sec. 14.\nB,\"sec. 7, lot 1.\"\nA,sec. 15.\n",
            "B",
            3,
            701,
        ),
    ] {
        let list = "name,description\n".to_owned() + list;
        let refused = table().report(&list).unwrap_err();
        assert_eq!((refused.number, refused.at), (83, at));
        let inner = Refusal {
            number: 94,
            at: lot,
        };
        assert_eq!(refused.inner, Some(inner));
        let (lot, section) = (lot % 100, lot / 100);
        assert_eq!(
            refused.to_string(),
            format!(
                "tracts:{at}: tract `{name}`: the lot table has no record for lot {lot} of section {section}"
            )
        );
    }
    // Other lists are refused as on a plat, before any later lot that is lacking.
    for list in [
        "",
        "name;description\n",
        "name,description\nA,sec. 14.\nA,sec. 15.\nZ,\"sec. 31, lot 1.\"\n",
        "name,description\nA,\"sec. 14, NE1/4 and N1/2.\"\nZ,\"sec. 31, lot 1.\"\n",
        "name,description\nA,sec. 14.\nB,\"sec. 14, NE1/4.\"\nZ,\"sec. 31, lot 1.\"\n",
    ] {
        let refused = uneven().report(list).unwrap_err();
        assert_eq!(table().report(list), Err(refused));
    }
}

#[test]
fn land_in_another_township() {
    let other = Land::empty("T. 3 N., R. 3 W.".parse().unwrap());
    let error = table().land_acres(&other).unwrap_err();
    assert!(matches!(&error, NoLandAcres::OtherPlat(one) if one.first == other.township()));
    let message = "T. 3 N., R. 3 W. and T. 2 N., R. 3 W. are two different townships";
    assert_eq!(error.to_string(), message);
}

#[test]
fn figures_of_a_plat_are_its_account() {
    for plat in [even(), uneven()] {
        for description in [
            "secs. 1 to 36.",
            "sec. 6, lots 1 to 7.",
            "sec. 7, lots 1 to 4; sec. 14, NE1/4.",
        ] {
            let wanted = plat.area_by(description, Account::Plat);
            assert_eq!(printed(&plat).area(description), wanted);
        }
    }
}

#[test]
fn differences() {
    let found = uneven().differences(&table()).unwrap();
    let lots: Vec<_> = found
        .iter()
        .map(|one| (one.section, one.lot, one.returned))
        .collect();
    assert_eq!(lots, [(5, 2, acres(4_050)), (6, 7, acres(3_686))]);
    // The plat's figure of lot 2 of section 5 is 40.55.
    assert_eq!(
        (found[0].computed, found[0].hundredths()),
        (acres(4_055), -5)
    );
    for plat in [even(), uneven()] {
        assert_eq!(plat.differences(&printed(&plat)), Ok(vec![]));
    }
    let other: Lots = "section,lot,acres\nT,3,N,3,W\n".parse().unwrap();
    assert!(even().differences(&other).is_err());
}

#[test]
fn descriptions() {
    assert_eq!(table().land("sec. 5, lot 3."), Ok(land("sec. 5, lot 3.")));
    let normal = "T. 2 N., R. 3 W.,\nsec. 5, lots 1, 3.\n";
    assert_eq!(
        table().normal("sec. 5, lots 3 and 1."),
        Ok(normal.to_owned())
    );
    let notes = table().notes("sec. 14, NE1/4 SE1/4.").unwrap();
    assert_eq!((notes[0].line, notes[0].column), (1, 16));
    assert_eq!(table().notes("sec. 14."), Ok(vec![]));
    assert_eq!(table().land("sec. 37.").unwrap_err().number, 62);
}

#[test]
fn many_descriptions() {
    let descriptions = [
        "sec. 5, lot 1.",
        "sec. 5, lot 3.",
        "sec. 5, lot 5.",
        "sec. 36.",
    ];
    let answers = table().acres_many(&descriptions);
    assert_eq!(answers[0], Ok(acres(4_045)));
    assert_eq!(answers[1].as_ref().unwrap_err().number, 94);
    assert_eq!(answers[2].as_ref().unwrap_err().number, 64);
    assert_eq!(answers[3], Ok(acres(64_000)));
    let table = table();
    let one_by_one: Vec<_> = table.acres_of(descriptions).collect();
    assert_eq!(one_by_one, answers);
    let texts = table.normal_many(&descriptions);
    for (text, description) in texts.iter().zip(descriptions) {
        assert_eq!(*text, table.normal(description));
    }
}

#[test]
fn each_of_many_tracts() {
    let tracts = [
        ("A", "sec. 5, lots 2 and 3."),
        ("B", "sec. 5, lot 3."),
        ("C", "sec. 5, lot 2."),
        ("D", "sec. 37."),
        ("A", "sec. 14."),
    ];
    let answers = table().report_each(tracts).unwrap();
    let refusals: Vec<_> = answers
        .iter()
        .map(|each| each.answer.err().map(|error| (error.refusal, error.inner)))
        .collect();
    let refusal = |number, at| Refusal { number, at };
    assert_eq!(
        refusals,
        [
            Some((refusal(83, 2), Some(refusal(94, 503)))),
            Some((refusal(83, 3), Some(refusal(94, 503)))),
            None,
            Some((refusal(83, 5), Some(refusal(62, 5)))),
            Some((refusal(82, 6), None)),
        ]
    );
    assert_eq!(answers[2].answer, Ok(acres(4_050)));
    let overlaps: Vec<_> = table()
        .overlaps(tracts)
        .unwrap()
        .iter()
        .map(|each| (each.first, each.second, each.acres))
        .collect();
    assert_eq!(overlaps, [(0, 1, None), (0, 2, Some(acres(4_050)))]);
    let many = (0..1_001).map(|index| (index.to_string(), "sec. 14."));
    assert_eq!(table().report_each(many.clone()).unwrap_err().number, 85);
    assert_eq!(table().overlaps(many).unwrap_err().number, 85);
}
