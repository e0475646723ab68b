//! Land in several townships, and its acreage by the plats and lot tables of all of them.

mod samples;

use samples::{even, uneven};
use std::collections::BTreeMap;
use std::fs;
use std::path::{Path, PathBuf};
use std::time::Instant;
use township::{
    Account, Acres, Area, Basis, Land, Lands, Lots, NoAcres, OpenError, Plats, Refusal, Township,
};

/// Lots of T. 3 N., R. 3 W. on its approved plat.
const TABLE: &str = "section,lot,acres\nT,3,N,3,W\n5,1,40.45\n31,1,38.97\n31,2,39.01\n";

/// 40.45 + 40.55 acres by the plat, and 320 + 38.97 + 39.01 acres by the table.
const TEXT: &str =
    "T. 2 N., R. 3 W., sec. 5, lots 1 and 2; T. 3 N., R. 3 W., sec. 31, lots 1 and 2; sec. 32, S1/2.";

fn township(text: &str) -> Township {
    text.parse().unwrap()
}

fn lots(text: &str) -> Lots {
    text.parse().unwrap()
}

fn acres(text: &str) -> Acres {
    text.parse().unwrap()
}

fn lands(text: &str) -> Lands {
    Lands::read(text).unwrap()
}

fn plats() -> Plats {
    Plats::new([Basis::from(uneven()), Basis::from(lots(TABLE))]).unwrap()
}

/// The refusal of a text, or of tracts.
fn refused<T: std::fmt::Debug>(result: Result<T, NoAcres>) -> township::Refused {
    match result.unwrap_err() {
        NoAcres::Refused(refused) => refused,
        other => panic!("it is another error: {other}"),
    }
}

/// A folder that is removed at the end.
struct Folder(PathBuf);

impl Folder {
    fn new(name: &str) -> Folder {
        let path = std::env::temp_dir().join(format!("township-{name}-{}", std::process::id()));
        let _ = fs::remove_dir_all(&path);
        fs::create_dir_all(&path).unwrap();
        Folder(path)
    }

    fn put(&self, name: &str, text: &str) {
        let path = self.0.join(name);
        fs::create_dir_all(path.parent().unwrap()).unwrap();
        fs::write(path, text).unwrap();
    }
}

impl Drop for Folder {
    fn drop(&mut self) {
        let _ = fs::remove_dir_all(&self.0);
    }
}

impl AsRef<Path> for Folder {
    fn as_ref(&self) -> &Path {
        &self.0
    }
}

#[test]
fn total_and_figures() {
    assert_eq!(plats().acres(TEXT).unwrap(), acres("478.98"));
    assert_eq!(
        plats().acres_by_township(TEXT).unwrap(),
        [
            (township("2N-3W"), acres("81.00")),
            (township("3N-3W"), acres("397.98"))
        ]
    );
}

#[test]
fn the_total_is_rounded_once() {
    let areas: Vec<Area> = ["sec. 7, lot 1.", "sec. 7, lot 4."]
        .iter()
        .map(|lot| uneven().area(lot).unwrap())
        .collect();
    let text = "T2N R3W sec. 7, lot 1; T2N R3W sec. 7, lot 4";
    assert_eq!(plats().area(text).unwrap(), areas.iter().sum());
    // 39.18 and 39.03 acres, each rounded.
    assert_eq!(plats().acres(text).unwrap(), acres("78.20"));
}

#[test]
fn accounts() {
    // 156.42 acres by the printed plat, and 38.97 by the table.
    let text = "T2N R3W sec. 7, lots 1 to 4; T3N R3W sec. 31, lot 1";
    let printed = plats().acres_by(text, Account::Plat).unwrap();
    assert_eq!(printed, acres("195.39"));
    // 156.40 acres by the exact area.
    assert_eq!(plats().acres(text).unwrap(), acres("195.37"));
}

#[test]
fn a_township_without_a_plat() {
    let error = plats()
        .acres("T2N R3W sec. 14; T4N R3W sec. 15")
        .unwrap_err();
    assert_eq!(error, NoAcres::MissingPlat(township("4N-3W")));
    assert_eq!(
        error.to_string(),
        "there are no field notes and no lot table for T. 4 N., R. 3 W."
    );
}

#[test]
fn a_lot_that_the_table_lacks() {
    let refused = refused(plats().acres("T2N R3W sec. 14; T3N R3W sec. 31, lot 3"));
    assert_eq!((refused.number, refused.at), (94, 3103));
    assert_eq!(
        refused.to_string(),
        "T. 3 N., R. 3 W.: the lot table has no record for lot 3 of section 31"
    );
}

#[test]
fn refused_parts() {
    for (text, number, at, source) in [
        (
            "T2N R3W sec. 14; T3N R3W sec. 37",
            62,
            13,
            "T. 3 N., R. 3 W.:1:14: ",
        ),
        (
            "T2N R3W sec. 14, T3N R3W sec. 31",
            44,
            16,
            "T. 2 N., R. 3 W.:1:17: ",
        ),
        ("T2N R3W sec. 14; T3N sec. 31", 33, 4, "township:1:5: "),
        ("sec. 14", 31, 0, "township:1:1: "),
        ("sec. 14; T3N R3W sec. 31", 38, 9, "description:1:10: "),
    ] {
        let refused = refused(plats().acres(text));
        assert_eq!((refused.number, refused.at), (number, at), "{text}");
        assert!(refused.to_string().starts_with(source), "{refused}");
    }
}

#[test]
fn land_that_is_named_twice() {
    let text = "T2N R3W sec. 14;\nT3N R3W sec. 31; T2N R3W sec. 14, NE1/4";
    let refused = refused(plats().acres(text));
    assert_eq!((refused.number, refused.at), (67, 34));
    assert_eq!((refused.line, refused.column), (Some(2), Some(18)));
    let hint = "both parts include T. 2 N., R. 3 W., sec. 14, NE1/4.";
    assert_eq!(refused.hints(), [hint]);
    assert!(refused.explanation.ends_with(&format!("  {hint}\n")));
}

#[test]
fn a_lot_table_controls() {
    let table = lots("section,lot,acres\nT,2,N,3,W\n5,1,40.00\n");
    for given in [
        vec![Basis::from(uneven()), table.clone().into()],
        vec![table.clone().into(), uneven().into(), table.clone().into()],
    ] {
        let plats = Plats::new(given).unwrap();
        assert_eq!(
            plats.acres("T2N R3W sec. 5, lot 1").unwrap(),
            acres("40.00")
        );
        assert_eq!(plats.len(), 1);
    }
}

#[test]
fn two_plats_of_a_township() {
    let error = Plats::new([uneven(), even()]).unwrap_err();
    let said = "these are different field notes for T. 2 N., R. 3 W.";
    assert_eq!(error.to_string(), said);
    let other = lots("section,lot,acres\nT,3,N,3,W\n31,1,38.98\n");
    let error = Plats::new([lots(TABLE), other]).unwrap_err();
    assert_eq!(error.township, township("3N-3W"));
    assert!(error.are_lot_tables);
}

#[test]
fn the_newest_of_several_lot_tables_controls() {
    let dated = |date: &str, figure: &str| {
        lots(&format!(
            "section,lot,acres\nT,2,N,3,W{date}\n5,1,{figure}\n"
        ))
    };
    let undated = dated("", "40.00");
    let old = dated(",1880-01-02", "40.01");
    let new = dated(",1912-03-04", "40.02");
    let by = |given: Vec<Basis>| {
        let plats = Plats::new(given).unwrap();
        plats.acres("T2N R3W sec. 5, lot 1").unwrap()
    };
    let all = [&new, &undated, &old].map(|table| Basis::from(table.clone()));
    assert_eq!(by(all.to_vec()), acres("40.02"));
    assert_eq!(by(all[1..].to_vec()), acres("40.01"));
    assert_eq!(by(vec![undated.into(), uneven().into()]), acres("40.00"));
    let error = Plats::new([new, dated(",1912-03-04", "40.03")]).unwrap_err();
    assert!(error.are_lot_tables);
}

#[test]
fn a_map_of_townships() {
    let map: BTreeMap<Township, Basis> = plats()
        .iter()
        .map(|(township, basis)| (township, basis.clone()))
        .collect();
    assert_eq!(Plats::new(map.into_values()).unwrap(), plats());
    assert_eq!(plats().get(township("2N-3W")), Some(&uneven().into()));
    assert_eq!(plats().get(township("4N-3W")), None);
    assert!(Plats::default().is_empty() && !plats().is_empty());
}

#[test]
fn folders() {
    let folder = Folder::new("folders");
    folder.put("2N-3W.csv", &uneven().write_notes());
    folder.put("3N-3W.CSV", TABLE);
    folder.put("readme.txt", "no notes");
    folder.put(".hidden.csv", "no notes");
    assert_eq!(Plats::open(&folder).unwrap(), plats());
    let notes = uneven().write_notes().replace("T,2,N,3,W", "T,4,N,3,W");
    folder.put("6th P.M./4N-3W.csv", &notes);
    let error = Plats::open(&folder).unwrap_err();
    assert!(
        error
            .to_string()
            .ends_with("by principal meridian; say which one"),
        "{error}"
    );
    let on_meridian = Plats::open_meridian(&folder, "6th PM").unwrap();
    let townships: Vec<Township> = on_meridian.iter().map(|(township, _)| township).collect();
    assert_eq!(townships, [township("4N-3W")]);
    for meridian in ["Boise", "", "."] {
        let error = Plats::open_meridian(&folder, meridian).unwrap_err();
        let said = format!("there is no folder for the principal meridian `{meridian}`");
        assert!(error.to_string().ends_with(&said), "{error}");
    }
}

#[test]
fn folders_from_which_no_plats_are_made() {
    let folder = Folder::new("no-plats");
    assert!(matches!(Plats::open(&folder), Err(OpenError::Empty { .. })));
    let none = folder.0.join("none");
    assert!(matches!(Plats::open(&none), Err(OpenError::Io { path, .. }) if path == none));
    for (text, said) in [
        ("x\n", "a.csv: this is neither field notes nor a lot table"),
        (
            "section,lot,acres\nT,3,N,3,W\n31,9,1.00\n",
            "a.csv: lots:3: there is no lot 9: section 31 has lots 1 to 4",
        ),
    ] {
        folder.put("a.csv", text);
        let error = Plats::open(&folder).unwrap_err();
        assert!(error.to_string().ends_with(said), "{error}");
    }
    folder.put("a.csv", &uneven().write_notes().replace("N,1,,", "W,1,2,"));
    let error = Plats::open(&folder).unwrap_err();
    assert!(matches!(error, OpenError::Refused { refused, .. } if refused.number == 8));
    folder.put("a.csv", &uneven().write_notes());
    folder.put("b.csv", &even().write_notes());
    let error = Plats::open(&folder).unwrap_err();
    assert!(matches!(error, OpenError::Different(error) if error.township == township("2N-3W")));
}

#[test]
fn report() {
    let report = plats()
        .report([
            ("A", TEXT),
            ("B", "T3N R3W sec. 32, N1/2"),
            ("C", "T2N R3W sec. 7, lot 1"),
        ])
        .unwrap();
    let found: Vec<(&str, Acres)> = report
        .tracts
        .iter()
        .map(|tract| (tract.name.as_str(), tract.acres))
        .collect();
    let wanted = [("A", "478.98"), ("B", "320.00"), ("C", "39.18")];
    assert_eq!(found, wanted.map(|(name, figure)| (name, acres(figure))));
    assert_eq!(report.total, acres("838.16"));
    assert_eq!(
        report.by_township,
        [
            (township("2N-3W"), acres("120.18")),
            (township("3N-3W"), acres("717.98"))
        ]
    );
    assert_eq!(report.tracts[0].by_township.len(), 2);
}

#[test]
fn refused_tracts() {
    let inner = |number, at| Some(Refusal { number, at });
    for (second, number, wanted) in [
        (("A", "T3N R3W sec. 31, lot 1"), 82, None),
        (("B", "T2N R3W sec. 37"), 83, inner(62, 13)),
        (("B", "sec. 14"), 83, inner(31, 0)),
        (("B", "T3N R3W sec. 31, lot 4"), 83, inner(94, 3104)),
        (
            ("B", "T3N R3W sec. 31, lot 1; T2N R3W sec. 14, NE1/4"),
            84,
            None,
        ),
    ] {
        let refused = refused(plats().report([("A", "T2N R3W sec. 14"), second]));
        assert_eq!((refused.number, refused.at), (number, 3), "{second:?}");
        assert_eq!(refused.inner, wanted, "{second:?}");
    }
    let tracts = [("A", "T2N R3W sec. 14"), ("B", "T2N R3W sec. 14, NE1/4")];
    assert_eq!(
        refused(plats().report(tracts)).to_string(),
        "tracts: record 3: `B` overlaps `A`: T. 2 N., R. 3 W., sec. 14, NE1/4."
    );
    let error = plats().report([("A", "T4N R3W sec. 14")]).unwrap_err();
    assert_eq!(error, NoAcres::MissingPlat(township("4N-3W")));
}

#[test]
fn overlaps() {
    let tracts = [
        ("A", "T2N R3W sec. 14; T3N R3W sec. 31, lot 1"),
        ("B", "T3N R3W sec. 31, lots 1 and 3"),
        ("C", "T2N R3W sec. 14, NE1/4"),
        ("D", "refused"),
        ("E", "T3N R3W sec. 31, lot 3; T4N R3W sec. 1"),
        ("F", "T4N R3W sec. 1"),
    ];
    let found: Vec<(usize, usize, Option<Acres>)> = plats()
        .overlaps(tracts)
        .iter()
        .map(|overlap| (overlap.first, overlap.second, overlap.acres))
        .collect();
    // The table lacks lot 3, and there is no plat of the last township.
    let wanted = [
        (0, 1, Some(acres("38.97"))),
        (0, 2, Some(acres("160.00"))),
        (1, 4, None),
        (4, 5, None),
    ];
    assert_eq!(found, wanted);
}

/// 10,000 tracts in 20 townships, none of which overlap: 20 in each section without lots.
fn many_tracts() -> Vec<(String, String)> {
    let quarters = ["NE1/4", "NW1/4", "SW1/4", "SE1/4"];
    let mut parts = Vec::new();
    for part in quarters {
        parts.extend(
            quarters[..3]
                .iter()
                .map(|quarter| format!("{part}{quarter}")),
        );
        parts.extend(["N1/2", "S1/2"].map(|half| format!("{half}{part}SE1/4")));
    }
    let mut tracts = Vec::new();
    for number in 1..=20 {
        for section in (8..=17).chain(20..=29).chain(32..=36) {
            for part in &parts {
                let text = format!("T{number}N R3W sec. {section}, {part}");
                tracts.push((tracts.len().to_string(), text));
            }
        }
    }
    tracts
}

#[test]
fn many_tracts_take_no_time_per_pair() {
    let plats = Plats::new((1..=20).map(|number| Lots::new(township(&format!("{number}N-3W")))));
    let plats = plats.unwrap();
    let mut tracts = many_tracts();
    assert_eq!(tracts.len(), 10_000);
    let begun = Instant::now();
    assert_eq!(plats.overlaps(tracts_of(&tracts)), []);
    tracts.push(("last".to_owned(), tracts[123].1.clone()));
    let found = plats.overlaps(tracts_of(&tracts));
    assert_eq!(
        (found.len(), found[0].first, found[0].second),
        (1, 123, 10_000)
    );
    assert!(found[0].acres.is_some());
    let error = refused(plats.report(tracts_of(&tracts)));
    assert_eq!((error.number, error.at), (84, 10_002));
    // To compare all 50 million pairs takes minutes.
    assert!(begun.elapsed().as_secs() < 60, "{:?}", begun.elapsed());
}

fn tracts_of(tracts: &[(String, String)]) -> Vec<(&str, &str)> {
    tracts
        .iter()
        .map(|(name, text)| (name.as_str(), text.as_str()))
        .collect()
}

#[test]
fn canonical_text() {
    let given = "T1S R1W sec. 1; T1N R1W sec. 1; T1N R1E sec. 1; T2N R1E sec. 1; T1N R2E sec. 1; T1N R1E sec. 2";
    let text = lands(given).to_string();
    let words: Vec<&str> = text.split_whitespace().collect();
    assert_eq!(
        words.join(" "),
        "T. 1 N., R. 1 E., sec. 1, all; sec. 2, all. T. 1 N., R. 2 E., sec. 1, all. \
         T. 1 N., R. 1 W., sec. 1, all. T. 2 N., R. 1 E., sec. 1, all. T. 1 S., R. 1 W., sec. 1, all."
    );
    assert_eq!(text.parse(), Ok(lands(given)));
    let townships: Vec<Township> = township::split(&text)
        .unwrap()
        .iter()
        .map(|part| part.township().unwrap())
        .collect();
    let by_township: Vec<Township> = lands(given).by_township().map(|(each, _)| each).collect();
    assert_eq!(townships, by_township);
}

#[test]
fn operations_are_those_of_sets() {
    let values = [
        lands("T2N R3W sec. 14; T3N R3W sec. 31"),
        lands("T2N R3W sec. 14, N1/2; T3N R3W sec. 30"),
        lands("T4S R1E sec. 1; T2N R3W sec. 14, E1/2"),
        Lands::empty(),
    ];
    for a in &values {
        for b in &values {
            assert_eq!(a | b, b | a);
            assert_eq!(a & b, b & a);
            assert_eq!((a - b) | (a & b), *a);
            assert_eq!(a ^ b, (a - b) | (b - a));
            assert!((a - b).is_disjoint(b));
            assert_eq!(a.is_disjoint(b), (a & b).is_empty());
            assert_eq!(a.overlaps(b), !a.is_disjoint(b));
            assert_eq!(a <= b, (a | b) == *b);
            assert_eq!(a < b, b.contains(a) && a != b);
            assert_eq!(a.contains(b), b <= a);
            let mut changed = a.clone();
            changed |= b;
            assert_eq!(changed, a | b);
            changed -= b.clone();
            assert_eq!(changed, a - b);
        }
    }
}

#[test]
fn values() {
    let land = uneven().land("sec. 14").unwrap();
    assert_eq!(
        plats().lands_acres(&land.clone().into()).unwrap(),
        acres("640.00")
    );
    assert_eq!(plats().lands_acres(&Lands::empty()).unwrap(), acres("0.00"));
    assert!(Lands::from(Land::empty(land.township())).is_empty());
    assert_eq!(lands("T2N R3W sec. 14").get(land.township()), Some(&land));
    assert_eq!(plats().land("T2N R3W sec. 14").unwrap(), land.into());
    assert_eq!(format!("{:?}", Lands::empty()), "Lands(none)");
    let shown = format!("{:?}", lands("T2N R3W secs. 1 to 36; T3N R3W sec. 1"));
    assert!(
        shown.starts_with("Lands(T. 2 N., R. 3 W., sec. 1, all; sec. 2, all;"),
        "{shown}"
    );
    assert!(shown.ends_with(" ..)") && shown.len() <= 107, "{shown}");
}
