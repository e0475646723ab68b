//! The texts that `serde` writes, and that they are read back.
#![cfg(feature = "serde")]

mod samples;

use samples::{even, uneven};
use serde::{de::DeserializeOwned, Serialize};
use std::fmt::Debug;
use township::{
    Account, Acres, Basis, EastWest, Land, Lands, Lots, NorthSouth, Phrases, Plat, Plats, Refusal,
    Refused, Township,
};

/// A value is written as this text, and read back from it.
fn both_ways<T: Serialize + DeserializeOwned + PartialEq + Debug>(value: T, json: &str) {
    assert_eq!(serde_json::to_string(&value).unwrap(), json);
    assert_eq!(serde_json::from_str::<T>(json).unwrap(), value);
}

#[test]
fn texts() {
    both_ways(Acres::from_hundredths(16_100), r#""161.00""#);
    both_ways(uneven().area("sec. 5, lot 1.").unwrap(), r#""809/20""#);
    both_ways(Account::Plat, r#""plat""#);
    both_ways(NorthSouth::South, r#""S""#);
    both_ways(EastWest::West, r#""W""#);
    both_ways(uneven().township(), r#""T. 2 N., R. 3 W.""#);
}

#[test]
fn texts_of_nothing() {
    for json in [r#""161""#, "161.00", "null", r#""-1.00""#] {
        assert!(serde_json::from_str::<Acres>(json).is_err(), "{json}");
    }
    let error = serde_json::from_str::<Township>(r#""T. 100 N., R. 3 W.""#).unwrap_err();
    let message =
        "township:1:4: unexpected `100 N., R. 3 W.`; expected the township number, 1 to 99";
    assert!(error.to_string().starts_with(message), "{error}");
}

#[test]
fn phrases() {
    let phrases = Phrases::new(["Payout group Kestrel", "Unit 7"]).unwrap();
    both_ways(phrases, r#"["Payout group Kestrel","Unit 7"]"#);
    let error = serde_json::from_str::<Phrases>(r#"["Lot 3"]"#).unwrap_err();
    assert!(error.to_string().contains("`Lot 3` (phrase 1)"), "{error}");
}

#[test]
fn plats() {
    let quarters = vec!["20000"; township::LINES].join(",");
    let json = format!(r#"{{"township":"T. 2 N., R. 3 W.","closing_quarters":[{quarters}]}}"#);
    both_ways(even(), &json);
    let written = serde_json::to_string(&uneven()).unwrap();
    assert_eq!(serde_json::from_str::<Plat>(&written).unwrap(), uneven());
    // Line 0 closes, and its quarter mile is 5 to 25 chains.
    for wrong in [
        json.replacen("20000", "25001", 1),
        json.replacen("20000,", "", 1),
        json.replacen("20000", "20000,20000", 1),
    ] {
        let error = serde_json::from_str::<Plat>(&wrong).unwrap_err();
        let message = "no plat has these closing quarters";
        assert!(error.to_string().starts_with(message), "{error}");
    }
}

#[test]
fn lands_of_lot_tables() {
    let table = "section,lot,acres,land\nT,2,N,3,W,1912-03-04\n14,1,38.50,NE1/4NE1/4\n";
    let lots: Lots = table.parse().unwrap();
    let rows = [["0"; 24].join(","), ["255"; 8].join(",")].join(",");
    let land = r#"{"township":"T. 2 N., R. 3 W.","rows":{"14":[ROWS]}"#.replace("ROWS", &rows);
    let json = format!(
        r#"{land},"lots":{}}}"#,
        serde_json::to_string(&lots).unwrap()
    );
    both_ways(lots.land("sec. 14, lot 1.").unwrap(), &json);
    let again: Land = serde_json::from_str(&json).unwrap();
    assert_eq!(again.lots(), Some(&lots));
    // With the standard lots, only the date is the table's.
    let dated: Lots = "section,lot,acres\nT,2,N,3,W,1912-03-04\n".parse().unwrap();
    let json = format!(r#"{land},"date":"1912-03-04"}}"#);
    both_ways(dated.land("sec. 14, NE1/4NE1/4.").unwrap(), &json);
    both_ways(dated.date().unwrap(), r#""1912-03-04""#);
    assert!(serde_json::from_str::<township::Date>(r#""1913-02-29""#).is_err());

    let of_table = serde_json::to_string(&lots.land("sec. 14, lot 1.").unwrap()).unwrap();
    for (old, new, message) in [
        ("255", "254", "these places contain part of a lot"),
        ("T. 2 N.", "T. 3 N.", "these places contain part of a lot"),
        ("NE1/4NE1/4", "NENE", "lots:3"),
    ] {
        let wrong = of_table.replacen(old, new, 1);
        let error = serde_json::from_str::<Land>(&wrong).unwrap_err();
        assert!(error.to_string().starts_with(message), "{error}");
    }
}

#[test]
fn lands() {
    let land = even().land("sec. 5, lot 2.").unwrap();
    // The lot is the northern quarter of the rows.
    let rows = [["0"; 24].join(","), ["65280"; 8].join(",")].join(",");
    let json = format!(r#"{{"township":"T. 2 N., R. 3 W.","rows":{{"5":[{rows}]}}}}"#);
    both_ways(land.clone(), &json);
    both_ways(
        Land::empty(land.township()),
        r#"{"township":"T. 2 N., R. 3 W.","rows":{}}"#,
    );
    // Lot 7 is in the southwest corner.
    both_ways(
        even().land("sec. 6, lot 7.").unwrap().parts()[0],
        r#"{"section":6,"lot":7,"column":24,"row":0,"columns":8,"rows":8}"#,
    );
    for wrong in [
        json.replacen("65280", "65281", 1),
        json.replacen("65280,", "", 1),
        json.replacen("\"5\"", "\"0\"", 1),
        json.replacen("\"5\"", "\"37\"", 1),
    ] {
        let error = serde_json::from_str::<Land>(&wrong).unwrap_err();
        let message = "these places contain part of a lot";
        assert!(error.to_string().starts_with(message), "{error}");
    }
}

#[test]
fn several_townships() {
    let lands = Lands::read("T3N R3W sec. 31; T2N R3W sec. 14").unwrap();
    let written = serde_json::to_string(&lands).unwrap();
    assert!(written.starts_with(r#"[{"township":"T. 2 N., R. 3 W.","rows":{"14":["#));
    assert_eq!(serde_json::from_str::<Lands>(&written).unwrap(), lands);
    both_ways(Lands::empty(), "[]");

    let table = "section,lot,acres\nT,3,N,3,W\n5,1,40.45\n";
    let lots: Lots = table.parse().unwrap();
    let plats = Plats::new([Basis::from(lots)]).unwrap();
    both_ways(plats.clone(), &format!(r#"[{{"Lots":{table:?}}}]"#));
    both_ways(
        plats.report([("A", "T3N R3W sec. 14")]).unwrap(),
        r#"{"tracts":[{"name":"A","acres":"640.00","by_township":[["T. 3 N., R. 3 W.","640.00"]]}],"total":"640.00","by_township":[["T. 3 N., R. 3 W.","640.00"]]}"#,
    );
    both_ways(
        plats.overlaps([("A", "T3N R3W sec. 5, lot 2"), ("B", "T3N R3W sec. 5")])[0],
        r#"{"first":0,"second":1,"acres":null}"#,
    );
    let error = plats.acres("T4N R3W sec. 14").unwrap_err();
    both_ways(error, r#"{"MissingPlat":"T. 4 N., R. 3 W."}"#);
    let error = Plats::new([even(), uneven()]).unwrap_err();
    both_ways(
        error,
        r#"{"township":"T. 2 N., R. 3 W.","are_lot_tables":false}"#,
    );
}

#[test]
fn lot_tables() {
    let table = "section,lot,acres\nT,2,N,3,W\n5,1,40.45\n";
    let lots: Lots = table.parse().unwrap();
    both_ways(lots.clone(), &format!("{table:?}"));
    let differences = even().differences(&lots).unwrap();
    both_ways(
        differences[0],
        r#"{"section":5,"lot":1,"computed":"40.00","returned":"40.45"}"#,
    );
}

#[test]
fn refusals() {
    both_ways(Refusal { number: 67, at: 19 }, r#"{"number":67,"at":19}"#);
    let refused = uneven().report_of([("A", "sec. 7, lot 5.")]).unwrap_err();
    let json = serde_json::to_string(&refused).unwrap();
    assert!(json.starts_with(r#"{"number":83,"at":2,"inner":{"number":64,"at":12},"line":2,"#));
    assert_eq!(serde_json::from_str::<Refused>(&json).unwrap(), refused);
}

#[test]
fn reports() {
    let report = uneven().report_of([("A", "sec. 14.")]).unwrap();
    both_ways(
        report,
        r#"{"tracts":[{"name":"A","acres":"640.00"}],"total":"640.00","remaining":"22397.57"}"#,
    );
}

#[test]
fn answers_to_tracts() {
    let tracts = [
        ("A", "sec. 14."),
        ("B", "sec. 7, lot 5."),
        ("C", "sec. 14."),
    ];
    let answers = uneven().report_each(tracts).unwrap();
    both_ways(
        answers[0].clone(),
        r#"{"name":"A","answer":{"Ok":"640.00"}}"#,
    );
    both_ways(
        answers[1].clone(),
        r#"{"name":"B","answer":{"Err":{"refusal":{"number":83,"at":3},"inner":{"number":64,"at":12}}}}"#,
    );
    both_ways(
        uneven().overlaps(tracts).unwrap()[0],
        r#"{"first":0,"second":2,"acres":"640.00"}"#,
    );
}
