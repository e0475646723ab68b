//! Calls from several threads at a time.

mod samples;

use samples::{uneven, NOTES, TRACTS};
use std::sync::Barrier;
use std::thread;
use township::{Account, Acres, Area, Comparison, Difference, Figures, Land, Lots, LotsReport};
use township::{NoLandAcres, Note, OtherPlat, Part, Plat, Refused, Report, Township};

const THREADS: usize = 4;
const ROUNDS: usize = 200;

/// The stack that the library requires, and room for the thread's own calls.
const STACK: usize = (256 + 64) * 1024;

/// One answer of each kind.
#[derive(Debug, PartialEq)]
struct Answers {
    read: Plat,
    acres: Result<Acres, Refused>,
    by_plat: Result<Acres, Refused>,
    area: Result<Area, Refused>,
    normal: Result<String, Refused>,
    many: Vec<Result<Acres, Refused>>,
    many_normal: Vec<Result<String, Refused>>,
    notes: Result<Vec<Note>, Refused>,
    readings: township::Suggestion,
    printed: String,
    figures: Figures,
    written: String,
    report: Result<String, Refused>,
    land: Result<Land, Refused>,
    combined: Land,
    comparison: Comparison,
    land_text: String,
    land_parts: Vec<Part>,
    land_acres: Result<Acres, OtherPlat>,
    land_area: Result<Area, OtherPlat>,
    lots: Result<Lots, Refused>,
    lots_acres: Result<Acres, Refused>,
    lots_area: Result<Area, Refused>,
    lots_land_acres: Result<Acres, NoLandAcres>,
    lots_land_area: Result<Area, NoLandAcres>,
    lots_report: Result<LotsReport, Refused>,
    differences: Result<Vec<Difference>, OtherPlat>,
    refused: Result<Acres, Refused>,
    refused_notes: Result<Plat, Refused>,
    refused_list: Result<String, Refused>,
}

/// A lot table with one lot.
const TABLE: &[u8] = b"section,lot,acres\nT,2,N,3,W\n5,1,40.50\n";

fn answers_on(plat: &Plat) -> Answers {
    let (land, other) = ("sec. 5, lot 1; sec. 14.", "sec. 5; sec. 15.");
    let (land, other) = (plat.land(land).unwrap(), plat.land(other).unwrap());
    let lots = Lots::read(TABLE).unwrap();
    Answers {
        read: Plat::read(NOTES).unwrap(),
        acres: plat.acres("sec. 5, lots 1 and 2, S1/2NE1/4."),
        by_plat: plat.acres_by("sec. 7, lots 1 to 4.", Account::Plat),
        area: plat.area("sec. 6, lot 1."),
        normal: plat.normal("sec. 14, SE1/4, NE1/4, NW1/4."),
        many: plat.acres_many(&["sec. 6.", "sec. 7, lot 5."], Account::Exact),
        many_normal: plat.normal_many(&["sec. 6.", "sec. 7, lot 5."]),
        notes: plat.notes("sec. 14, NE1/4 SE1/4."),
        readings: township::suggest("sec. 14: NE1/4NE1/4 SW1/4SW1/4"),
        printed: plat.print(),
        figures: plat.figures(),
        written: plat.write_notes(),
        report: plat.report(TRACTS),
        land: plat.land("sec. 6, lot 7."),
        combined: (&land & &other) | (&land ^ &other),
        comparison: land.compare(&other),
        land_text: land.to_string(),
        land_parts: land.parts(),
        land_acres: plat.land_acres(&land),
        land_area: plat.land_area_by(&other, Account::Plat),
        lots: Lots::read(TABLE),
        lots_acres: lots.acres("sec. 5, lot 1; sec. 14."),
        lots_area: lots.area("sec. 5, lots 1 and 2."),
        lots_land_acres: lots.land_acres(&other),
        lots_land_area: lots.land_area(&land),
        lots_report: lots.report("name,description\nA,\"sec. 5, lot 1.\"\nB,sec. 14.\n"),
        differences: plat.differences(&lots),
        refused: plat.acres("sec. 14, NE1/4 and N1/2."),
        refused_notes: Plat::read(b"line,between\n"),
        refused_list: plat.report("name,description\nA,sec. 37.\n"),
    }
}

#[test]
fn one_plat_in_four_threads() {
    let plat = uneven();
    let wanted = answers_on(&plat);
    assert_eq!(wanted.acres, Ok(Acres::from_hundredths(16_100)));
    assert_eq!(wanted.refused.as_ref().unwrap_err().number, 67);
    assert_eq!(wanted.lots_acres, Ok(Acres::from_hundredths(68_050)));
    assert_eq!(wanted.comparison, Comparison::Overlaps);
    let together = Barrier::new(THREADS);
    thread::scope(|scope| {
        for _ in 0..THREADS {
            let thread = thread::Builder::new().stack_size(STACK);
            let run = || {
                together.wait();
                for _ in 0..ROUNDS {
                    assert_eq!(answers_on(&plat), wanted);
                }
            };
            thread.spawn_scoped(scope, run).unwrap();
        }
    });
}

#[test]
fn plats_of_their_own() {
    // The even township, but with another number in each thread.
    let plat_of = |number| {
        let sample = uneven().township();
        let township = Township::new(number, sample.north_south(), 3, sample.east_west());
        Plat::from_parts(township.unwrap(), [20_000; township::LINES]).unwrap()
    };
    let together = Barrier::new(THREADS);
    let run = |number: u8| {
        together.wait();
        let normal = plat_of(number).normal(format!("sec. {number}.")).unwrap();
        assert_eq!(
            normal,
            format!("T. {number} N., R. 3 W.,\nsec. {number}, all.\n")
        );
    };
    thread::scope(|scope| {
        for number in (8..).take(THREADS) {
            let run = &run;
            scope.spawn(move || run(number));
        }
    });
}

#[test]
fn values_go_to_other_threads() {
    fn goes<T: Send + Sync + 'static>() {}
    goes::<Plat>();
    goes::<Acres>();
    goes::<Area>();
    goes::<Land>();
    goes::<Lots>();
    goes::<Part>();
    goes::<Report>();
    goes::<LotsReport>();
    goes::<township::TractAnswer>();
    goes::<Refused>();
    let plat = thread::spawn(uneven).join().unwrap();
    assert_eq!(plat, uneven());
}
