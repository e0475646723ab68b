use super::*;

const HEADER: &str = include_str!(concat!(env!("TOWNSHIP_FILES"), "/include/township.h"));

/// The even township.
const EVEN: Plat = Plat {
    closing_quarters: [20_000; LINES],
    number: 2,
    north_south: NORTH,
    range: 3,
    east_west: WEST,
};

fn bare(verdict: u32) -> Answer {
    Answer {
        verdict,
        ..Answer::BLANK
    }
}

#[test]
fn numbers_are_those_of_the_header() {
    for (name, number) in [
        ("ACCEPTED", ACCEPTED),
        ("REFUSED", REFUSED),
        ("TRACT_REFUSED", TRACT_REFUSED),
        ("NO_PLAT", NO_PLAT),
        ("NO_ACCOUNT", NO_ACCOUNT),
        ("NO_ROOM", NO_ROOM),
        ("NO_MEMORY", NO_MEMORY),
        ("NO_RANGE", NO_RANGE),
        ("NO_LAND", NO_LAND),
        ("NO_LOTS", NO_LOTS),
        ("NO_TOWNSHIP", NO_TOWNSHIP),
        ("NO_OPERATION", NO_OPERATION),
        ("OTHER_TOWNSHIP", OTHER_TOWNSHIP),
        ("OTHER_PLAT", OTHER_PLAT),
        ("UNION", UNION),
        ("INTERSECTION", INTERSECTION),
        ("DIFFERENCE", DIFFERENCE),
        ("EQUAL", EQUAL),
        ("CONTAINS", CONTAINS),
        ("IS_CONTAINED", IS_CONTAINED),
        ("OVERLAPS", OVERLAPS),
        ("DISJOINT", DISJOINT),
        ("CHANGED", CHANGED),
        ("LOTS_NAMED", LOTS_NAMED),
        ("REMAINDER", REMAINDER),
        ("EXACT", EXACT),
        ("BY_PLAT", BY_PLAT),
        ("NORTH", u32::from(NORTH)),
        ("SOUTH", u32::from(SOUTH)),
        ("EAST", u32::from(EAST)),
        ("WEST", u32::from(WEST)),
    ] {
        let line = format!("#define TOWNSHIP_{name} {number}u");
        assert!(HEADER.contains(&line), "the header has no line {line}");
    }
    for (name, number) in [
        ("LINES", LINES),
        ("SECTIONS", SECTIONS),
        ("PLACES_ACROSS", PLACES_ACROSS),
        ("RETURNED_MOST", RETURNED_MOST),
        ("BOUNDS", BOUNDS),
        ("POSITION_BYTES", POSITION_BYTES),
        ("DIVIDED_BYTES", DIVIDED_BYTES),
        ("TRACTS_MOST", TRACTS_MOST),
        ("NAME_ROOM", NAME_ROOM),
        ("TEXT_ROOM", TEXT_ROOM),
        ("READINGS_MOST", READINGS_MOST),
    ] {
        let line = format!("#define TOWNSHIP_{name} {number}\n");
        assert!(HEADER.contains(&line), "the header has no line {line}");
    }
}

#[test]
fn parts_of_no_plat_are_found_out_by_each_call() {
    let none = Plat::BLANK;
    let no_plat = bare(NO_PLAT);
    let mut room = [0; 64];
    assert_eq!(acres(&none, b"sec. 14.", EXACT), no_plat);
    assert_eq!(area(&none, b"sec. 14.", EXACT).0, no_plat);
    assert_eq!(normal(&none, b"sec. 14.", &mut room), no_plat);
    assert_eq!(print_plat(&none, &mut room), no_plat);
    assert_eq!(write_notes(&none, &mut room), no_plat);
    assert_eq!(report(&none, b"name,description\n", &mut room), no_plat);
    let mut tracts = [Tract::BLANK];
    let account = account(&none, b"name,description\nA,sec. 14\n", &mut tracts);
    assert_eq!(account, (no_plat, Totals::BLANK));
    assert_eq!(tracts, [Tract::BLANK]);
    let mut each = [TractAnswer::BLANK];
    let list = b"name,description\nA,sec. 14\n";
    assert_eq!(report_each(&none, list, &mut each), no_plat);
    assert_eq!(each, [TractAnswer::BLANK]);
    assert_eq!(overlaps(&none, list, &mut []), no_plat);
    assert_eq!(figures(&none), (no_plat, PlatFigures::BLANK));
    assert_eq!(acres_many(&none, b"", &[0], EXACT, &mut []), no_plat);
    let (mut many, mut full) = ([Answer::BLANK], [FullAnswer::BLANK]);
    let of_one = Answer {
        length: 1,
        ..no_plat
    };
    assert_eq!(
        acres_many(&none, b"sec. 14.", &[0, 8], EXACT, &mut many),
        of_one
    );
    assert_eq!(many, [no_plat]);
    assert_eq!(
        answer_many(&none, b"sec. 14.", &[0, 8], EXACT, &mut full),
        of_one
    );
    let wanted = FullAnswer {
        acres: no_plat,
        normal: no_plat,
        note: no_plat,
        ..FullAnswer::BLANK
    };
    assert_eq!(full, [wanted]);
    assert_eq!(
        explain_description(&none, b"sec. 37.", b"land", &mut room),
        no_plat
    );
    assert_eq!(explain_list(&none, b"", b"tracts", &mut room), no_plat);
    let nothing = (no_plat, Explanation::BLANK);
    assert_eq!(
        explain_description_parts(&none, b"sec. 37.", b"land", &mut room),
        nothing
    );
    assert_eq!(
        explain_list_parts(&none, b"", b"tracts", &mut room),
        nothing
    );
    assert_eq!(room, [0; 64]);
}

#[test]
fn texts_of_both_kinds_of_calls_are_the_same() {
    let (mut room, mut room_with_parts) = ([0; 512], [0; 512]);
    let answer = explain_notes(b"line\n", b"notes", &mut room);
    let (same_answer, parts) = explain_notes_parts(b"line\n", b"notes", &mut room_with_parts);
    assert_eq!((same_answer, room_with_parts), (answer, room));
    assert_eq!(parts.shown, SHOWN_BYTES);
    let (mut room, mut room_with_parts) = ([0; 512], [0; 512]);
    let answer = explain_lots(b"section\n", b"lots", &mut room);
    let (same_answer, parts) = explain_lots_parts(b"section\n", b"lots", &mut room_with_parts);
    assert_eq!((same_answer, room_with_parts), (answer, room));
    assert_eq!(parts.shown, SHOWN_BYTES);
    let (mut room, mut room_with_parts) = ([0; 512], [0; 512]);
    let answer = explain_lacking(&lots(), 503, b"land", &mut room);
    let (same_answer, parts) = explain_lacking_parts(&lots(), 503, b"land", &mut room_with_parts);
    assert_eq!((same_answer, room_with_parts), (answer, room));
    assert_eq!(
        (answer.verdict, answer.number, answer.at),
        (REFUSED, REFUSAL_LOTS_LACKING, 503)
    );
    assert_eq!(parts.shown, SHOWN_NOTHING);
}

/// T. 2 N., R. 3 W., and the township north of it.
const TOWNSHIP: Designation = Designation {
    number: 2,
    north_south: NORTH,
    range: 3,
    east_west: WEST,
};
const NORTH_OF_IT: Designation = Designation {
    number: 3,
    ..TOWNSHIP
};

/// The land of a description.
fn land(township: &Designation, description: &[u8]) -> Land {
    let (answer, land) = land_read(township, description);
    assert_eq!(answer, bare(ACCEPTED));
    land
}

/// A lot table without figures.
fn lots() -> Lots {
    let (answer, lots) = lots_read(b"section,lot,acres\nT,2,N,3,W\n");
    assert_eq!(answer, bare(ACCEPTED));
    lots
}

#[test]
fn land_and_lots_that_are_none_are_found_out_by_each_call() {
    let (none, some) = (Land::BLANK, land(&TOWNSHIP, b"sec. 14."));
    let no_land = bare(NO_LAND);
    let mut room = [0; 64];
    assert_eq!(land_acres(&EVEN, &none, EXACT), no_land);
    assert_eq!(land_area(&EVEN, &none, EXACT), (no_land, Fraction::BLANK));
    assert_eq!(land_text(&none, &mut room), no_land);
    assert_eq!(land_parts(&none, &mut [Part::BLANK]), no_land);
    assert_eq!(land_combine(&none, &some, UNION).0, no_land);
    assert_eq!(land_combine(&some, &none, UNION), (no_land, Land::BLANK));
    assert_eq!(land_compare(&none, &some), (no_land, 0));
    assert_eq!(land_compare(&some, &none), (no_land, 0));
    assert_eq!(lots_land_acres(&lots(), &none), no_land);
    assert_eq!(lots_land_area(&lots(), &none).0, no_land);

    assert_eq!(land_acres(&Plat::BLANK, &some, EXACT), bare(NO_PLAT));
    assert_eq!(land_area(&Plat::BLANK, &some, EXACT).0, bare(NO_PLAT));

    let (none, no_lots) = (Lots::BLANK, bare(NO_LOTS));
    assert_eq!(lots_acres(&none, b"sec. 14."), no_lots);
    assert_eq!(lots_area(&none, b"sec. 14."), (no_lots, Fraction::BLANK));
    assert_eq!(lots_land_acres(&none, &some), no_lots);
    assert_eq!(lots_land_area(&none, &some).0, no_lots);
    assert_eq!(lots_report(&none, b"", &mut [Tract::BLANK]), no_lots);
    let mut each = [TractAnswer::BLANK];
    assert_eq!(lots_report_each(&none, b"", &mut each), no_lots);
    assert_eq!(lots_overlaps(&none, b"", &mut []), no_lots);
    let mut answers = [Answer::BLANK];
    let of_one = Answer {
        length: 1,
        ..no_lots
    };
    assert_eq!(
        lots_acres_many(&none, b"sec. 14.", &[0, 8], &mut answers),
        of_one
    );
    assert_eq!(answers, [no_lots]);
    let mut full = [FullAnswer::BLANK];
    assert_eq!(
        lots_answer_many(&none, b"sec. 14.", &[0, 8], &mut full),
        of_one
    );
    assert_eq!([full[0].acres, full[0].normal, full[0].note], [no_lots; 3]);
    let list = b"name,description\n";
    assert_eq!(lots_explain_list(&none, list, b"tracts", &mut []), no_lots);
    assert_eq!(
        lots_explain_list_parts(&none, list, b"tracts", &mut []).0,
        no_lots
    );
    assert_eq!(explain_lacking(&none, 503, b"land", &mut room), no_lots);
    let nothing = (no_lots, Explanation::BLANK);
    assert_eq!(
        explain_lacking_parts(&none, 503, b"land", &mut room),
        nothing
    );
    assert_eq!(room, [0; 64]);
}

#[test]
fn numbers_of_nothing() {
    let some = land(&TOWNSHIP, b"sec. 14.");
    let no_operation = (bare(NO_OPERATION), Land::BLANK);
    assert_eq!(land_combine(&some, &some, 3), no_operation);
    assert_eq!(land_acres(&EVEN, &some, 2), bare(NO_ACCOUNT));
    assert_eq!(land_area(&EVEN, &some, 2).0, bare(NO_ACCOUNT));
    let no_township = (bare(NO_TOWNSHIP), Land::BLANK);
    assert_eq!(land_read(&Designation::BLANK, b"sec. 14."), no_township);
}

#[test]
fn different_townships() {
    let (one, other) = (
        land(&TOWNSHIP, b"sec. 14."),
        land(&NORTH_OF_IT, b"sec. 14."),
    );
    let different = bare(OTHER_TOWNSHIP);
    assert_eq!(land_combine(&one, &other, UNION).0, different);
    assert_eq!(land_compare(&one, &other), (different, 0));
    assert_eq!(land_acres(&EVEN, &other, EXACT), different);
    assert_eq!(land_area(&EVEN, &other, EXACT).0, different);
    assert_eq!(lots_land_acres(&lots(), &other), different);
    assert_eq!(lots_land_area(&lots(), &other).0, different);
}

#[test]
fn account_that_is_none() {
    assert_eq!(acres(&EVEN, b"sec. 14.", 2), bare(NO_ACCOUNT));
    let (answer, kept) = area(&EVEN, b"sec. 14.", 2);
    assert_eq!((answer, kept), (bare(NO_ACCOUNT), Fraction::BLANK));
    let mut many = [Answer::BLANK];
    let answer = acres_many(&EVEN, b"sec. 14.", &[0, 8], 2, &mut many);
    assert_eq!((answer.verdict, answer.length), (NO_ACCOUNT, 1));
    assert_eq!(many, [bare(NO_ACCOUNT)]);
    let mut full = [FullAnswer::BLANK];
    let answer = answer_many(&EVEN, b"sec. 14.", &[0, 8], 2, &mut full);
    assert_eq!((answer.verdict, answer.length), (NO_ACCOUNT, 1));
    assert_eq!([full[0].acres, full[0].note], [bare(NO_ACCOUNT); 2]);
    assert_eq!(full[0].normal.verdict, ACCEPTED);
}

#[test]
fn text_needs_its_whole_room() {
    let text = b"T. 2 N., R. 3 W.,\nsec. 14, all.\n";
    let length = text.len();
    let mut room = [0; 64];

    let short = normal(&EVEN, b"sec. 14.", &mut room[..length - 1]);
    assert_eq!((short.verdict, short.length), (NO_ROOM, length as u64));
    assert_eq!(room, [0; 64]);

    let none = normal(&EVEN, b"sec. 14.", &mut []);
    assert_eq!((none.verdict, none.length), (NO_ROOM, length as u64));

    let enough = normal(&EVEN, b"sec. 14.", &mut room[..length]);
    assert_eq!((enough.verdict, enough.length), (ACCEPTED, length as u64));
    assert_eq!(&room[..length], text);
}

#[test]
fn tracts_need_room_for_all() {
    let list = b"name,description\nA,sec. 14\n\"B, and C\",sec. 15\n";
    let mut tracts = [Tract::BLANK; 3];
    let (short, totals) = account(&EVEN, list, &mut tracts[..1]);
    assert_eq!((short.verdict, short.length), (NO_ROOM, 2));
    assert_eq!((totals, &tracts), (Totals::BLANK, &[Tract::BLANK; 3]));

    let (enough, totals) = account(&EVEN, list, &mut tracts);
    assert_eq!((enough.verdict, enough.length), (ACCEPTED, 2));
    assert_eq!((totals.total, totals.remaining), (128_000, 2_176_000));
    assert_eq!(
        (tracts[0].hundredths, tracts[1].hundredths),
        (64_000, 64_000)
    );
    assert_eq!(
        (tracts[1].name_length, &tracts[1].name[..9]),
        (8, &b"B, and C\0"[..])
    );
    assert_eq!(tracts[2], Tract::BLANK);
}

#[test]
fn refused_notes_make_no_parts() {
    let (answer, parts) = read(b"");
    let refused = Answer {
        number: 2,
        at: 1,
        ..bare(REFUSED)
    };
    assert_eq!((answer, parts), (refused, Plat::BLANK));
}
