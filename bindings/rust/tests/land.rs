//! Land as a value: how it is made, combined, compared, and measured.

mod samples;

use samples::{even, uneven};
use std::collections::HashSet;
use township::{Account, Acres, Area, Comparison, Land, NoLand, OtherPlat, Township};

fn township(text: &str) -> Township {
    text.parse().unwrap()
}

fn land(description: &str) -> Land {
    Land::read(township("T. 2 N., R. 3 W."), description).unwrap()
}

/// Land in another township.
fn elsewhere(description: &str) -> Land {
    Land::read(township("T. 3 N., R. 3 W."), description).unwrap()
}

#[test]
fn read() {
    for plat in [even(), uneven()] {
        assert_eq!(plat.land("sec. 5, lot 1.").unwrap(), land("sec. 5, lot 1."));
    }
    assert_eq!(land("sec. 14.").township(), even().township());
}

#[test]
fn refused_as_on_a_plat() {
    let other = "T. 3 N., R. 3 W., sec. 14.";
    for description in [
        "",
        "sec. 14, NE1/4 and N1/2.",
        "sec. 5, N1/2.",
        other,
        "sec. 37.",
        "sec. 14-",
    ] {
        let refused = uneven().acres(description).unwrap_err();
        assert_eq!(uneven().land(description), Err(refused.clone()));
        assert_eq!(Land::read(even().township(), description), Err(refused));
    }
}

#[test]
fn rows() {
    // Lot 2 of section 5 is the second from the east in the northern row of quarter-quarters.
    let lot = land("sec. 5, lot 2.");
    let mut rows = [[0; 32]; 36];
    rows[4][24..].fill(0xFF00);
    assert_eq!(lot.rows(), &rows);
    assert_eq!(Land::from_rows(lot.township(), rows), Ok(lot.clone()));
    // All of the lot but one place.
    rows[4][31] = 0x7F00;
    assert_eq!(Land::from_rows(lot.township(), rows), Err(NoLand));
    assert_eq!(NoLand.to_string(), "these places contain part of a lot");
}

#[test]
fn combined() {
    let (north, east) = (land("sec. 14, N1/2."), land("sec. 14, E1/2; sec. 15."));
    for (found, wanted) in [
        (&north | &east, "sec. 14, N1/2, SE1/4; sec. 15."),
        (&north & &east, "sec. 14, NE1/4."),
        (&north - &east, "sec. 14, NW1/4."),
        (&north ^ &east, "sec. 14, NW1/4, SE1/4; sec. 15."),
    ] {
        assert_eq!(found, land(wanted));
    }
    assert_eq!(north.union(&east), Ok(&north | &east));
    assert_eq!(north.intersection(&east), Ok(&north & &east));
    assert_eq!(north.difference(&east), Ok(&north - &east));
    assert_eq!(north.symmetric_difference(&east), Ok(&north ^ &east));
}

#[test]
fn operators_on_land_that_is_owned_or_not() {
    let (north, east) = (land("sec. 14, N1/2."), land("sec. 14, E1/2."));
    let both = land("sec. 14, NE1/4.");
    assert_eq!(north.clone() & east.clone(), both);
    assert_eq!(north.clone() & &east, both);
    assert_eq!(&north & east.clone(), both);
    let mut changed = north.clone();
    changed &= &east;
    assert_eq!(changed, both);
    changed |= north.clone();
    assert_eq!(changed, north);
    changed -= &both;
    assert_eq!(changed, land("sec. 14, NW1/4."));
    changed ^= north;
    assert_eq!(changed, both);
}

#[test]
fn in_different_townships() {
    let (one, other) = (land("sec. 14."), elsewhere("sec. 14."));
    for combine in [
        Land::union,
        Land::intersection,
        Land::difference,
        Land::symmetric_difference,
    ] {
        let error: OtherPlat = combine(&one, &other).unwrap_err();
        assert_eq!(
            (error.first, error.second),
            (one.township(), other.township())
        );
    }
    assert_eq!(one.compare(&other), Comparison::Disjoint);
    assert!(one.is_disjoint(&other) && !one.contains(&other));
    assert_ne!(one, other);
    // Neither contains the other, even if both are empty: then they would be equal.
    let nothing = Land::empty(one.township());
    assert_eq!(nothing.partial_cmp(&Land::empty(other.township())), None);
    assert!(uneven().land_acres(&other).is_err());
    assert!(uneven().land_area(&other).is_err());
}

#[test]
#[should_panic(expected = "T. 2 N., R. 3 W. and T. 3 N., R. 3 W. are two different townships")]
fn operators_panic_for_different_townships() {
    let _ = land("sec. 14.") | elsewhere("sec. 14.");
}

#[test]
fn compared() {
    let nothing = land("sec. 14.") - land("sec. 14.");
    for (first, second, wanted) in [
        (
            land("sec. 14."),
            land("sec. 14, N1/2, S1/2."),
            Comparison::Equal,
        ),
        (
            land("sec. 14."),
            land("sec. 14, N1/2."),
            Comparison::Contains,
        ),
        (
            land("sec. 14, N1/2."),
            land("sec. 14; sec. 15."),
            Comparison::IsContained,
        ),
        (
            land("sec. 14, N1/2."),
            land("sec. 14, E1/2."),
            Comparison::Overlaps,
        ),
        (land("sec. 14."), land("sec. 15."), Comparison::Disjoint),
        (nothing.clone(), land("sec. 15."), Comparison::IsContained),
        (nothing.clone(), nothing, Comparison::Equal),
    ] {
        assert_eq!(first.compare(&second), wanted);
        assert_eq!(first == second, wanted == Comparison::Equal);
        assert_eq!(first < second, wanted == Comparison::IsContained);
        assert_eq!(first > second, wanted == Comparison::Contains);
        assert_eq!(first.contains(&second), first >= second);
        let is_disjoint = wanted == Comparison::Disjoint || first.is_empty();
        assert_eq!(first.is_disjoint(&second), is_disjoint);
        assert_eq!(second.is_disjoint(&first), is_disjoint);
        assert_eq!(first.overlaps(&second), !is_disjoint);
    }
}

#[test]
fn by_section() {
    let several = land("sec. 14, N1/2; sec. 5, lot 1; sec. 36.");
    let sections: Vec<(u8, Land)> = several.sections().collect();
    let wanted = [
        (5, "sec. 5, lot 1."),
        (14, "sec. 14, N1/2."),
        (36, "sec. 36."),
    ];
    assert_eq!(sections, wanted.map(|(number, text)| (number, land(text))));
    assert_eq!(Land::empty(several.township()).sections().count(), 0);
}

#[test]
fn parts() {
    let parts = land("sec. 6, lots 1 and 7; sec. 14, W1/2.").parts();
    let found: Vec<_> = parts
        .iter()
        .map(|part| {
            (
                part.section,
                part.lot,
                part.column,
                part.row,
                part.columns,
                part.rows,
            )
        })
        .collect();
    // Lot 1 is in the northeast corner, and lot 7 in the southwest corner.
    assert_eq!(
        found,
        [
            (6, Some(1), 0, 24, 8, 8),
            (6, Some(7), 24, 0, 8, 8),
            (14, None, 16, 0, 16, 32),
        ]
    );
    assert!(Land::empty(even().township()).parts().is_empty());
}

#[test]
fn text_longer_than_its_first_room() {
    // All places of a section in every second row and column.
    let mut rows = [[0; 32]; 36];
    for row in rows[13].iter_mut().step_by(2) {
        *row = 0x5555_5555;
    }
    let fine = Land::from_rows(even().township(), rows).unwrap();
    assert_eq!(fine.parts().len(), 256);
    assert!(fine.to_string().len() > 4096);
    assert_eq!(fine.to_string().parse(), Ok(fine));
}

#[test]
fn texts() {
    let text = "T. 2 N., R. 3 W.,\nsec. 14, N1/2, SE1/4.\n";
    assert_eq!(land("sec. 14, SE1/4, NE1/4, NW1/4.").to_string(), text);
    assert_eq!(text.parse(), Ok(land("sec. 14, N1/2, SE1/4.")));
    assert_eq!(
        format!("{:?}", land(text)),
        "Land(T. 2 N., R. 3 W., sec. 14, N1/2, SE1/4.)"
    );
    let nothing = Land::empty(even().township());
    assert_eq!(nothing.to_string(), "");
    assert_eq!(format!("{nothing:?}"), "Land(none in T. 2 N., R. 3 W.)");
    let sections: Vec<String> = (1..=36).map(|number| format!("sec. {number}")).collect();
    assert_eq!(
        format!("{:?}", land(&sections.join("; "))),
        "Land(T. 2 N., R. 3 W., sec. 1, all; sec. 2, all; sec. 3, all; sec. 4, all; sec. 5, all; \
         sec. 6, all; ..)"
    );
    for text in [
        "",
        "sec. 14.",
        "T. 2 N., R. 3 W.,\nsec. 37.\n",
        "T. 0 N., R. 3 W.,\nsec. 14.\n",
    ] {
        let error = text.parse::<Land>().unwrap_err();
        assert_eq!(error.to_string(), "not the canonical text of land");
    }
}

#[test]
fn measured() {
    let lots = land("sec. 7, lots 1 to 4.");
    for (account, hundredths) in [(Account::Exact, 15_640), (Account::Plat, 15_642)] {
        let acres = Acres::from_hundredths(hundredths);
        assert_eq!(uneven().land_acres_by(&lots, account), Ok(acres));
        assert_eq!(
            uneven().land_area_by(&lots, account).unwrap().rounded(),
            acres
        );
    }
    assert_eq!(
        uneven().land_acres(&lots),
        Ok(Acres::from_hundredths(15_640))
    );
    // 20 chains by the mean of 20.2 and 20.25, over 10.
    assert_eq!(
        uneven().land_area(&land("sec. 5, lot 1.")),
        Ok("809/20".parse().unwrap())
    );
    let nothing = Land::empty(uneven().township());
    assert_eq!(uneven().land_area(&nothing), Ok(Area::ZERO));
}

#[test]
fn areas_add_up() {
    let (a, b) = (
        land("sec. 5; sec. 6, lots 2 to 5; sec. 14, NE1/4."),
        land("sec. 5, lot 1; sec. 6; sec. 14, N1/2."),
    );
    for account in [Account::Exact, Account::Plat] {
        let area = |land: Land| uneven().land_area_by(&land, account).unwrap();
        assert_eq!(
            area(&a | &b) + area(&a & &b),
            area(a.clone()) + area(b.clone())
        );
        assert_eq!(area(&a - &b) + area(&a & &b), area(a.clone()));
    }
}

#[test]
fn values() {
    let halves = land("sec. 14, NE1/4, NW1/4.");
    let set = HashSet::from([
        halves.clone(),
        land("sec. 14, N1/2."),
        land("sec. 14."),
        elsewhere("sec. 14."),
    ]);
    assert_eq!(set.len(), 3);
    assert_eq!(halves.clone(), halves);
}
