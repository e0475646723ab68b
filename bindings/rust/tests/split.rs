//! The descriptions of the townships in a text.

use township::{split, Refused, Township};

fn texts(text: &str) -> Vec<&str> {
    split(text)
        .expect("the text is split")
        .iter()
        .map(|part| part.text)
        .collect()
}

fn refused(text: &str) -> Refused {
    split(text).expect_err("the text is refused")
}

#[test]
fn each_township_is_a_part() {
    let text = "T. 2 N., R. 3 W., sec. 5, S½;\nand T3N R3W, sec. 31; t2n r3w sec. 6.";
    assert_eq!(
        texts(text),
        [
            "T. 2 N., R. 3 W., sec. 5, S½",
            "T3N R3W, sec. 31",
            "t2n r3w sec. 6."
        ]
    );
    for part in split(text).unwrap() {
        assert_eq!(part.text, &text[part.start..part.end]);
    }
}

#[test]
fn one_township_is_the_only_part() {
    for text in ["", "sec. 14, NE1/4.", " T2N R3W sec. 14;\n", "é", "Tract 1"] {
        assert_eq!(texts(text), [text]);
    }
    // A character that no description contains is in the part that it ends.
    assert_eq!(texts("T2N é T3N"), ["T2N é", "T3N"]);
}

#[test]
fn many_parts() {
    let text = "T2N R3W sec. 5; ".repeat(1_000);
    let parts = split(&text).unwrap();
    assert_eq!(parts.len(), 1_000);
    assert_eq!(parts[998].text, "T2N R3W sec. 5");
}

#[test]
fn the_township_of_a_part() {
    let township: Township = "2N-3W".parse().unwrap();
    for text in ["T. 2 N., R. 3 W., sec. 14", "t2n r3w sec 14", "T2N R3W"] {
        assert_eq!(split(text).unwrap()[0].township(), Ok(township));
    }
    // In a description, zeros before a number mean nothing.
    for (text, township) in [
        ("T. 0020 N., R. 3 W., sec. 14", "20N-3W"),
        ("T. 02 N., R. 0030 W., sec. 14", "2N-30W"),
    ] {
        let found = split(text).unwrap()[0].township();
        assert_eq!(found, township.parse(), "{text}");
    }
    for (text, number) in [
        ("", 31),
        ("sec. 14", 31),
        ("T2N", 33),
        ("T. 2 N., R. 3, lot 1", 34),
    ] {
        let refused = split(text).unwrap()[0].township().unwrap_err();
        assert_eq!(refused.number, number, "{text}");
    }
    for (text, at) in [("T. 0 N.", 3), ("T. 000 N.", 3), ("T. 00100 N.", 3)] {
        let refused = split(text).unwrap()[0].township().unwrap_err();
        assert_eq!((refused.number, refused.at), (31, at), "{text}");
    }
}

#[test]
fn land_without_a_heading_before_one() {
    let refused = refused("sec. 5, S½;\n  T2N R3W sec. 6");
    assert_eq!((refused.number, refused.at), (38, 15));
    assert_eq!((refused.line, refused.column), (Some(2), Some(3)));
    assert_eq!(refused.span(), Some(15..16));
    assert_eq!(
        refused.explanation,
        "township: description:2:3: the land before this heading has no heading\n"
    );
}

#[test]
fn long_texts() {
    let land = "T2N R3W sec. 5";
    let most = land.to_owned() + &" ".repeat(1_048_576 - land.len());
    assert_eq!(texts(&most), [most.as_str()]);
    let refused = refused(&format!("{most} "));
    assert_eq!((refused.number, refused.at), (39, 1_048_576));
    assert_eq!(
        refused.to_string(),
        "description: the text is longer than 1048576 bytes"
    );
}
