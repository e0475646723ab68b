//! The readings of texts that are not written as descriptions are.

mod samples;

use samples::uneven;
use township::{suggest, suggest_without, Assumption, Manner, Phrases, Rule, Ways};

/// White space between two parts: two parts, or one.
const TWO: &str = "sec. 14: NE¼NE¼ SW¼SW¼";

#[test]
fn order_and_changes() {
    let found = suggest(TWO);
    let [two, one] = &found.readings[..] else {
        panic!("{found:?}");
    };
    assert_eq!(two.text, "sec. 14: NE¼NE¼, SW¼SW¼");
    assert_eq!(one.text, "sec. 14: NE¼NE¼SW¼SW¼");
    // The space is the byte 17: each `¼` before it has two bytes.
    let (comma, joint) = (&two.changes[0], &one.changes[0]);
    assert_eq!(
        (comma.start, comma.end, comma.written.as_str()),
        (17, 17, ",")
    );
    assert_eq!(
        (joint.start, joint.end, joint.written.as_str()),
        (17, 18, "")
    );
    assert_eq!((comma.rule, joint.rule), (Rule::Comma, Rule::OnePart));
    assert_eq!((two.manner, one.manner), (Manner::Changed, Manner::Changed));
    assert_eq!(found.beyond, None);
}

#[test]
fn changes_make_the_text() {
    for text in [
        TWO,
        "NENE, S2NE4 Sec 14-2N-3W",
        "08 0020N 0030W 014 ALIQ NENE;",
    ] {
        let found = suggest(text);
        assert!(!found.readings.is_empty(), "{text}");
        for reading in found.readings {
            let (mut made, mut at) = (String::new(), 0);
            for change in &reading.changes {
                made += &text[at..change.start];
                made += &change.written;
                at = change.end;
            }
            assert_eq!(made + &text[at..], reading.text);
        }
    }
}

#[test]
fn a_description_is_its_own_reading() {
    let found = suggest("sec. 14, NE1/4.");
    assert_eq!(found.readings.len(), 1);
    assert_eq!(found.readings[0].text, "sec. 14, NE1/4.");
    assert!(found.readings[0].changes.is_empty());
}

#[test]
fn readings_are_descriptions() {
    // Two parts of 40 acres each; or one of a sixteenth of 40 acres.
    let acres: Vec<String> = suggest(TWO)
        .readings
        .iter()
        .map(|reading| uneven().acres(reading).unwrap().to_string())
        .collect();
    assert_eq!(acres, ["80.00", "2.50"]);
}

#[test]
fn assumptions() {
    let text = "TRACT 1: NE/4 Sec 14, T2N R3W, Boise Meridian, containing 160.00 acres";
    let found = suggest(text);
    let assumed: Vec<_> = found.readings[0]
        .assumptions()
        .filter_map(|change| change.assumes)
        .collect();
    let wanted = [
        Assumption::NotLand,
        Assumption::SameMeridian,
        Assumption::SameAcreage,
    ];
    assert_eq!(assumed, wanted);
}

#[test]
fn assumptions_about_what_is_not_left_out() {
    for (text, assumption, words) in [
        (
            "Section Fourteen (14): NE/4",
            Assumption::SaidBefore,
            "this repeats what is before it",
        ),
        (
            "Sec. 14, NEI/4",
            Assumption::WrongLetter,
            "a letter or digit is wrong",
        ),
        (
            "Sec. 14: N2SW",
            Assumption::NoMissingComma,
            "no comma is missing",
        ),
    ] {
        let found = suggest(text);
        let assumed: Vec<_> = found.readings[0]
            .assumptions()
            .filter_map(|change| change.assumes)
            .collect();
        assert_eq!(assumed, [assumption], "{text}");
        assert_eq!(assumption.to_string(), words);
    }
    assert_eq!(suggest("Sec. 14: N/2").readings[0].assumptions().count(), 0);
}

#[test]
fn nothing_is_certain() {
    for text in ["".as_bytes(), b"the old mill", b"sec. 14\xff"] {
        let found = suggest(text);
        assert!(found.readings.is_empty() && found.beyond.is_none());
    }
}

#[test]
fn long_texts_are_read_whole() {
    // More changes, and more bytes, than a first call has room for.
    let sections: Vec<String> = [8, 9, 10, 11, 14, 15, 16, 17, 20]
        .iter()
        .map(|section| format!("sec. {section}, NE4NE4, NW4NE4, NE4SW4, NW4SW4"))
        .collect();
    let text = sections.join(";\n") + &" ".repeat(3_000);
    let found = suggest(&text);
    assert_eq!(found.readings.len(), 1);
    assert_eq!(found.readings[0].changes.len(), 9 * 8);
    assert_eq!(
        uneven().acres(&found.readings[0]).unwrap().to_string(),
        "1440.00"
    );
}

#[test]
fn unread() {
    let text = "½ bläh\nblip Sec. 14 blop";
    let found = suggest(text);
    assert!(found.readings.is_empty());
    let words: Vec<_> = found
        .unread
        .iter()
        .map(|unread| (&text[unread.start..unread.end], unread.ways))
        .collect();
    assert_eq!(words, [("½ bläh", None), ("blip", None), ("blop", None)]);
    // Before any other land, `S2` may be section 2.
    let ways = suggest("S2, 12, T2N R3W").unread[1].ways;
    assert_eq!(ways, Some(Ways::SectionOrHalf));
    assert_eq!(Ways::SectionOrHalf.to_string(), "a section, or a half");
    assert_eq!(suggest(TWO).unread, []);
}

/// What the changes of a reading make of a text, with a space for each run of white space.
fn made_by(reading: &township::Reading, text: &str) -> String {
    let (mut at, mut made) = (0, String::new());
    for change in &reading.changes {
        made += &text[at..change.start];
        made += &change.written;
        at = change.end;
    }
    made += &text[at..];
    made.split_whitespace().collect::<Vec<_>>().join(" ")
}

#[test]
fn phrases_are_left_out() {
    assert!(suggest("sec. 14, blah NE1/4").readings.is_empty());
    let phrases = Phrases::new(["(blah)", "Blah"]).unwrap();
    for text in [
        "sec. 14, blah NE1/4",
        "sec. 14, NE/4 blah",
        "blah sec. 14, NE/4",
        "blah NE/4 blah Sec. 14 BLAH",
        "sec. 14, NE/4(blah)",
        "sec. 14: NE/4 blah SW/4",
        "T2N R3W blah Sec. 14:\n blah NENE, SWSW Blah",
        "TRACT 1: blah sec. 14, NE/4",
    ] {
        let found = suggest_without(text, &phrases);
        assert!(!found.readings.is_empty(), "{text}");
        for reading in &found.readings {
            assert_eq!(made_by(reading, text), reading.text, "{text}");
            let left_out = reading
                .assumptions()
                .filter(|change| change.assumes == Some(Assumption::SetAside));
            let count = text.to_lowercase().matches("blah").count();
            assert_eq!(left_out.count(), count, "{text}");
        }
    }
    let [reading] = &suggest_without("sec. 14, blah NE1/4", &phrases).readings[..] else {
        panic!("it has one reading");
    };
    assert_eq!(reading.text, "sec. 14, NE1/4");
    let change = &reading.changes[0];
    assert_eq!((change.start, change.end), (9, 13));
    assert_eq!(change.rule, Rule::SetAside);
    assert_eq!(
        Assumption::SetAside.to_string(),
        "you said that this is not land"
    );
    assert_eq!(suggest_without(TWO, &phrases), suggest(TWO));
}

#[test]
fn unread_besides_phrases() {
    let text = "the old blah mill";
    let found = suggest_without(text, &Phrases::new(["blah", " "]).unwrap());
    let unread: Vec<_> = found
        .unread
        .iter()
        .map(|each| &text[each.start..each.end])
        .collect();
    assert_eq!(unread, ["old", "mill"]);
}

#[test]
fn more_phrases_than_a_first_call_has_room_for() {
    let text = format!("{}sec. 14, NE/4", "blah ".repeat(1000));
    let found = suggest_without(text, &Phrases::new(["blah"]).unwrap());
    assert_eq!(found.readings[0].assumptions().count(), 1000);
}

#[test]
fn refused_phrases() {
    let why =
        "can't be left out: it names, excepts, or limits land, or contains a number that could \
               be that of a section";
    let refused = Phrases::new(["Kestrel", "Lot 3"]).unwrap_err();
    assert_eq!((refused.number, refused.at, refused.line), (51, 2, None));
    let said = format!("phrases: `Lot 3` (phrase 2) {why}");
    assert_eq!(refused.to_string(), said);
    let refused = Phrases::from_lines("Kestrel\r\n\r\n  Bl\u{e4}\n\t Lot 3 \n").unwrap_err();
    assert_eq!((refused.number, refused.at), (51, 3));
    assert_eq!(refused.to_string(), format!("phrases:4:3: `Lot 3` {why}"));
    for phrases in [vec!["a".to_owned(); 65_537], vec!["a".repeat(65_537)]] {
        for refused in [
            Phrases::from_lines(&phrases.join("\n")).unwrap_err(),
            Phrases::new(phrases).unwrap_err(),
        ] {
            assert_eq!((refused.number, refused.at), (50, 65_536));
            assert!(refused.sentence().contains("more than 65,536 phrases"));
        }
    }
    let most = Phrases::new(vec!["a"; 65_536]).unwrap();
    assert_eq!(most.as_slice().len(), 65_536);
    assert!(Phrases::from_lines("\n \n").unwrap().as_slice().is_empty());
}
