//! Worked cases, from the file that the environment variable `TOWNSHIP_CASE_RECORDS` names. Without
//! it they are skipped; `tests/library/rust.sh` makes the file from a zip of cases.
//!
//! A case is one line of words, and then the bytes whose numbers it gives, one text right after
//! the other, and a line feed:
//!
//! ```text
//! NAME KIND NOTES INPUT ANSWER
//! ```
//!
//! `tests/library/c/cases.c` says more about them, and `tests/library/c/case_records.py` writes them.

mod samples;

use samples::rounded;
use std::sync::OnceLock;
use std::{env, fs};
use township::{Account, Plat, Refusal, Refused};

const VARIABLE: &str = "TOWNSHIP_CASE_RECORDS";

#[derive(Clone, Copy, Debug, PartialEq)]
enum Kind {
    Acres,
    AcresByPlat,
    Plat,
    Normal,
    Report,
}

struct Case {
    name: &'static str,
    kind: Kind,
    notes: &'static [u8],
    /// A description or a list of tracts.
    input: &'static [u8],
    /// The text that the program `township` writes.
    wanted: &'static [u8],
}

/// The records that have not been read yet.
struct Cases(&'static [u8]);

impl Cases {
    fn all() -> Cases {
        static RECORDS: OnceLock<Vec<u8>> = OnceLock::new();
        Cases(RECORDS.get_or_init(|| {
            let path = env::var_os(VARIABLE).unwrap_or_else(|| panic!("{VARIABLE} names no file"));
            fs::read(path).unwrap_or_else(|error| panic!("{VARIABLE}: {error}"))
        }))
    }

    /// This many bytes, and the bytes after them.
    fn take(&mut self, length: usize) -> &'static [u8] {
        assert!(length <= self.0.len(), "a case ends too soon");
        let (taken, rest) = self.0.split_at(length);
        self.0 = rest;
        taken
    }
}

impl Iterator for Cases {
    type Item = Case;

    fn next(&mut self) -> Option<Case> {
        if self.0.is_empty() {
            return None;
        }
        let end = self.0.iter().position(|&byte| byte == b'\n');
        let line = std::str::from_utf8(self.take(end.expect("a case has a line"))).unwrap();
        self.take(1);
        let words: Vec<&'static str> = line.split(' ').collect();
        let [name, kind, notes, input, wanted] = words[..] else {
            panic!("this is no line of a case: {line}");
        };
        let mut text = |length: &str| self.take(length.parse().expect("a number of bytes"));
        let case = Case {
            name,
            kind: kind_of(kind),
            notes: text(notes),
            input: text(input),
            wanted: text(wanted),
        };
        assert_eq!(self.take(1), b"\n", "{name}");
        Some(case)
    }
}

fn kind_of(word: &str) -> Kind {
    match word {
        "acres" => Kind::Acres,
        "by-plat" => Kind::AcresByPlat,
        "plat" => Kind::Plat,
        "normal" => Kind::Normal,
        "report" => Kind::Report,
        _ => panic!("there is no kind {word}"),
    }
}

/// Compares all cases of a kind.
fn try_cases(kind: Kind) {
    let mut tried = 0;
    for case in Cases::all().filter(|case| case.kind == kind) {
        let found = written(answer(&case));
        assert!(
            found.as_bytes() == case.wanted,
            "{}: {:?}, not {:?}",
            case.name,
            front(found.as_bytes()),
            front(case.wanted)
        );
        tried += 1;
    }
    assert!(tried > 0, "there are no cases of {kind:?}");
}

/// The first characters of a text.
fn front(text: &[u8]) -> String {
    String::from_utf8_lossy(&text[..text.len().min(90)]).into_owned()
}

/// The text that the program writes.
fn written(answer: Result<String, Refused>) -> String {
    let refused = match answer {
        Ok(text) => return text,
        Err(refused) => refused,
    };
    let outer = Refusal {
        number: refused.number,
        at: refused.at,
    };
    match refused.inner {
        Some(inner) => format!("{outer}\n{inner}\n"),
        None => format!("{outer}\n"),
    }
}

fn answer(case: &Case) -> Result<String, Refused> {
    let plat = Plat::read(case.notes)?;
    match case.kind {
        Kind::Acres => acres_text(&plat, case, Account::Exact),
        Kind::AcresByPlat => acres_text(&plat, case, Account::Plat),
        Kind::Plat => Ok(plat.print()),
        Kind::Normal => plat.normal(case.input),
        Kind::Report => report_text(&plat, case),
    }
}

/// The acres of a description, which are its rounded area.
fn acres_text(plat: &Plat, case: &Case, account: Account) -> Result<String, Refused> {
    let acres = plat.acres_by(case.input, account)?;
    let area = plat.area_by(case.input, account)?;
    assert_eq!(acres.hundredths(), rounded(area), "{}", case.name);
    Ok(format!("{acres} acres\n"))
}

/// The report of a list, which is the same when it is written from its figures.
fn report_text(plat: &Plat, case: &Case) -> Result<String, Refused> {
    let text = plat.report(case.input)?;
    let report = plat.report_csv(case.input)?;
    assert_eq!(report.to_string(), text, "{}", case.name);
    Ok(text)
}

#[test]
#[ignore = "TOWNSHIP_CASE_RECORDS names no cases"]
fn acres() {
    try_cases(Kind::Acres);
}

#[test]
#[ignore = "TOWNSHIP_CASE_RECORDS names no cases"]
fn acres_by_the_plat() {
    try_cases(Kind::AcresByPlat);
}

#[test]
#[ignore = "TOWNSHIP_CASE_RECORDS names no cases"]
fn plats() {
    try_cases(Kind::Plat);
}

#[test]
#[ignore = "TOWNSHIP_CASE_RECORDS names no cases"]
fn normal_texts() {
    try_cases(Kind::Normal);
}

#[test]
#[ignore = "TOWNSHIP_CASE_RECORDS names no cases"]
fn reports() {
    try_cases(Kind::Report);
}
