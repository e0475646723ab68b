//! The refusals of lot tables, and of land by them, with the explanations of the library.

use crate::answer::Fault;
use crate::explanation::explained_by;
use crate::ffi;
use crate::refused::Refused;

/// The number of the refusal of land with a lot that the table lacks.
pub(crate) const LACKING: u32 = ffi::REFUSAL_LOTS_LACKING;

/// Returns the refusal of bytes that are no lot table, with its explanation, which calls them `source`.
pub(crate) fn refused_table(fault: Fault, table: &[u8], source: &str) -> Refused {
    Refused::explained(fault, |room| {
        ffi::explain_lots_parts(table, source.as_bytes(), room)
    })
}

/// Returns the refusal of a description on the plat of a lot table, with its explanation, which calls the
/// description `source`.
pub(crate) fn refused_on_plat(
    fault: Fault,
    lots: &ffi::Lots,
    description: &[u8],
    source: &str,
) -> Refused {
    Refused::explained(fault, |room| {
        ffi::lots_explain_description_parts(lots, description, source.as_bytes(), room)
    })
}

/// Returns the refusal of land, or of a description, with a lot that the table lacks, with its explanation.
/// `source` is the name of what is refused.
pub(crate) fn refused_lacking(fault: Fault, lots: &ffi::Lots, source: &str) -> Refused {
    let at = fault.refusal.at;
    let (answer, explained) =
        explained_by(|room| ffi::explain_lacking_parts(lots, at, source.as_bytes(), room));
    let explains = answer.accepted().err().map(|told| told.refusal);
    assert_eq!(
        explains,
        Some(fault.refusal),
        "the library explains what it refused"
    );
    Refused::new(fault, explained)
}

#[cfg(test)]
mod tests {
    use super::*;
    use crate::lots::Lots;
    use crate::refused::Refusal;

    const TABLE: &[u8] = b"section,lot,acres\nT,2,N,3,W\n6,1,36.86\n6,3,36.90\n";

    fn lots() -> ffi::Lots {
        let (answer, lots) = ffi::lots_read(TABLE);
        assert!(answer.accepted().is_ok());
        lots
    }

    const LOT: Refusal = Refusal {
        number: LACKING,
        at: 607,
    };

    #[test]
    fn lot_that_land_has_and_the_table_lacks() {
        let fault = Fault {
            refusal: LOT,
            inner: None,
        };
        let refused = refused_lacking(fault, &lots(), "land");
        assert_eq!(
            (refused.number, refused.at, refused.line),
            (LACKING, 607, None)
        );
        assert_eq!(
            refused.to_string(),
            "land: the lot table has no record for lot 7 of section 6"
        );
        assert_eq!(refused.hints(), ["of section 6, it has these lots: 1, 3"]);
    }

    #[test]
    fn lot_that_a_tract_has_and_the_table_lacks() {
        let lots = Lots::read(TABLE).unwrap();
        let refused = lots.report_of([("A", "sec. 6, lot 7.")]).unwrap_err();
        assert_eq!((refused.number, refused.at), (83, 2));
        assert_eq!(refused.inner, Some(LOT));
        assert_eq!(
            refused.explanation,
            "township: tracts:2: tract `A`: the lot table has no record for lot 7 of section 6\n  \
             of section 6, it has these lots: 1, 3\n"
        );
        assert_eq!(
            refused.to_string(),
            "tracts:2: tract `A`: the lot table has no record for lot 7 of section 6"
        );
    }

    #[test]
    #[should_panic(expected = "the library explains what it refused")]
    fn lot_that_the_table_has() {
        let refusal = Refusal {
            number: LACKING,
            at: 601,
        };
        let fault = Fault {
            refusal,
            inner: None,
        };
        refused_lacking(fault, &lots(), "land");
    }
}
