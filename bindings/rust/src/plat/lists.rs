//! The answers to lists of tracts.

use super::Plat;
use crate::answer::{Fault, Verdict};
use crate::explanation::explained_by;
use crate::ffi::{self, TRACTS_MOST};
use crate::refused::{Refused, LIST};
use crate::report::{list_of, Overlap, Report, TractAnswer};
use crate::text::text_by;

/// The room for overlaps in a first call.
pub(crate) const USUAL_OVERLAPS: usize = 64;

impl Plat {
    /// Returns the report on a list of tracts (CSV, at most 1,048,576 bytes; see
    /// `docs/TRACTS-FORMAT.md`), as text: the acreage of each tract, of all tracts together, and of
    /// all other land in the township. [`Plat::report_csv`] returns the same as data.
    ///
    /// # Errors
    ///
    /// Returns [`Refused`], with a number from 80 to 85, if the list is refused. If a tract's
    /// description is refused, the number is 83, and `inner` contains the description's own
    /// refusal.
    ///
    /// ```
    /// # let notes = include_bytes!(concat!(env!("TOWNSHIP_FILES"), "/samples/b1.csv"));
    /// # let plat = township::Plat::read(notes)?;
    /// let list = "name,description\nA,\"sec. 7, lot 1.\"\nB,\"sec. 7, lot 4.\"\n";
    /// assert_eq!(plat.report(list)?, "\
    /// tract A: 39.18 acres
    /// tract B: 39.03 acres
    /// total: 78.20 acres
    /// remaining: 22959.37 acres
    /// ");
    /// # Ok::<(), township::Refused>(())
    /// ```
    pub fn report(&self, list: impl AsRef<[u8]>) -> Result<String, Refused> {
        let list = list.as_ref();
        let (answer, text) = text_by(|room| ffi::report(&self.parts, list, room));
        match answer.accepted() {
            Ok(_) => Ok(text),
            Err(fault) => Err(self.list_refused(fault, list)),
        }
    }

    /// Returns the report on a list of tracts (CSV), as data.
    ///
    /// # Errors
    ///
    /// The same as for [`Plat::report`].
    ///
    /// ```
    /// # let notes = include_bytes!(concat!(env!("TOWNSHIP_FILES"), "/samples/b1.csv"));
    /// # let plat = township::Plat::read(notes)?;
    /// let list = "name,description\nA,\"sec. 7, lot 1.\"\n";
    /// let report = plat.report_csv(list)?;
    /// assert_eq!(report.tracts[0].name, "A");
    /// assert_eq!(report.tracts[0].acres.hundredths(), 3_918);
    /// assert_eq!(report.to_string(), plat.report(list)?);
    /// # Ok::<(), township::Refused>(())
    /// ```
    pub fn report_csv(&self, list: impl AsRef<[u8]>) -> Result<Report, Refused> {
        let list = list.as_ref();
        let mut tracts = vec![ffi::Tract::BLANK; TRACTS_MOST];
        let (answer, totals) = ffi::account(&self.parts, list, &mut tracts);
        match answer.accepted() {
            Ok(answer) => Ok(Report::from_data(&tracts[..answer.text_length()], totals)),
            Err(fault) => Err(self.list_refused(fault, list)),
        }
    }

    /// Returns the report on tracts, each a name and a description. There may be at most 1,000
    /// tracts, and they must not overlap. A name is 1 to 64 bytes of printable ASCII, and each name
    /// must be unique.
    ///
    /// # Errors
    ///
    /// The same as for [`Plat::report`]. Locations refer to the list that the tracts make: the
    /// tract with index k is record k + 2.
    ///
    /// ```
    /// # let notes = include_bytes!(concat!(env!("TOWNSHIP_FILES"), "/samples/b1.csv"));
    /// # let plat = township::Plat::read(notes)?;
    /// let report = plat.report_of([("A", "sec. 7, lot 1."), ("B", "sec. 7, lot 4.")])?;
    /// assert_eq!(report.tracts[1].acres.to_string(), "39.03");
    /// assert_eq!(report.total.to_string(), "78.20");
    ///
    /// let refused = plat.report_of([("A", "sec. 7, lot 5.")]).unwrap_err();
    /// assert_eq!((refused.number, refused.at), (83, 2));
    /// assert_eq!(refused.inner, Some(township::Refusal { number: 64, at: 12 }));
    /// # Ok::<(), township::Refused>(())
    /// ```
    pub fn report_of<N, D>(
        &self,
        tracts: impl IntoIterator<Item = (N, D)>,
    ) -> Result<Report, Refused>
    where
        N: AsRef<[u8]>,
        D: AsRef<[u8]>,
    {
        self.report_csv(list_of(tracts))
    }

    /// Returns the answer to each tract of a list (CSV), whatever is wrong with the others: its
    /// acreage, or the first refusal that it has by itself. Tracts that overlap are accepted here.
    ///
    /// # Errors
    ///
    /// Returns [`Refused`] only if the list as a whole is refused: it is too large (80), has no
    /// heading (81), or has too many tracts (85).
    ///
    /// ```
    /// # let notes = include_bytes!(concat!(env!("TOWNSHIP_FILES"), "/samples/b1.csv"));
    /// # let plat = township::Plat::read(notes)?;
    /// let list = "name,description\nA,\"sec. 7, lot 1.\"\nB,\"sec. 7, lot 5.\"\n";
    /// let answers = plat.report_each_csv(list)?;
    /// assert_eq!(answers[0].answer.unwrap().to_string(), "39.18");
    /// let refused = answers[1].answer.unwrap_err();
    /// assert_eq!(refused.inner, Some(township::Refusal { number: 64, at: 12 }));
    /// # Ok::<(), township::Refused>(())
    /// ```
    pub fn report_each_csv(&self, list: impl AsRef<[u8]>) -> Result<Vec<TractAnswer>, Refused> {
        let list = list.as_ref();
        let mut answers = vec![ffi::TractAnswer::BLANK; TRACTS_MOST];
        match ffi::report_each(&self.parts, list, &mut answers).accepted() {
            Ok(answer) => {
                let answers = &answers[..answer.text_length()];
                Ok(answers.iter().map(TractAnswer::from_data).collect())
            }
            Err(fault) => Err(self.whole_list_refused(fault, list)),
        }
    }

    /// Returns the answer to each of the tracts, each a name and a description, as
    /// [`Plat::report_each_csv`] does.
    ///
    /// # Errors
    ///
    /// The same as for [`Plat::report_each_csv`].
    ///
    /// ```
    /// # let notes = include_bytes!(concat!(env!("TOWNSHIP_FILES"), "/samples/b1.csv"));
    /// # let plat = township::Plat::read(notes)?;
    /// let answers = plat.report_each([("A", "sec. 14."), ("A", "sec. 15.")])?;
    /// let again = answers[1].answer.unwrap_err().refusal;
    /// assert_eq!((again.number, again.at), (82, 3));
    /// # Ok::<(), township::Refused>(())
    /// ```
    pub fn report_each<N, D>(
        &self,
        tracts: impl IntoIterator<Item = (N, D)>,
    ) -> Result<Vec<TractAnswer>, Refused>
    where
        N: AsRef<[u8]>,
        D: AsRef<[u8]>,
    {
        self.report_each_csv(list_of(tracts))
    }

    /// Returns all overlaps in a list of tracts (CSV), whatever else is wrong with it, in the order
    /// of the later tract, and then of the earlier one. A record that is not a tract's, or a tract
    /// whose description is refused, overlaps none.
    ///
    /// # Errors
    ///
    /// The same as for [`Plat::report_each_csv`].
    ///
    /// ```
    /// # let notes = include_bytes!(concat!(env!("TOWNSHIP_FILES"), "/samples/b1.csv"));
    /// # let plat = township::Plat::read(notes)?;
    /// let list = "name,description\nA,sec. 14\nB,\"sec. 14, NE1/4\"\n";
    /// let overlaps = plat.overlaps_csv(list)?;
    /// assert_eq!((overlaps[0].first, overlaps[0].second), (0, 1));
    /// assert_eq!(overlaps[0].acres.to_string(), "160.00");
    /// # Ok::<(), township::Refused>(())
    /// ```
    pub fn overlaps_csv(&self, list: impl AsRef<[u8]>) -> Result<Vec<Overlap>, Refused> {
        let list = list.as_ref();
        let mut room = vec![ffi::Overlap::BLANK; USUAL_OVERLAPS];
        let mut answer = ffi::overlaps(&self.parts, list, &mut room);
        if answer.verdict() == Verdict::NoRoom {
            room = vec![ffi::Overlap::BLANK; answer.text_length()];
            answer = ffi::overlaps(&self.parts, list, &mut room);
        }
        match answer.accepted() {
            Ok(answer) => {
                let found = &room[..answer.text_length()];
                Ok(found.iter().map(Overlap::from_data).collect())
            }
            Err(fault) => Err(self.whole_list_refused(fault, list)),
        }
    }

    /// Returns all overlaps of the tracts, each a name and a description, as [`Plat::overlaps_csv`]
    /// does.
    ///
    /// # Errors
    ///
    /// The same as for [`Plat::report_each_csv`].
    ///
    /// ```
    /// # let notes = include_bytes!(concat!(env!("TOWNSHIP_FILES"), "/samples/b1.csv"));
    /// # let plat = township::Plat::read(notes)?;
    /// assert!(plat.overlaps([("A", "sec. 14."), ("B", "sec. 15.")])?.is_empty());
    /// # Ok::<(), township::Refused>(())
    /// ```
    pub fn overlaps<N, D>(
        &self,
        tracts: impl IntoIterator<Item = (N, D)>,
    ) -> Result<Vec<Overlap>, Refused>
    where
        N: AsRef<[u8]>,
        D: AsRef<[u8]>,
    {
        self.overlaps_csv(list_of(tracts))
    }

    /// Returns the refusal of a list as a whole. It has no explanation if a tract's fault comes
    /// before it, since that fault would be explained.
    fn whole_list_refused(&self, fault: Fault, list: &[u8]) -> Refused {
        let (explained, _) =
            explained_by(|room| ffi::explain_list_parts(&self.parts, list, LIST.as_bytes(), room));
        if explained.accepted() == Err(fault) {
            return self.list_refused(fault, list);
        }
        Refused::unexplained(fault)
    }

    /// Returns the refusal of a list of tracts on this plat, with its explanation.
    fn list_refused(&self, fault: Fault, list: &[u8]) -> Refused {
        Refused::explained(fault, |room| {
            ffi::explain_list_parts(&self.parts, list, LIST.as_bytes(), room)
        })
    }
}
