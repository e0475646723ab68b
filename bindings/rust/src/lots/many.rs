//! The answers by a lot table that do not depend on acreage, and those to many descriptions and tracts.

use super::Lots;
use crate::acres::Acres;
use crate::answer::{Fault, Verdict};
use crate::explanation::explained_by;
use crate::ffi::{self, TRACTS_MOST};
use crate::land::Land;
use crate::lot_faults::refused_on_plat;
use crate::note::Note;
use crate::plat::{in_a_row, Plat, LINES, USUAL_OVERLAPS};
use crate::refused::{Refused, DESCRIPTION, LIST};
use crate::report::{list_of, LotsOverlap, TractAnswer};
use crate::text::text_in;
use crate::township::NOMINAL_QUARTER;

impl Lots {
    /// Returns the land described, as a value that can be combined and compared with other land of this
    /// table. It is on the plat of the table: with its date, and with its lots if the table says where
    /// they lie.
    ///
    /// # Errors
    ///
    /// Returns [`Refused`], with a number from 41 to 44 or 61 to 68, if the description is refused. The
    /// table need not have the lots of the land.
    ///
    /// ```
    /// let lots = township::Lots::read(b"section,lot,acres\nT,2,N,3,W\n5,1,40.45\n")?;
    /// assert_eq!(lots.land("sec. 5, lot 2.")?.to_string(), "T. 2 N., R. 3 W.,\nsec. 5, lot 2.\n");
    /// # Ok::<(), township::Refused>(())
    /// ```
    pub fn land(&self, description: impl AsRef<[u8]>) -> Result<Land, Refused> {
        self.land_as(DESCRIPTION, description.as_ref())
    }

    /// The same. An explanation calls the description by this name.
    pub(crate) fn land_as(&self, name: &str, description: &[u8]) -> Result<Land, Refused> {
        let (answer, data) = ffi::lots_land_read(&self.data, description);
        match answer.accepted() {
            // The library knows the standard lots without a table.
            Ok(_) => Ok(Land::of(data, self.has_land().then(|| self.clone()))),
            Err(fault) => Err(refused_on_plat(fault, &self.data, description, name)),
        }
    }

    /// Returns the canonical description of the land: see [`Plat::normal`].
    ///
    /// # Errors
    ///
    /// The same as for [`Lots::land`].
    pub fn normal(&self, description: impl AsRef<[u8]>) -> Result<String, Refused> {
        Ok(self.land(description)?.to_string())
    }

    /// Returns the notes on an accepted description: see [`Plat::notes`]. With the standard lots, the
    /// acreage in a note is nominal; otherwise a note has none.
    ///
    /// # Errors
    ///
    /// The same as for [`Lots::land`].
    pub fn notes(&self, description: impl AsRef<[u8]>) -> Result<Vec<Note>, Refused> {
        if !self.has_land() {
            return self.nominal().notes(description);
        }
        let description = description.as_ref();
        let (answer, explained) = explained_by(|room| {
            let name = DESCRIPTION.as_bytes();
            ffi::lots_explain_description_parts(&self.data, description, name, room)
        });
        match answer.accepted() {
            Ok(answer) => Ok(Note::beside(answer, explained)),
            Err(fault) => Err(refused_on_plat(fault, &self.data, description, DESCRIPTION)),
        }
    }

    /// Returns an iterator over the answers to many descriptions, in order. Each answer is the result of
    /// [`Lots::acres`]. A refusal does not end the iteration.
    ///
    /// ```
    /// let lots = township::Lots::read(b"section,lot,acres\nT,2,N,3,W\n5,1,40.45\n")?;
    /// let total: township::Acres = lots.acres_of(["sec. 5, lot 1.", "sec. 14."]).sum::<Result<_, _>>()?;
    /// assert_eq!(total.to_string(), "680.45");
    /// # Ok::<(), township::Refused>(())
    /// ```
    pub fn acres_of<'a, I>(
        &'a self,
        descriptions: I,
    ) -> impl Iterator<Item = Result<Acres, Refused>> + 'a
    where
        I: IntoIterator + 'a,
        I::Item: AsRef<[u8]>,
    {
        descriptions
            .into_iter()
            .map(move |description| self.acres(description))
    }

    /// Returns the answers to many descriptions, in order, by one call of the library. Each answer is the
    /// result of [`Lots::acres`].
    pub fn acres_many<D: AsRef<[u8]>>(&self, descriptions: &[D]) -> Vec<Result<Acres, Refused>> {
        let (all, offsets) = in_a_row(descriptions);
        let mut answers = vec![ffi::Answer::BLANK; descriptions.len()];
        let outcome = ffi::lots_acres_many(&self.data, &all, &offsets, &mut answers);
        if let Err(fault) = outcome.accepted() {
            unreachable!("only descriptions are refused, and {}", fault.refusal);
        }
        let each = descriptions.iter().zip(answers);
        each.map(|(description, answer)| self.acres_in(answer, description.as_ref()))
            .collect()
    }

    /// Returns the canonical descriptions of many descriptions, or their refusals, in their order, by one
    /// call of the library. This is faster than [`Lots::normal`] for each.
    pub fn normal_many<D: AsRef<[u8]>>(&self, descriptions: &[D]) -> Vec<Result<String, Refused>> {
        if !self.has_land() {
            return self.nominal().normal_many(descriptions);
        }
        let (all, offsets) = in_a_row(descriptions);
        let mut answers = vec![ffi::FullAnswer::BLANK; descriptions.len()];
        let outcome = ffi::lots_answer_many(&self.data, &all, &offsets, &mut answers);
        if let Err(fault) = outcome.accepted() {
            unreachable!("only descriptions are refused, and {}", fault.refusal);
        }
        let each = descriptions.iter().zip(&answers);
        each.map(|(description, answer)| self.normal_in(answer, description.as_ref()))
            .collect()
    }

    /// Returns the answer to each of the tracts, each a name and a description, whatever is wrong with the
    /// others: its acreage, or the first refusal that it has by itself. If its land contains a lot that
    /// the table lacks, that is number 83 with the inner refusal 94. Tracts that overlap are accepted.
    ///
    /// # Errors
    ///
    /// Returns [`Refused`] only if there are too many tracts (85), or if they are too long (80).
    ///
    /// ```
    /// use township::Refusal;
    ///
    /// let lots = township::Lots::read(b"section,lot,acres\nT,2,N,3,W\n5,1,40.45\n")?;
    /// let answers = lots.report_each([("A", "sec. 5, lot 1."), ("B", "sec. 5, lot 2.")])?;
    /// assert_eq!(answers[0].answer.unwrap().to_string(), "40.45");
    /// let inner = answers[1].answer.unwrap_err().inner;
    /// assert_eq!(inner, Some(Refusal { number: 94, at: 502 }));
    /// # Ok::<(), township::Refused>(())
    /// ```
    pub fn report_each<N, D>(
        &self,
        tracts: impl IntoIterator<Item = (N, D)>,
    ) -> Result<Vec<TractAnswer>, Refused>
    where
        N: AsRef<[u8]>,
        D: AsRef<[u8]>,
    {
        let list = list_of(tracts);
        let mut answers = vec![ffi::TractAnswer::BLANK; TRACTS_MOST];
        match ffi::lots_report_each(&self.data, &list, &mut answers).accepted() {
            Ok(answer) => {
                let answers = &answers[..answer.text_length()];
                Ok(answers.iter().map(TractAnswer::from_data).collect())
            }
            Err(fault) => Err(self.whole_list_refused(fault, &list)),
        }
    }

    /// Returns all overlaps of the tracts, each a name and a description, in the order of the later tract,
    /// and then of the earlier one. A tract whose description is refused overlaps none.
    ///
    /// # Errors
    ///
    /// The same as for [`Lots::report_each`].
    ///
    /// ```
    /// let lots = township::Lots::read(b"section,lot,acres\nT,2,N,3,W\n5,1,40.45\n")?;
    /// let tracts = [("A", "sec. 5."), ("B", "sec. 5, lot 1."), ("C", "sec. 5, lot 2.")];
    /// let overlaps = lots.overlaps(tracts)?;
    /// assert_eq!(overlaps[0].acres.unwrap().to_string(), "40.45");
    /// assert_eq!((overlaps[1].first, overlaps[1].second, overlaps[1].acres), (0, 2, None));
    /// # Ok::<(), township::Refused>(())
    /// ```
    pub fn overlaps<N, D>(
        &self,
        tracts: impl IntoIterator<Item = (N, D)>,
    ) -> Result<Vec<LotsOverlap>, Refused>
    where
        N: AsRef<[u8]>,
        D: AsRef<[u8]>,
    {
        let list = list_of(tracts);
        let mut room = vec![ffi::LotsOverlap::BLANK; USUAL_OVERLAPS];
        let mut answer = ffi::lots_overlaps(&self.data, &list, &mut room);
        if answer.verdict() == Verdict::NoRoom {
            room = vec![ffi::LotsOverlap::BLANK; answer.text_length()];
            answer = ffi::lots_overlaps(&self.data, &list, &mut room);
        }
        match answer.accepted() {
            Ok(answer) => {
                let found = &room[..answer.text_length()];
                Ok(found.iter().map(LotsOverlap::from_data).collect())
            }
            Err(fault) => Err(self.whole_list_refused(fault, &list)),
        }
    }

    /// Returns the canonical description in the answer to a description, or its refusal.
    fn normal_in(&self, answer: &ffi::FullAnswer, description: &[u8]) -> Result<String, Refused> {
        if answer.normal.verdict == ffi::NO_ROOM {
            return self.normal(description);
        }
        match answer.normal.accepted() {
            Ok(_) => Ok(text_in(&answer.text, answer.normal)),
            Err(fault) => Err(refused_on_plat(fault, &self.data, description, DESCRIPTION)),
        }
    }

    /// Returns the refusal of a list as a whole. It has no explanation if a tract's fault comes before it,
    /// since that fault would be explained.
    fn whole_list_refused(&self, fault: Fault, list: &[u8]) -> Refused {
        Refused::explained_if_same(fault, |room| {
            ffi::lots_explain_list_parts(&self.data, list, LIST.as_bytes(), room)
        })
    }

    /// Returns the plat of the township in which every half mile is 40 chains long.
    fn nominal(&self) -> Plat {
        let plat = Plat::from_parts(self.township(), [NOMINAL_QUARTER; LINES]);
        plat.expect("each township has a nominal plat")
    }
}
