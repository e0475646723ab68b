//! The answers on a plat.

use super::Plat;
use crate::account::Account;
use crate::acres::Acres;
use crate::answer::Fault;
use crate::area::Area;
use crate::explanation::explained_by;
use crate::ffi::{self, Answer, FullAnswer};
use crate::figures::Figures;
use crate::note::Note;
use crate::refused::{Refused, DESCRIPTION};
use crate::text::{accepted_text_by, text_by, text_in};

impl Plat {
    /// Returns the acreage of the land described, rounded once to hundredths, half up.
    ///
    /// # Errors
    ///
    /// Returns [`Refused`], with a number from 41 to 67, if the description is refused.
    ///
    /// ```
    /// # let notes = include_bytes!(concat!(env!("TOWNSHIP_FILES"), "/samples/b1.csv"));
    /// # let plat = township::Plat::read(notes)?;
    /// let acres = plat.acres("sec. 5, lots 1 and 2, S1/2NE1/4.")?;
    /// assert_eq!(acres.to_string(), "161.00");
    ///
    /// let refused = plat.acres("sec. 14, NE1/4 and N1/2.").unwrap_err();
    /// assert_eq!((refused.number, refused.at), (67, 19));
    /// # Ok::<(), township::Refused>(())
    /// ```
    pub fn acres(&self, description: impl AsRef<[u8]>) -> Result<Acres, Refused> {
        self.acres_by(description, Account::Exact)
    }

    /// Returns the acreage of the land described, by an account.
    ///
    /// # Errors
    ///
    /// The same as for [`Plat::acres`], with either account.
    ///
    /// ```
    /// # let notes = include_bytes!(concat!(env!("TOWNSHIP_FILES"), "/samples/b1.csv"));
    /// # let plat = township::Plat::read(notes)?;
    /// use township::Account;
    ///
    /// let lots = "sec. 7, lots 1 to 4, inclusive.";
    /// assert_eq!(plat.acres_by(lots, Account::Exact)?.to_string(), "156.40");
    /// assert_eq!(plat.acres_by(lots, Account::Plat)?.to_string(), "156.42");
    /// # Ok::<(), township::Refused>(())
    /// ```
    pub fn acres_by(
        &self,
        description: impl AsRef<[u8]>,
        account: Account,
    ) -> Result<Acres, Refused> {
        let description = description.as_ref();
        let answer = ffi::acres(&self.parts, description, account.code());
        self.acres_in(answer, description)
    }

    /// Returns the exact area of the land described, in acres. [`Plat::acres`] returns it rounded.
    ///
    /// # Errors
    ///
    /// The same as for [`Plat::acres`].
    ///
    /// ```
    /// # let notes = include_bytes!(concat!(env!("TOWNSHIP_FILES"), "/samples/b1.csv"));
    /// # let plat = township::Plat::read(notes)?;
    /// assert_eq!(plat.area("sec. 5, lot 1.")?.to_string(), "809/20");
    /// # Ok::<(), township::Refused>(())
    /// ```
    pub fn area(&self, description: impl AsRef<[u8]>) -> Result<Area, Refused> {
        self.area_by(description, Account::Exact)
    }

    /// Returns the exact area of the land described, in acres, by an account. [`Plat::acres_by`]
    /// returns it rounded.
    ///
    /// # Errors
    ///
    /// The same as for [`Plat::acres`].
    ///
    /// ```
    /// # let notes = include_bytes!(concat!(env!("TOWNSHIP_FILES"), "/samples/b1.csv"));
    /// # let plat = township::Plat::read(notes)?;
    /// let area = plat.area_by("sec. 7, lots 1 to 4.", township::Account::Plat)?;
    /// assert_eq!((area.numerator(), area.denominator()), (7_821, 50));
    /// # Ok::<(), township::Refused>(())
    /// ```
    pub fn area_by(
        &self,
        description: impl AsRef<[u8]>,
        account: Account,
    ) -> Result<Area, Refused> {
        let description = description.as_ref();
        let (answer, fraction) = ffi::area(&self.parts, description, account.code());
        match answer.accepted() {
            Ok(_) => Ok(Area::from_fraction(fraction)),
            Err(fault) => Err(self.description_refused(fault, description)),
        }
    }

    /// Returns the canonical description of the land. It is the same for any two descriptions of
    /// the same land.
    ///
    /// # Errors
    ///
    /// The same as for [`Plat::acres`].
    ///
    /// ```
    /// # let notes = include_bytes!(concat!(env!("TOWNSHIP_FILES"), "/samples/b1.csv"));
    /// # let plat = township::Plat::read(notes)?;
    /// let normal = plat.normal("sec. 14, SE1/4, NE1/4, NW1/4.")?;
    /// assert_eq!(normal, "T. 2 N., R. 3 W.,\nsec. 14, N1/2, SE1/4.\n");
    /// # Ok::<(), township::Refused>(())
    /// ```
    pub fn normal(&self, description: impl AsRef<[u8]>) -> Result<String, Refused> {
        let description = description.as_ref();
        let (answer, text) = text_by(|room| ffi::normal(&self.parts, description, room));
        match answer.accepted() {
            Ok(_) => Ok(text),
            Err(fault) => Err(self.description_refused(fault, description)),
        }
    }

    /// Returns the notes on an accepted description: there is one if a place can be read in two
    /// ways.
    ///
    /// The note is on the first such place; its last line says how many more there are. The acreage
    /// in it is that of [`Account::Exact`].
    ///
    /// # Errors
    ///
    /// The same as for [`Plat::acres`].
    ///
    /// ```
    /// # let notes = include_bytes!(concat!(env!("TOWNSHIP_FILES"), "/samples/b1.csv"));
    /// # let plat = township::Plat::read(notes)?;
    /// assert!(plat.notes("sec. 14, NE1/4, SE1/4.")?.is_empty());
    ///
    /// let notes = plat.notes("sec. 14, NE1/4 SE1/4.")?;
    /// assert_eq!((notes[0].line, notes[0].column), (1, 16));
    /// # Ok::<(), township::Refused>(())
    /// ```
    pub fn notes(&self, description: impl AsRef<[u8]>) -> Result<Vec<Note>, Refused> {
        let description = description.as_ref();
        let (answer, explained) = explained_by(|room| {
            ffi::explain_description_parts(&self.parts, description, DESCRIPTION.as_bytes(), room)
        });
        match answer.accepted() {
            Ok(answer) => Ok(Note::beside(answer, explained)),
            Err(fault) => Err(self.description_refused(fault, description)),
        }
    }

    /// Returns an iterator over the answers to many descriptions, in order. Each answer is the
    /// result of [`Plat::acres`]. A refusal does not end the iteration.
    ///
    /// Descriptions are consumed one at a time as answers are requested, so there may be any number
    /// of them.
    ///
    /// ```
    /// # let notes = include_bytes!(concat!(env!("TOWNSHIP_FILES"), "/samples/b1.csv"));
    /// # let plat = township::Plat::read(notes)?;
    /// let descriptions = ["sec. 5, lot 1.", "sec. 5, lot 5.", "sec. 36."];
    /// let shown: Vec<String> = plat
    ///     .acres_of(descriptions)
    ///     .map(|answer| match answer {
    ///         Ok(acres) => acres.to_string(),
    ///         Err(refused) => refused.sentence(),
    ///     })
    ///     .collect();
    /// assert_eq!(shown, ["40.45", "section 5 has lots 1 to 4", "640.00"]);
    /// # Ok::<(), township::Refused>(())
    /// ```
    pub fn acres_of<'a, I>(
        &'a self,
        descriptions: I,
    ) -> impl Iterator<Item = Result<Acres, Refused>> + 'a
    where
        I: IntoIterator + 'a,
        I::Item: AsRef<[u8]>,
    {
        descriptions
            .into_iter()
            .map(move |description| self.acres(description))
    }

    /// Returns the answers to many descriptions, in order, by an account. Each answer is the result
    /// of [`Plat::acres_by`]. One call of the library answers them all.
    ///
    /// ```
    /// # let notes = include_bytes!(concat!(env!("TOWNSHIP_FILES"), "/samples/b1.csv"));
    /// # let plat = township::Plat::read(notes)?;
    /// let descriptions = ["sec. 5, lot 1.", "sec. 5, lot 5.", "sec. 36."];
    /// let answers = plat.acres_many(&descriptions, township::Account::Exact);
    /// assert_eq!(answers[0].as_ref().unwrap().to_string(), "40.45");
    /// assert_eq!(answers[1].as_ref().unwrap_err().number, 64);
    /// # Ok::<(), township::Refused>(())
    /// ```
    pub fn acres_many<D: AsRef<[u8]>>(
        &self,
        descriptions: &[D],
        account: Account,
    ) -> Vec<Result<Acres, Refused>> {
        let (all, offsets) = in_a_row(descriptions);
        let mut answers = vec![Answer::BLANK; descriptions.len()];
        let outcome = ffi::acres_many(&self.parts, &all, &offsets, account.code(), &mut answers);
        if let Err(fault) = outcome.accepted() {
            unreachable!("only descriptions are refused, and {}", fault.refusal);
        }
        let each = descriptions.iter().zip(answers);
        each.map(|(description, answer)| self.acres_in(answer, description.as_ref()))
            .collect()
    }

    /// Returns the canonical descriptions of many descriptions, or their refusals, in their order, by
    /// one call of the library. This is faster than [`Plat::normal`] for each.
    ///
    /// ```
    /// # let notes = include_bytes!(concat!(env!("TOWNSHIP_FILES"), "/samples/b1.csv"));
    /// # let plat = township::Plat::read(notes)?;
    /// let texts = plat.normal_many(&["sec. 14, SE1/4, NE1/4, NW1/4.", "sec. 5, lot 5."]);
    /// assert_eq!(texts[0].as_ref().unwrap(), "T. 2 N., R. 3 W.,\nsec. 14, N1/2, SE1/4.\n");
    /// assert_eq!(texts[1].as_ref().unwrap_err().number, 64);
    /// # Ok::<(), township::Refused>(())
    /// ```
    pub fn normal_many<D: AsRef<[u8]>>(&self, descriptions: &[D]) -> Vec<Result<String, Refused>> {
        let (all, offsets) = in_a_row(descriptions);
        let mut answers = vec![FullAnswer::BLANK; descriptions.len()];
        let account = Account::Exact.code();
        let outcome = ffi::answer_many(&self.parts, &all, &offsets, account, &mut answers);
        if let Err(fault) = outcome.accepted() {
            unreachable!("only descriptions are refused, and {}", fault.refusal);
        }
        let each = descriptions.iter().zip(&answers);
        each.map(|(description, answer)| self.normal_in(answer, description.as_ref()))
            .collect()
    }

    /// Returns the printed plat: the acreage of each lot, of each section, and of the township.
    ///
    /// ```
    /// # let notes = include_bytes!(concat!(env!("TOWNSHIP_FILES"), "/samples/b1.csv"));
    /// # let plat = township::Plat::read(notes)?;
    /// assert_eq!(
    ///     plat.print().lines().nth(6),
    ///     Some("sec. 7: lot 1 39.18, lot 2 39.13, lot 3 39.08, lot 4 39.03, total 636.40")
    /// );
    /// # Ok::<(), township::Refused>(())
    /// ```
    pub fn print(&self) -> String {
        accepted_text_by(|room| ffi::print_plat(&self.parts, room))
    }

    /// Returns the figures of the printed plat, as data.
    ///
    /// ```
    /// # let notes = include_bytes!(concat!(env!("TOWNSHIP_FILES"), "/samples/b1.csv"));
    /// # let plat = township::Plat::read(notes)?;
    /// let figures = plat.figures();
    /// assert_eq!(figures.section(5).unwrap().total.to_string(), "642.40");
    /// # Ok::<(), township::Refused>(())
    /// ```
    pub fn figures(&self) -> Figures {
        let (answer, figures) = ffi::figures(&self.parts);
        match answer.accepted() {
            Ok(_) => Figures::from_data(&figures),
            Err(fault) => unreachable!("a plat has figures, and {}", fault.refusal),
        }
    }

    /// Returns the acreage in the answer to a description, or its refusal.
    fn acres_in(&self, answer: Answer, description: &[u8]) -> Result<Acres, Refused> {
        match answer.accepted() {
            Ok(answer) => Ok(Acres::from_hundredths(answer.hundredths)),
            Err(fault) => Err(self.description_refused(fault, description)),
        }
    }

    /// Returns the canonical description in the answer to a description, or its refusal.
    fn normal_in(&self, answer: &FullAnswer, description: &[u8]) -> Result<String, Refused> {
        if answer.normal.verdict == ffi::NO_ROOM {
            return self.normal(description);
        }
        match answer.normal.accepted() {
            Ok(_) => Ok(text_in(&answer.text, answer.normal)),
            Err(fault) => Err(self.description_refused(fault, description)),
        }
    }

    /// Returns the refusal of a description on this plat, with its explanation.
    fn description_refused(&self, fault: Fault, description: &[u8]) -> Refused {
        Refused::explained(fault, |room| {
            ffi::explain_description_parts(&self.parts, description, DESCRIPTION.as_bytes(), room)
        })
    }
}

/// Returns the bytes of all descriptions in a row, and the offsets between them.
pub(crate) fn in_a_row<D: AsRef<[u8]>>(descriptions: &[D]) -> (Vec<u8>, Vec<usize>) {
    let mut all = Vec::new();
    let mut offsets = vec![0];
    for description in descriptions {
        all.extend_from_slice(description.as_ref());
        offsets.push(all.len());
    }
    (all, offsets)
}
