//! Lands that are compared with all lands before them, without looking at each pair.

use crate::ffi::SECTIONS;
use crate::land::Land;
use crate::lands::Lands;
use crate::township::Township;
use std::collections::{BTreeMap, BTreeSet, HashMap};

/// Lands in several townships, to which more are added: those that share land with a later one.
///
/// Only lands in a section that a later one shares with any of them are compared with it, so it takes no
/// time per pair if most of them are apart.
#[derive(Default)]
pub(crate) struct EarlierLands {
    by_township: HashMap<Township, EarlierLand>,
}

/// The same for one township.
pub(crate) struct EarlierLand {
    all: Option<Land>,
    /// The indexes of the lands in each section.
    by_section: [Vec<usize>; SECTIONS],
    lands: HashMap<usize, Land>,
}

impl EarlierLands {
    /// Adds lands, with an index greater than those before.
    pub(crate) fn add(&mut self, index: usize, lands: Lands) {
        for land in lands {
            let earlier = self.by_township.entry(land.township()).or_default();
            earlier.add(index, land);
        }
    }

    /// Returns what lands share with each of those that were added, by their index.
    pub(crate) fn shared(&self, lands: &Lands) -> BTreeMap<usize, Lands> {
        let mut found: BTreeMap<usize, Vec<Land>> = BTreeMap::new();
        for (township, land) in lands.by_township() {
            for (index, both) in self
                .by_township
                .get(&township)
                .into_iter()
                .flat_map(|earlier| earlier.shared(land))
            {
                found.entry(index).or_default().push(both);
            }
        }
        found
            .into_iter()
            .map(|(index, both)| (index, both.into_iter().collect()))
            .collect()
    }
}

impl Default for EarlierLand {
    fn default() -> EarlierLand {
        EarlierLand {
            all: None,
            by_section: std::array::from_fn(|_| Vec::new()),
            lands: HashMap::new(),
        }
    }
}

impl EarlierLand {
    /// Adds land, with an index greater than those before.
    pub(crate) fn add(&mut self, index: usize, land: Land) {
        for section in sections_of(&land) {
            self.by_section[section].push(index);
        }
        self.all = Some(match self.all.take() {
            None => land.clone(),
            Some(all) => all | &land,
        });
        self.lands.insert(index, land);
    }

    /// Returns what land shares with each of those that were added, and their indexes, in order.
    pub(crate) fn shared(&self, land: &Land) -> Vec<(usize, Land)> {
        let Some(all) = &self.all else {
            return Vec::new();
        };
        let both = all & land;
        let near: BTreeSet<usize> = sections_of(&both)
            .flat_map(|section| self.by_section[section].iter().copied())
            .collect();
        let shared = |index| {
            let both = self.lands.get(&index)? & land;
            (!both.is_empty()).then_some((index, both))
        };
        near.into_iter().filter_map(shared).collect()
    }
}

/// Returns the sections that have land, counted from 0.
fn sections_of(land: &Land) -> impl Iterator<Item = usize> + '_ {
    let rows = land.rows().iter().enumerate();
    rows.filter_map(|(section, rows)| rows.iter().any(|&row| row != 0).then_some(section))
}
