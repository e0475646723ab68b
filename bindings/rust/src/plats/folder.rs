//! A folder of townships: their field notes, and their lot tables.

use super::{Basis, DifferentPlats, Plats};
use crate::lots::Lots;
use crate::plat::Plat;
use crate::refused::Refused;
use std::collections::BTreeMap;
use std::error::Error;
use std::fmt;
use std::fs;
use std::io::{self, Read};
use std::path::{Path, PathBuf};

/// More than the largest field notes and the largest lot table, so that a larger file is refused.
const READ_MOST: u64 = 65_537;

/// The refusals by which a text is not seen to be field notes: it is too large, is empty, or has another
/// heading.
const NOT_NOTES: [u32; 3] = [1, 2, 3];

/// The same for a lot table.
const NOT_LOTS: [u32; 3] = [86, 87, 88];

/// The error for a folder from which no plats can be made.
#[derive(Debug)]
#[non_exhaustive]
pub enum OpenError {
    /// A file or a folder can't be read.
    Io {
        /// The file or the folder.
        path: PathBuf,
        /// Why.
        error: io::Error,
    },
    /// A file is refused as field notes or as a lot table.
    Refused {
        /// The file.
        path: PathBuf,
        /// Why.
        refused: Refused,
    },
    /// A file is neither field notes nor a lot table.
    Neither {
        /// The file.
        path: PathBuf,
    },
    /// Two files have different plats, or different lot tables, of one township.
    Different(DifferentPlats),
    /// There are no field notes and no lot tables in the folder.
    Empty {
        /// The folder.
        path: PathBuf,
    },
    /// The folder has folders by principal meridian, and none is named; or it has none of this name.
    Meridian {
        /// The folder.
        path: PathBuf,
        /// The meridian that is named.
        meridian: Option<String>,
    },
}

impl Plats {
    /// Reads the field notes and the lot tables (`.csv`) in a folder, as `batch --plats` does. Their
    /// headings say which is which.
    ///
    /// The folders inside it are those of principal meridians, whose names they have: with any, call
    /// [`Plats::open_meridian`].
    ///
    /// # Errors
    ///
    /// Returns [`OpenError`], which names the file or the township.
    ///
    /// ```
    /// # let folder = std::env::temp_dir().join(format!("township-plats-{}", std::process::id()));
    /// # std::fs::create_dir_all(&folder)?;
    /// let table = "section,lot,acres\nT,3,N,3,W\n31,1,38.97\n31,2,39.01\n";
    /// std::fs::write(folder.join("3N-3W.csv"), table)?;
    /// let plats = township::Plats::open(&folder)?;
    /// assert_eq!(plats.acres("T3N R3W sec. 31, lots 1 and 2")?.to_string(), "77.98");
    /// # std::fs::remove_dir_all(&folder)?;
    /// # Ok::<(), Box<dyn std::error::Error>>(())
    /// ```
    pub fn open(folder: impl AsRef<Path>) -> Result<Plats, OpenError> {
        Plats::opened(folder.as_ref(), None)
    }

    /// Reads the same of the folder of a principal meridian. Capitals, spaces, and punctuation in its
    /// name make no difference.
    ///
    /// # Errors
    ///
    /// The same as for [`Plats::open`].
    pub fn open_meridian(folder: impl AsRef<Path>, meridian: &str) -> Result<Plats, OpenError> {
        Plats::opened(folder.as_ref(), Some(meridian))
    }

    fn opened(folder: &Path, meridian: Option<&str>) -> Result<Plats, OpenError> {
        let mut meridians: BTreeMap<String, Vec<Basis>> = BTreeMap::new();
        let outside = read_all(folder)?;
        if !outside.is_empty() {
            meridians.insert(String::new(), outside);
        }
        for path in entries(folder)?.into_iter().filter(|path| path.is_dir()) {
            let found = read_all(&path)?;
            if !found.is_empty() {
                let key = key_of(&name_of(&path));
                meridians.entry(key).or_default().extend(found);
            }
        }
        let path = || folder.to_owned();
        if meridians.is_empty() {
            return Err(OpenError::Empty { path: path() });
        }
        let key = meridian.map(key_of);
        let chosen = match key {
            Some(key) if !key.is_empty() => meridians.remove(&key),
            Some(_) => None,
            None if meridians.len() == 1 => meridians.into_values().next(),
            None => None,
        };
        let chosen = chosen.ok_or_else(|| OpenError::Meridian {
            path: path(),
            meridian: meridian.map(str::to_owned),
        })?;
        Plats::new(chosen).map_err(OpenError::Different)
    }
}

/// Reads the files of a folder, and none of the folders inside it.
fn read_all(folder: &Path) -> Result<Vec<Basis>, OpenError> {
    let is_table = |path: &PathBuf| {
        let name = name_of(path).to_lowercase();
        name.ends_with(".csv") && !path.is_dir()
    };
    let files = entries(folder)?.into_iter().filter(is_table);
    files.map(|path| read_file(&path)).collect()
}

/// Reads field notes or a lot table. The library recognizes the heading.
fn read_file(path: &Path) -> Result<Basis, OpenError> {
    let mut text = Vec::new();
    fs::File::open(path)
        .and_then(|file| file.take(READ_MOST).read_to_end(&mut text))
        .map_err(|error| failure(path, error))?;
    let notes = match Plat::read(&text) {
        Ok(plat) => return Ok(Basis::Plat(plat)),
        Err(refused) => refused,
    };
    let table = match Lots::read(&text) {
        Ok(lots) => return Ok(Basis::Lots(lots)),
        Err(refused) => refused,
    };
    let path = path.to_owned();
    if !NOT_NOTES.contains(&notes.number) {
        Err(OpenError::Refused {
            path,
            refused: notes,
        })
    } else if !NOT_LOTS.contains(&table.number) {
        Err(OpenError::Refused {
            path,
            refused: table,
        })
    } else {
        Err(OpenError::Neither { path })
    }
}

/// Returns what a folder contains, in the order of names and without hidden files.
fn entries(folder: &Path) -> Result<Vec<PathBuf>, OpenError> {
    let mut found = Vec::new();
    for entry in fs::read_dir(folder).map_err(|error| failure(folder, error))? {
        let path = entry.map_err(|error| failure(folder, error))?.path();
        if !name_of(&path).starts_with('.') {
            found.push(path);
        }
    }
    found.sort();
    Ok(found)
}

fn failure(path: &Path, error: io::Error) -> OpenError {
    OpenError::Io {
        path: path.to_owned(),
        error,
    }
}

/// Returns the name of a file, without its folder.
fn name_of(path: &Path) -> String {
    let name = path.file_name().unwrap_or_default();
    name.to_string_lossy().into_owned()
}

/// Returns what is compared of a meridian's name: its letters and digits, whether capital or small.
fn key_of(meridian: &str) -> String {
    let kept = meridian.chars().filter(|each| each.is_alphanumeric());
    kept.flat_map(char::to_lowercase).collect()
}

impl fmt::Display for OpenError {
    fn fmt(&self, f: &mut fmt::Formatter<'_>) -> fmt::Result {
        match self {
            OpenError::Io { path, error } => write!(f, "{}: {error}", path.display()),
            OpenError::Refused { path, refused } => write!(f, "{}: {refused}", path.display()),
            OpenError::Neither { path } => write!(
                f,
                "{}: this is neither field notes nor a lot table",
                path.display()
            ),
            OpenError::Different(error) => fmt::Display::fmt(error, f),
            OpenError::Empty { path } => write!(
                f,
                "{}: there are no field notes and no lot tables (.csv) in this folder",
                path.display()
            ),
            OpenError::Meridian {
                path,
                meridian: None,
            } => write!(
                f,
                "{}: this folder has folders by principal meridian; say which one",
                path.display()
            ),
            OpenError::Meridian {
                path,
                meridian: Some(meridian),
            } => write!(
                f,
                "{}: there is no folder for the principal meridian `{meridian}`",
                path.display()
            ),
        }
    }
}

impl Error for OpenError {}
