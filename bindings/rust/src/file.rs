use std::iter::FusedIterator;

use crate::series::NAME_BYTES;
use crate::{raw, Name, Origin, Refusal, Series};

/// A name and an origin.
const SERIES_BYTES: usize = NAME_BYTES + 1;

/// A series that is new on a file's day.
#[derive(Debug, Clone, Copy, PartialEq, Eq, Hash)]
pub struct NewSeries {
    /// Its name, as it stands in the file.
    pub name: Name,
    /// What the name says.
    pub series: Series,
    /// What brought the strike into the register.
    pub origin: Origin,
}

impl NewSeries {
    fn read(bytes: &[u8]) -> Self {
        let (name, origin) = bytes.split_at(NAME_BYTES);
        Self {
            name: Name(name.try_into().expect("a name has 11 bytes")),
            series: Series::read(name).expect("a file with another name is refused"),
            origin: Origin::of_byte(origin[0]),
        }
    }
}

/// A file of series that was read: a day, and the series that are new on it.
///
/// ```
/// use sindhopul::{Calendar, Refusal, Register, SeriesFile};
///
/// let calendar = Calendar::with_sessions((0..36_525).filter(|day| day % 7 >= 2))?;
/// let mut register = Register::new();
/// register.start(&calendar, 9_816, 241_337)?;
///
/// // 94 rows, a call and a put for each.
/// let bytes = register.file(&calendar)?;
/// let file = SeriesFile::read(&bytes)?;
/// assert_eq!((file.day(), file.len()), (9_816, 188));
/// assert!(file.series().any(|new| new.name.as_str() == "OW20L262400"));
///
/// let cut = SeriesFile::read(&bytes[..100]).unwrap_err();
/// assert_eq!(cut, Refusal::FileForm { place: 100 });
/// # Ok::<(), Refusal>(())
/// ```
#[derive(Debug, Clone, PartialEq, Eq)]
pub struct SeriesFile {
    day: u16,
    list: Vec<u8>,
}

impl SeriesFile {
    /// Reads the bytes of a file.
    ///
    /// # Errors
    ///
    /// [`Refusal::FileForm`] with the lowest place at fault.
    pub fn read(file: &[u8]) -> Result<Self, Refusal> {
        // A series is longer in the file than in the list.
        let mut list = vec![0; file.len()];
        let result = raw::file_read(file, &mut list);
        Refusal::unless_accepted(result.number, &[result.day])?;
        list.truncate(SERIES_BYTES * result.series as usize);
        Ok(Self {
            day: result.day as u16,
            list,
        })
    }

    /// The day; it need not have a session.
    pub fn day(&self) -> u16 {
        self.day
    }

    /// How many series there are.
    pub fn len(&self) -> usize {
        self.list.len() / SERIES_BYTES
    }

    /// Whether there are none.
    pub fn is_empty(&self) -> bool {
        self.list.is_empty()
    }

    /// The series, ascending by name.
    pub fn series(
        &self,
    ) -> impl DoubleEndedIterator<Item = NewSeries> + ExactSizeIterator + FusedIterator + '_ {
        self.list.chunks_exact(SERIES_BYTES).map(NewSeries::read)
    }
}
