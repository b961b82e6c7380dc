use std::fmt::{self, Debug, Display, Formatter};
use std::str::{self, FromStr};

use crate::{raw, Refusal};

pub(crate) const NAME_BYTES: usize = 11;

/// Whether an option is a call or a put.
#[derive(Debug, Clone, Copy, PartialEq, Eq, Hash)]
pub enum OptionType {
    /// The right to buy.
    Call = 0,
    /// The right to sell.
    Put = 1,
}

/// An option series.
///
/// ```
/// use sindhopul::{OptionType, Refusal, Series};
///
/// let series: Series = "OW20X262400".parse()?;
/// assert_eq!(series, Series { month: 323, option_type: OptionType::Put, price: 2_400 });
/// assert_eq!(series.name()?.as_str(), "OW20X262400");
///
/// let refusal = "OW20Z262400".parse::<Series>().unwrap_err();
/// assert_eq!(refusal, Refusal::NameByte { place: 4 });
/// assert_eq!(
///     refusal.to_string(),
///     "refused (29): the byte at place 4 of the name cannot stand there",
/// );
/// # Ok::<(), Refusal>(())
/// ```
#[derive(Debug, Clone, Copy, PartialEq, Eq, Hash)]
pub struct Series {
    /// The month in which it expires.
    pub month: u16,
    /// Call or put.
    pub option_type: OptionType,
    /// The price of the strike, in whole index points.
    pub price: u16,
}

impl Series {
    /// Reads the series of a name.
    ///
    /// # Errors
    ///
    /// The first that holds of [`Refusal::NameLength`], [`Refusal::NameByte`] and
    /// [`Refusal::NameSeries`].
    pub fn read(name: &[u8]) -> Result<Self, Refusal> {
        let result = raw::name_read(name);
        Refusal::unless_accepted(result.number, &[result.month.into()])?;
        Ok(Self {
            month: result.month,
            option_type: match result.option_type {
                0 => OptionType::Call,
                _ => OptionType::Put,
            },
            price: result.price,
        })
    }

    /// The name of the series.
    ///
    /// # Errors
    ///
    /// [`Refusal::NameSeries`] for a month above 1,199 or a price that is not on the grid of the
    /// nearest expiry.
    pub fn name(self) -> Result<Name, Refusal> {
        let mut name = [0; NAME_BYTES];
        let (month, option_type, price) = (self.month, self.option_type as u32, self.price);
        let number = raw::name_write(&mut name, month.into(), option_type, price.into());
        Refusal::unless_accepted(number, &[])?;
        Ok(Name(name))
    }
}

impl FromStr for Series {
    type Err = Refusal;

    fn from_str(name: &str) -> Result<Self, Refusal> {
        Self::read(name.as_bytes())
    }
}

/// The name of a series, as OW20L262400.
#[derive(Clone, Copy, PartialEq, Eq, Hash, PartialOrd, Ord)]
pub struct Name(pub(crate) [u8; NAME_BYTES]);

impl Name {
    /// Its 11 bytes.
    pub fn as_bytes(&self) -> &[u8; NAME_BYTES] {
        &self.0
    }

    /// The name as text.
    pub fn as_str(&self) -> &str {
        str::from_utf8(&self.0).expect("a name has letters and digits alone")
    }
}

impl Display for Name {
    fn fmt(&self, f: &mut Formatter) -> fmt::Result {
        f.pad(self.as_str())
    }
}

impl Debug for Name {
    fn fmt(&self, f: &mut Formatter) -> fmt::Result {
        Debug::fmt(self.as_str(), f)
    }
}
