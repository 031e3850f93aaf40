//! Families of unit, which differ in their limits.
use std::fmt::{Display, Formatter, Result as Printed};

use crate::refusal::Refusal;

/// A family of unit: how long its packets, datagrams and records may be.
///
/// Every function that judges or builds a packet or datagram names one; a [`Connection`](crate::Connection) names it
/// when it is made, and what it gives keeps it. Whatever [`Fmx640`](Family::Fmx640) accepts,
/// [`Standard`](Family::Standard) accepts with the same result.
///
/// ```
/// use brundilope::{read_packet, samples, Family};
///
/// assert_eq!(read_packet(Family::Standard, samples::LONG_TAGS)?.count, 1);
/// assert_eq!(read_packet(Family::Fmx640, samples::LONG_TAGS).unwrap_err().number, 12);
/// # Ok::<(), brundilope::Refusal>(())
/// ```
///
/// It has the number that settings and other programs name it by, and prints it with its units:
///
/// ```
/// use brundilope::Family;
///
/// let family = Family::try_from(1_u8)?;
/// assert_eq!(family, Family::Fmx640);
/// assert_eq!(family.to_string(), "family 1 (FMB640, FMB641, FMC640, FMM640)");
/// assert_eq!(u8::from(Family::Standard), 2);
/// # Ok::<(), brundilope::Refusal>(())
/// ```
#[derive(Clone, Copy, Debug, PartialEq, Eq, Hash)]
#[non_exhaustive]
#[repr(u8)]
pub enum Family {
    /// FMB640, FMB641, FMC640 and FMM640. A TCP packet (data or command) or datagram has at most 512 bytes, a record at
    /// most 255.
    Fmx640 = 1,
    /// All other units. A TCP packet or datagram has at most 1,280 bytes, and a record has no limit of its own.
    Standard = 2,
}

impl Family {
    /// The most bytes of a TCP packet or datagram of the family.
    ///
    /// ```
    /// use brundilope::{Family, LARGEST};
    ///
    /// assert_eq!((Family::Fmx640.largest(), Family::Standard.largest()), (512, LARGEST));
    /// ```
    pub const fn largest(self) -> usize {
        match self {
            Family::Fmx640 => 512,
            Family::Standard => 1280,
        }
    }

    /// How many bytes are always enough for a TLV form of the family: four times the most that its packet has.
    ///
    /// ```
    /// use brundilope::{form_of_packet, samples, Family};
    ///
    /// const FAMILY: Family = Family::Fmx640;
    /// let mut form = [0; FAMILY.largest_form()];
    /// assert_eq!(form.len(), 2048);
    /// let size = form_of_packet(FAMILY, samples::CODEC16, &mut form)?;
    /// assert!(size <= brundilope::form_room(samples::CODEC16));
    /// # Ok::<(), brundilope::Refusal>(())
    /// ```
    pub const fn largest_form(self) -> usize {
        4 * self.largest()
    }
}

impl TryFrom<u8> for Family {
    type Error = Refusal;

    /// The family of this number. Refusal 21.
    ///
    /// ```
    /// let refusal = brundilope::Family::try_from(3).unwrap_err();
    /// assert_eq!(refusal.to_string(), "refusal 21: unknown family");
    /// ```
    fn try_from(number: u8) -> Result<Self, Refusal> {
        match number {
            1 => Ok(Family::Fmx640),
            2 => Ok(Family::Standard),
            _ => Err(Refusal { number: 21, record: None, offset: None }),
        }
    }
}

impl From<Family> for u8 {
    fn from(family: Family) -> u8 {
        family as u8
    }
}

impl Display for Family {
    fn fmt(&self, f: &mut Formatter<'_>) -> Printed {
        let units = match self {
            Family::Fmx640 => "FMB640, FMB641, FMC640, FMM640",
            Family::Standard => "all other units",
        };
        write!(f, "family {} ({units})", u8::from(*self))
    }
}
