//! Lines for the billing desk: those of a packet or datagram that was judged, and lines that are read.
use std::fmt::{Debug, Display, Formatter, Result as Printed};
use std::hash::{Hash, Hasher};
use std::iter::FusedIterator;
use std::str;

use crate::family::Family;
use crate::raw;
use crate::refusal::{judged, Refusal};
use crate::{LARGEST, LARGEST_LINES};

/// The text of lines, which has no byte but LF and 0x20 to 0x7E.
fn text(bytes: &[u8]) -> &str {
    str::from_utf8(bytes).expect("billing lines are ASCII text")
}

/// The billing lines of a packet or datagram, in order, each with the LF at its end.
///
/// ```
/// use brundilope::{samples, Contents, DataPacket, Family, LARGEST_LINES};
///
/// let (mut room, mut text) = (Contents::new(), [0; LARGEST_LINES]);
/// let mut lines = DataPacket::read(Family::Standard, samples::DRIVER_TAGS, &mut room)?.lines(&mut text);
/// assert_eq!(lines.len(), 2);
/// let first = "1562760414000,25.2797130,54.6872050,47,21=3,239=1,66=24079,403=\"Jonas Petraitis\",406=\"\"\n";
/// assert_eq!(lines.next(), Some(first));
/// assert_eq!(lines.len(), 1);
/// # Ok::<(), brundilope::Refusal>(())
/// ```
#[derive(Clone)]
#[must_use = "iterators are lazy and do nothing unless consumed"]
pub struct Lines<'a> {
    rest: &'a str,
    left: usize,
}

impl<'a> Lines<'a> {
    /// So many lines, one behind another.
    pub(crate) fn new(written: &'a [u8], count: u8) -> Self {
        Lines { rest: text(written), left: count.into() }
    }

    /// The lines that are still to come, as one text.
    ///
    /// ```
    /// use brundilope::{samples, Contents, DataPacket, Family, LARGEST_LINES};
    ///
    /// let (mut room, mut text) = (Contents::new(), [0; LARGEST_LINES]);
    /// let lines = DataPacket::read(Family::Standard, samples::CODEC16, &mut room)?.lines(&mut text);
    /// assert_eq!(lines.as_str().matches('\n').count(), 2);
    /// # Ok::<(), brundilope::Refusal>(())
    /// ```
    pub fn as_str(&self) -> &'a str {
        self.rest
    }
}

impl<'a> Iterator for Lines<'a> {
    type Item = &'a str;

    fn next(&mut self) -> Option<&'a str> {
        let (line, rest) = self.rest.split_at(self.rest.find('\n')? + 1);
        self.rest = rest;
        self.left -= 1;
        Some(line)
    }

    fn size_hint(&self) -> (usize, Option<usize>) {
        (self.left, Some(self.left))
    }
}

impl ExactSizeIterator for Lines<'_> {}

impl FusedIterator for Lines<'_> {}

impl Debug for Lines<'_> {
    fn fmt(&self, f: &mut Formatter<'_>) -> Printed {
        f.debug_list().entries(self.clone()).finish()
    }
}

/// A record of a packet or datagram that prints as its billing line, with the LF at its end.
///
/// ```
/// use brundilope::{samples, Contents, DataPacket, Family, RecordLine};
///
/// let mut room = Contents::new();
/// let packet = DataPacket::read(Family::Standard, samples::CODEC16, &mut room)?;
/// let line: RecordLine = packet.line(1).unwrap();
/// assert_eq!(line.to_string(), "1562760415000,0.0000000,0.0000000,0,1=0,3=0,11=38,66=22074\n");
/// # Ok::<(), brundilope::Refusal>(())
/// ```
#[derive(Clone, Copy)]
pub struct RecordLine<'a> {
    family: Family,
    input: &'a [u8],
    number: usize,
    write: Write,
}

/// A call that writes a record's line.
type Write = fn(Family, &[u8], usize, &mut [u8]) -> raw::Written;

impl<'a> RecordLine<'a> {
    /// The record of this number in an input that its family accepts, by the call that writes its line.
    pub(crate) fn new(family: Family, input: &'a [u8], number: usize, write: Write) -> Self {
        RecordLine { family, input, number, write }
    }
}

impl Display for RecordLine<'_> {
    fn fmt(&self, f: &mut Formatter<'_>) -> Printed {
        let mut room = [0; LARGEST_LINES];
        let answer = (self.write)(self.family, self.input, self.number, &mut room);
        f.write_str(text(&room[..answer.written]))
    }
}

impl Debug for RecordLine<'_> {
    fn fmt(&self, f: &mut Formatter<'_>) -> Printed {
        f.debug_tuple("RecordLine").field(&self.to_string()).finish()
    }
}

/// A billing line that was read: its four leading fields, and its elements.
///
/// ```
/// use brundilope::{Line, LineValue};
///
/// let line = Line::read(b"1000,-0.0000001,54.7146368,5,21=3,403=\"Ona\"\n")?;
/// assert_eq!((line.timestamp, line.longitude, line.latitude, line.speed), (1000, -1, 547_146_368, 5));
/// for element in line.elements() {
///     match element.value {
///         LineValue::Number(number) => println!("ID {}: {number}", element.id),
///         LineValue::Tag(tag) => println!("ID {}: {:?}", element.id, String::from_utf8_lossy(&tag.to_vec())),
///     }
/// }
/// # Ok::<(), brundilope::Refusal>(())
/// ```
#[derive(Clone, Copy, PartialEq, Eq, Hash)]
pub struct Line<'a> {
    /// Milliseconds since 1970, UTC.
    pub timestamp: u64,
    /// Degrees times 10^7.
    pub longitude: i32,
    /// Degrees times 10^7.
    pub latitude: i32,
    /// The speed, from satellites.
    pub speed: u16,
    bytes: &'a [u8],
    start: usize,
    elements: usize,
}

impl<'a> Line<'a> {
    /// Reads a line, with the LF at its end. Refusal 20; [`wrong_byte`] says where.
    ///
    /// ```
    /// use brundilope::{wrong_byte, Line};
    ///
    /// let spare_zero = b"1000,-0.0000001,054.7146368,5,21=3\n";
    /// let refusal = Line::read(spare_zero).unwrap_err();
    /// assert_eq!(refusal.to_string(), "refusal 20: not a billing line");
    /// assert_eq!(wrong_byte(spare_zero), Some(16));
    /// ```
    pub fn read(line: &'a [u8]) -> Result<Self, Refusal> {
        let a = raw::read_line(line);
        judged(a.number)?;
        Ok(Line {
            timestamp: a.timestamp,
            longitude: a.longitude,
            latitude: a.latitude,
            speed: a.speed,
            bytes: line,
            start: a.start,
            elements: a.elements,
        })
    }

    /// The elements in order, going along the line once.
    ///
    /// ```
    /// let line = brundilope::Line::read(b"1000,-0.0000001,54.7146368,5,21=3,66=24079\n")?;
    /// let ids: Vec<u16> = line.elements().map(|element| element.id).collect();
    /// assert_eq!(ids, [21, 66]);
    /// # Ok::<(), brundilope::Refusal>(())
    /// ```
    pub fn elements(&self) -> LineElements<'a> {
        LineElements { bytes: self.bytes, at: self.start, left: self.elements }
    }

    /// The line's bytes, as they were read.
    ///
    /// ```
    /// let text = b"1000,-0.0000001,54.7146368,5\n";
    /// assert_eq!(brundilope::Line::read(text)?.bytes(), text);
    /// # Ok::<(), brundilope::Refusal>(())
    /// ```
    pub fn bytes(&self) -> &'a [u8] {
        self.bytes
    }
}

impl Debug for Line<'_> {
    fn fmt(&self, f: &mut Formatter<'_>) -> Printed {
        f.debug_struct("Line")
            .field("timestamp", &self.timestamp)
            .field("longitude", &self.longitude)
            .field("latitude", &self.latitude)
            .field("speed", &self.speed)
            .field("elements", &self.elements())
            .finish()
    }
}

/// The elements of a line, in order.
///
/// ```
/// use brundilope::{Line, LineValue};
///
/// let mut elements = Line::read(b"1000,-0.0000001,54.7146368,5,21=3,66=24079\n")?.elements();
/// assert_eq!(elements.len(), 2);
/// assert_eq!(elements.next().map(|element| element.value), Some(LineValue::Number(3)));
/// assert_eq!(elements.len(), 1);
/// # Ok::<(), brundilope::Refusal>(())
/// ```
#[derive(Clone)]
#[must_use = "iterators are lazy and do nothing unless consumed"]
pub struct LineElements<'a> {
    bytes: &'a [u8],
    at: usize,
    left: usize,
}

impl<'a> Iterator for LineElements<'a> {
    type Item = LineElement<'a>;

    fn next(&mut self) -> Option<LineElement<'a>> {
        self.left = self.left.checked_sub(1)?;
        let (line, at) = (self.bytes, self.at);
        let a = with_room(line.len() - at, |room| raw::element_at(line, at, room));
        self.at = a.next;
        Some(LineElement::new(&a, &line[at..a.next]))
    }

    fn size_hint(&self) -> (usize, Option<usize>) {
        (self.left, Some(self.left))
    }
}

impl ExactSizeIterator for LineElements<'_> {}

impl FusedIterator for LineElements<'_> {}

impl Debug for LineElements<'_> {
    fn fmt(&self, f: &mut Formatter<'_>) -> Printed {
        f.debug_list().entries(self.clone()).finish()
    }
}

/// Bytes enough for most tags.
const ROOM: usize = 256;

/// An element that is read with room for its tag: on the heap only if that is longer than any record's, which has fewer
/// bytes than its packet.
fn with_room(most: usize, read: impl Fn(&mut [u8]) -> raw::LineElement) -> raw::LineElement {
    let fits = |element: &raw::LineElement| element.number != 18;
    let on_stack = Some(read(&mut [0; ROOM])).filter(fits).or_else(|| Some(read(&mut [0; LARGEST])).filter(fits));
    on_stack.unwrap_or_else(|| read(&mut vec![0; most]))
}

/// An element of a line. It prints as it stands in the line.
///
/// ```
/// let line = brundilope::Line::read(b"1000,-0.0000001,54.7146368,5,21=3,403=\"Ona\"\n")?;
/// let fields: Vec<String> = line.elements().map(|element| element.to_string()).collect();
/// assert_eq!(fields, ["21=3", "403=\"Ona\""]);
/// # Ok::<(), brundilope::Refusal>(())
/// ```
#[derive(Clone, Copy, Debug, PartialEq, Eq, Hash)]
pub struct LineElement<'a> {
    /// The IO ID.
    pub id: u16,
    /// Its value.
    pub value: LineValue<'a>,
}

impl<'a> LineElement<'a> {
    /// The element of a field, with the byte behind that.
    fn new(a: &raw::LineElement, field: &'a [u8]) -> Self {
        let value = if a.tag { LineValue::Tag(Tag { field, size: a.size }) } else { LineValue::Number(a.value) };
        LineElement { id: a.id, value }
    }
}

impl Display for LineElement<'_> {
    fn fmt(&self, f: &mut Formatter<'_>) -> Printed {
        match self.value {
            LineValue::Number(number) => write!(f, "{}={number}", self.id),
            LineValue::Tag(tag) => write!(f, "{}=\"{tag}\"", self.id),
        }
    }
}

/// The value of an element of a line.
#[derive(Clone, Copy, Debug, PartialEq, Eq, Hash)]
pub enum LineValue<'a> {
    /// The unsigned number in a value of 1, 2, 4 or 8 bytes; the line does not say in how many.
    Number(u64),
    /// A value of variable length.
    Tag(Tag<'a>),
}

/// A value of variable length in a line. It prints as it stands between the quotes, which is one text for each value:
///
/// ```
/// use brundilope::{Line, LineValue};
///
/// let line = Line::read(b"1000,-0.0000001,54.7146368,5,403=\"\\22Ona\\22\"\n")?;
/// let Some(LineValue::Tag(tag)) = line.elements().next().map(|element| element.value) else { panic!() };
/// assert_eq!(tag.to_vec(), b"\"Ona\"");
/// assert_eq!(tag.to_string(), "\\22Ona\\22");
/// # Ok::<(), brundilope::Refusal>(())
/// ```
#[derive(Clone, Copy)]
pub struct Tag<'a> {
    /// The whole field, ID and quotes too, and the byte behind it.
    field: &'a [u8],
    size: usize,
}

impl Tag<'_> {
    /// How many bytes it has.
    ///
    /// ```
    /// # use brundilope::{Line, LineValue};
    /// # let line = Line::read(b"1000,-0.0000001,54.7146368,5,403=\"\\22Ona\\22\"\n")?;
    /// # let Some(LineValue::Tag(tag)) = line.elements().next().map(|element| element.value) else { panic!() };
    /// assert_eq!(tag.len(), 5);
    /// # Ok::<(), brundilope::Refusal>(())
    /// ```
    #[must_use]
    pub fn len(&self) -> usize {
        self.size
    }

    /// Has it no bytes?
    ///
    /// ```
    /// # use brundilope::{Line, LineValue};
    /// # let line = Line::read(b"1000,-0.0000001,54.7146368,5,403=\"\\22Ona\\22\"\n")?;
    /// # let Some(LineValue::Tag(tag)) = line.elements().next().map(|element| element.value) else { panic!() };
    /// assert!(!tag.is_empty());
    /// # Ok::<(), brundilope::Refusal>(())
    /// ```
    #[must_use]
    pub fn is_empty(&self) -> bool {
        self.size == 0
    }

    /// Writes its bytes into a lent buffer, and gives their number. Refusal 18.
    ///
    /// ```
    /// # use brundilope::{Line, LineValue};
    /// # let line = Line::read(b"1000,-0.0000001,54.7146368,5,403=\"\\22Ona\\22\"\n")?;
    /// # let Some(LineValue::Tag(tag)) = line.elements().next().map(|element| element.value) else { panic!() };
    /// let mut out = [0xEE; 6];
    /// assert_eq!(tag.read(&mut out), Ok(5));
    /// assert_eq!(&out, b"\"Ona\"\xEE");
    /// assert_eq!(tag.read(&mut out[..4]).map_err(|refusal| refusal.number), Err(18));
    /// # Ok::<(), brundilope::Refusal>(())
    /// ```
    pub fn read(&self, out: &mut [u8]) -> Result<usize, Refusal> {
        let a = raw::element_at(self.field, 0, out);
        judged(a.number)?;
        Ok(a.size)
    }

    /// Its bytes, in a vector of their own.
    ///
    /// ```
    /// # use brundilope::{Line, LineValue};
    /// # let line = Line::read(b"1000,-0.0000001,54.7146368,5,403=\"\\22Ona\\22\"\n")?;
    /// # let Some(LineValue::Tag(tag)) = line.elements().next().map(|element| element.value) else { panic!() };
    /// assert_eq!(tag.to_vec(), b"\"Ona\"");
    /// # Ok::<(), brundilope::Refusal>(())
    /// ```
    #[must_use]
    pub fn to_vec(&self) -> Vec<u8> {
        let mut bytes = vec![0; self.size];
        raw::element_at(self.field, 0, &mut bytes);
        bytes
    }

    /// What stands between the quotes.
    fn quoted(&self) -> &str {
        let id = self.field.iter().take_while(|byte| **byte != b'=').count();
        text(&self.field[id + 2..self.field.len() - 2])
    }
}

/// Tags are equal if their bytes are: each is written in one way only.
impl PartialEq for Tag<'_> {
    fn eq(&self, other: &Self) -> bool {
        self.quoted() == other.quoted()
    }
}

impl Eq for Tag<'_> {}

impl Hash for Tag<'_> {
    fn hash<H: Hasher>(&self, state: &mut H) {
        self.quoted().hash(state);
    }
}

impl Display for Tag<'_> {
    fn fmt(&self, f: &mut Formatter<'_>) -> Printed {
        f.write_str(self.quoted())
    }
}

impl Debug for Tag<'_> {
    fn fmt(&self, f: &mut Formatter<'_>) -> Printed {
        write!(f, "Tag(\"{self}\")")
    }
}

/// An element of a line by its number, from 0. Refusals 20, then 16.
///
/// ```
/// use brundilope::{element_in_line, LineElement, LineValue};
///
/// let line = b"1000,-0.0000001,54.7146368,5,21=3,66=24079\n";
/// assert_eq!(element_in_line(line, 1), Ok(LineElement { id: 66, value: LineValue::Number(24_079) }));
/// assert_eq!(element_in_line(line, 2).unwrap_err().number, 16);
/// ```
pub fn element_in_line(line: &[u8], number: usize) -> Result<LineElement<'_>, Refusal> {
    let a = with_room(line.len(), |room| raw::element_in_line(line, number, room));
    judged(a.number)?;
    // the speed's comma stands before every element, and none within one
    let before = line[..a.next - 1].iter().rposition(|byte| *byte == b',');
    Ok(LineElement::new(&a, &line[before.map_or(0, |comma| comma + 1)..a.next]))
}

/// The byte at which a line is wrong: where its first wrong field starts; the LF where fields are missing; behind the
/// last byte where that is not an LF. None where it is a line.
///
/// ```
/// use brundilope::wrong_byte;
///
/// assert_eq!(wrong_byte(b"1000,-0.0000001,54.7146368,5,21=3\n"), None);
/// assert_eq!(wrong_byte(b"1000,-0.0000001,54.7146368,5,21=03\n"), Some(29));
/// assert_eq!(wrong_byte(b"1000,-0.0000001,54.7146368,5,21=3"), Some(33));
/// assert_eq!(wrong_byte(b"1000,-0.0000001\n"), Some(15));
/// ```
#[must_use]
pub fn wrong_byte(line: &[u8]) -> Option<usize> {
    let at = raw::wrong_byte(line);
    (at < line.len() || line.last() != Some(&b'\n')).then_some(at)
}
