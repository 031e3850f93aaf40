//! A connection: bytes as they come from a socket, logins and packets as they were sent.
use std::fmt::{Debug, Formatter, Result as Printed};
use std::hash::{Hash, Hasher};
use std::iter::FusedIterator;

use crate::contents::{Contents, DataPacket};
use crate::family::Family;
use crate::raw;
use crate::reading::{is_command, read_command, Command, Login};
use crate::refusal::{data_judged, input_judged, Refusal};
use crate::LARGEST;

/// What a connection expects.
///
/// ```
/// use brundilope::{samples, Connection, Family, Phase};
///
/// let mut connection = Connection::new(Family::Standard);
/// assert_eq!(connection.phase(), Phase::Login);
/// let _ = connection.feed(samples::LOGIN);
/// assert_eq!(connection.phase(), Phase::Packets);
/// let _ = connection.feed(b"no packet");
/// assert_eq!(connection.phase(), Phase::Closed);
/// ```
#[derive(Clone, Copy, Debug, PartialEq, Eq, Hash)]
pub enum Phase {
    /// The login.
    Login,
    /// Data packets and commands.
    Packets,
    /// Nothing more: an item was refused.
    Closed,
}

/// What is received on one connection, cut anyhow, and given out item by item: a login, then data packets and commands.
///
/// It holds what has come of the next item, in [`LARGEST`] bytes of its own; nothing is allocated. Each item is judged
/// by the rules of [`read_login`](crate::read_login), [`read_packet`](crate::read_packet) and [`read_command`], with
/// the family that the connection was made with, and the first that is refused closes the connection, since nobody
/// knows where the next one begins.
///
/// ```
/// use brundilope::{samples, Connection, Family, Item};
///
/// let mut connection = Connection::new(Family::Standard);
/// let sent = [samples::LOGIN, samples::CODEC8, samples::CODEC16].concat();
/// let mut answers = Vec::new();
/// for received in sent.chunks(50) {
///     for item in connection.items(received) {
///         match item {
///             Item::Login(login) => answers.extend(login.answer(true)),
///             Item::Data(data) => answers.extend(data.ack()),
///             other => panic!("{other:?}"),
///         }
///     }
/// }
/// assert_eq!(answers, [1, 0, 0, 0, 1, 0, 0, 0, 2]);
/// ```
#[derive(Clone, PartialEq, Eq, Hash)]
pub struct Connection(raw::Connection);

impl Connection {
    /// A fresh connection with a unit of this family, which expects the login.
    ///
    /// ```
    /// use brundilope::{Connection, Family};
    ///
    /// assert_eq!(Connection::new(Family::Standard).wanted(), 17);
    /// ```
    #[must_use]
    pub const fn new(family: Family) -> Self {
        Connection(raw::Connection { held: [0; LARGEST], fill: 0, phase: 0, family })
    }

    /// Takes bytes up to the one that finishes or refuses an item, and none behind it: feed the rest again. If no item
    /// is finished, all bytes are used and held. Refusals 15 of the login; 2, 3 of a packet's first eight bytes, 5 to
    /// 15 of the whole; 19 once the connection is closed. A refusal's offset is in the item, which is what was held
    /// before and what is used now.
    ///
    /// ```
    /// use brundilope::{samples, Connection, Family, Fed, Item, Login};
    ///
    /// let mut connection = Connection::new(Family::Standard);
    /// let received = [samples::LOGIN, samples::CODEC8].concat();
    /// let Fed { used, item } = connection.feed(&received[..40]);
    /// assert_eq!((used, item), (17, Item::Login(Login { imei: 356_307_042_441_013 })));
    /// let Fed { used, item } = connection.feed(&received[17..40]);
    /// assert_eq!((used, item), (23, Item::More));
    /// let Fed { used, item } = connection.feed(&received[40..]);
    /// let Item::Data(data) = item else { panic!("{item:?}") };
    /// assert_eq!((used, data.bytes()), (43, samples::CODEC8));
    /// ```
    #[inline]
    pub fn feed(&mut self, bytes: &[u8]) -> Fed {
        let mut fed = Fed { used: 0, item: Item::More };
        fed.used = self.feed_into(bytes, &mut fed.item);
        fed
    }

    /// Feeds, and gives how many bytes were used. A packet is written where it is to stand, so that its room need not
    /// be moved. Byte 8 says beforehand what it will be, and whether a refusal has a record.
    #[inline]
    fn feed_into(&mut self, bytes: &[u8], item: &mut Item) -> usize {
        let codec = self.held().iter().chain(bytes).nth(8);
        let command = matches!(codec, Some(codec) if is_command(*codec));
        *item = match command {
            true => Item::Command(ReceivedCommand(raw::Given::none(self.family()))),
            false => Item::Data(ReceivedData(raw::Given::none(self.family()))),
        };
        let (Item::Command(ReceivedCommand(packet)) | Item::Data(ReceivedData(packet))) = item else {
            unreachable!("it was made above")
        };
        let taken = raw::feed(&mut self.0, bytes, packet);
        let judgement = match command {
            true => input_judged(taken.number, taken.place),
            false => data_judged(taken.number, taken.index, taken.place),
        };
        match (judgement, taken.item) {
            (Err(refusal), _) => *item = Item::Refused(refusal),
            (Ok(()), 0) => *item = Item::More,
            (Ok(()), 1) => *item = Item::Login(Login { imei: taken.imei }),
            (Ok(()), _) => {}
        }
        taken.used
    }

    /// Feeds all bytes and gives the items one by one, the refusal that closes the connection last. [`Item::More`] is
    /// not among them. A closed connection gives refusal 19, once.
    ///
    /// ```
    /// use brundilope::{samples, Connection, Family, Item};
    ///
    /// let mut connection = Connection::new(Family::Standard);
    /// let received = [samples::LOGIN, samples::CODEC8, b"no packet", samples::CODEC16].concat();
    /// let mut items = connection.items(&received);
    /// assert!(matches!(items.next(), Some(Item::Login(_))));
    /// assert!(matches!(items.next(), Some(Item::Data(_))));
    /// assert!(matches!(items.next(), Some(Item::Refused(refusal)) if refusal.number == 2));
    /// assert_eq!(items.next(), None);
    /// assert_eq!(items.used(), 17 + 66 + 8);
    /// ```
    #[inline]
    pub fn items<'a>(&'a mut self, bytes: &'a [u8]) -> Items<'a> {
        Items { connection: self, bytes, used: 0, ended: false }
    }

    /// How many more bytes are wanted before anything is judged: the rest of the login, of a packet's first eight bytes
    /// or of the whole packet. 0 once the connection is closed.
    ///
    /// ```
    /// use brundilope::{samples, Connection, Family};
    ///
    /// let mut connection = Connection::new(Family::Standard);
    /// let _ = connection.feed(samples::LOGIN);
    /// assert_eq!(connection.wanted(), 8);
    /// let _ = connection.feed(&samples::CODEC8[..8]);
    /// assert_eq!(connection.wanted(), 66 - 8);
    /// ```
    #[must_use]
    pub fn wanted(&self) -> usize {
        raw::wanted(&self.0)
    }

    /// What has come of the next item: what is lost if the input ends here.
    ///
    /// ```
    /// use brundilope::{samples, Connection, Family};
    ///
    /// let mut connection = Connection::new(Family::Standard);
    /// let _ = connection.feed(&samples::LOGIN[..5]);
    /// assert_eq!(connection.held(), &samples::LOGIN[..5]);
    /// let _ = connection.feed(&samples::LOGIN[5..]);
    /// assert_eq!(connection.held(), []);
    /// ```
    #[must_use]
    #[inline]
    pub fn held(&self) -> &[u8] {
        &self.0.held[..self.0.fill]
    }

    /// The family by whose limits packets are judged.
    ///
    /// ```
    /// use brundilope::{Connection, Family};
    ///
    /// assert_eq!(Connection::new(Family::Fmx640).family(), Family::Fmx640);
    /// ```
    #[must_use]
    #[inline]
    pub fn family(&self) -> Family {
        self.0.family
    }

    /// What is expected next.
    ///
    /// ```
    /// use brundilope::{Connection, Family, Phase};
    ///
    /// assert_eq!(Connection::new(Family::Standard).phase(), Phase::Login);
    /// ```
    #[must_use]
    pub fn phase(&self) -> Phase {
        match self.0.phase {
            0 => Phase::Login,
            1 => Phase::Packets,
            _ => Phase::Closed,
        }
    }

    /// Whether an item was refused, so that nothing more is taken.
    ///
    /// ```
    /// use brundilope::{Connection, Family};
    ///
    /// let mut connection = Connection::new(Family::Standard);
    /// let _ = connection.feed(b"no login, but 17 bytes");
    /// assert!(connection.is_closed());
    /// ```
    #[must_use]
    pub fn is_closed(&self) -> bool {
        self.phase() == Phase::Closed
    }

    /// Makes it a fresh one of its family, for another unit.
    ///
    /// ```
    /// use brundilope::{Connection, Family};
    ///
    /// let mut connection = Connection::new(Family::Standard);
    /// let _ = connection.feed(b"no login, but 17 bytes");
    /// connection.reset();
    /// assert_eq!(connection, Connection::new(Family::Standard));
    /// ```
    pub fn reset(&mut self) {
        *self = Connection::new(self.family());
    }
}

impl Debug for Connection {
    fn fmt(&self, f: &mut Formatter<'_>) -> Printed {
        f.debug_struct("Connection")
            .field("family", &self.family())
            .field("phase", &self.phase())
            .field("held", &self.held())
            .finish()
    }
}

/// What a feed gives.
///
/// A packet stands in it by value, in room for the longest: match on `&fed.item` where it need not be moved.
///
/// ```
/// use brundilope::{Connection, Family, Fed, Item};
///
/// assert_eq!(Connection::new(Family::Standard).feed(b""), Fed { used: 0, item: Item::More });
/// ```
#[derive(Clone, Debug, PartialEq, Eq, Hash)]
#[must_use = "the bytes that were not used are to be fed again"]
pub struct Fed {
    /// How many of the bytes were used: those up to the item's end.
    pub used: usize,
    /// The item that they finished.
    pub item: Item,
}

/// An item of a connection.
///
/// ```
/// use brundilope::{samples, Connection, Family, Item};
///
/// let mut connection = Connection::new(Family::Standard);
/// match connection.feed(samples::LOGIN).item {
///     Item::More => println!("{} more bytes", connection.wanted()),
///     Item::Login(login) => println!("unit {:015}", login.imei),
///     Item::Data(data) => println!("{} records", data.count()),
///     Item::Command(command) => println!("{:?}", command.read()),
///     Item::Refused(refusal) => println!("{refusal}"),
/// }
/// ```
#[derive(Clone, Debug, PartialEq, Eq, Hash)]
#[must_use = "a login or data packet is to be answered, a refused connection to be closed"]
pub enum Item {
    /// None is finished: more bytes are needed.
    More,
    /// The login.
    Login(Login),
    /// A data packet.
    Data(ReceivedData),
    /// A command packet.
    Command(ReceivedCommand),
    /// One that was refused, which closes the connection; the offset counts from its first byte.
    Refused(Refusal),
}

impl PartialEq for raw::Given {
    fn eq(&self, other: &Self) -> bool {
        (self.family, self.bytes()) == (other.family, other.bytes())
    }
}

impl Eq for raw::Given {}

impl Hash for raw::Given {
    fn hash<H: Hasher>(&self, state: &mut H) {
        (self.family, self.bytes()).hash(state);
    }
}

/// A data packet that a connection has judged; its bytes by value.
///
/// ```
/// use brundilope::{samples, Connection, Contents, Family, Item};
///
/// let mut connection = Connection::new(Family::Standard);
/// let mut room = Contents::new();
/// for item in connection.items(&[samples::LOGIN, samples::CODEC16].concat()) {
///     let Item::Data(data) = item else { continue };
///     assert_eq!((data.codec(), data.count(), data.ack()), (0x10, 2, [0, 0, 0, 2]));
///     for record in data.read(&mut room).records() {
///         println!("{record}");
///     }
/// }
/// ```
#[derive(Clone, PartialEq, Eq, Hash)]
pub struct ReceivedData(raw::Given);

impl ReceivedData {
    /// The packet's bytes.
    ///
    /// ```
    /// # use brundilope::{samples, Connection, Family, Item};
    /// # let mut connection = Connection::new(Family::Standard);
    /// # let _ = connection.feed(samples::LOGIN);
    /// let Item::Data(it) = connection.feed(samples::CODEC8).item else { panic!() };
    /// assert_eq!(it.bytes(), samples::CODEC8);
    /// ```
    #[must_use]
    #[inline]
    pub fn bytes(&self) -> &[u8] {
        self.0.bytes()
    }

    /// The family by whose limits it was judged: that of its connection.
    ///
    /// ```
    /// # use brundilope::{samples, Connection, Family, Item};
    /// # let mut connection = Connection::new(Family::Standard);
    /// # let _ = connection.feed(samples::LOGIN);
    /// let Item::Data(it) = connection.feed(samples::CODEC8).item else { panic!() };
    /// assert_eq!(it.family(), connection.family());
    /// ```
    #[must_use]
    #[inline]
    pub fn family(&self) -> Family {
        self.0.family
    }

    /// The codec: 0x08, 0x8E or 0x10.
    ///
    /// ```
    /// # use brundilope::{samples, Connection, Family, Item};
    /// # let mut connection = Connection::new(Family::Standard);
    /// # let _ = connection.feed(samples::LOGIN);
    /// let Item::Data(it) = connection.feed(samples::CODEC8E).item else { panic!() };
    /// assert_eq!(it.codec(), 0x8E);
    /// ```
    #[must_use]
    #[inline]
    pub fn codec(&self) -> u8 {
        self.bytes()[8]
    }

    /// The number of records, 1 to 255.
    ///
    /// ```
    /// # use brundilope::{samples, Connection, Family, Item};
    /// # let mut connection = Connection::new(Family::Standard);
    /// # let _ = connection.feed(samples::LOGIN);
    /// let Item::Data(it) = connection.feed(samples::CODEC16).item else { panic!() };
    /// assert_eq!(it.count(), 2);
    /// ```
    #[must_use]
    #[inline]
    pub fn count(&self) -> u8 {
        self.bytes()[9]
    }

    /// The acknowledgement: the number of records in four bytes. The unit then forgets them, so store them first.
    ///
    /// ```
    /// # use brundilope::{samples, Connection, Family, Item};
    /// # let mut connection = Connection::new(Family::Standard);
    /// # let _ = connection.feed(samples::LOGIN);
    /// let Item::Data(it) = connection.feed(samples::CODEC16).item else { panic!() };
    /// assert_eq!(it.ack(), [0, 0, 0, 2]);
    /// ```
    #[must_use]
    #[inline]
    pub fn ack(&self) -> [u8; 4] {
        u32::from(self.count()).to_be_bytes()
    }

    /// The packet with its contents, which [`DataPacket::read`] lists and, to do so, judges once more, by the
    /// connection's family.
    ///
    /// ```
    /// # use brundilope::{samples, Connection, Contents, Family, Item};
    /// # let mut connection = Connection::new(Family::Standard);
    /// # let _ = connection.feed(samples::LOGIN);
    /// let Item::Data(it) = connection.feed(samples::CODEC16).item else { panic!() };
    /// let mut room = Contents::new();
    /// let times: Vec<u64> = it.read(&mut room).records().map(|record| record.timestamp()).collect();
    /// assert_eq!(times, [1_562_760_414_000, 1_562_760_415_000]);
    /// ```
    pub fn read<'a>(&'a self, room: &'a mut Contents) -> DataPacket<'a> {
        DataPacket::read(self.0.family, self.bytes(), room).expect("a connection gives only packets that are accepted")
    }
}

impl Debug for ReceivedData {
    fn fmt(&self, f: &mut Formatter<'_>) -> Printed {
        f.debug_tuple("ReceivedData").field(&self.family()).field(&self.bytes()).finish()
    }
}

/// A command packet that a connection has judged; its bytes by value.
///
/// ```
/// use brundilope::{samples, Connection, Family, Item};
///
/// let mut connection = Connection::new(Family::Standard);
/// for item in connection.items(&[samples::LOGIN, samples::CODEC14_RESPONSE].concat()) {
///     let Item::Command(command) = item else { continue };
///     assert!(command.read().text.starts_with(b"Ver:03.18.14_04"));
/// }
/// ```
#[derive(Clone, PartialEq, Eq, Hash)]
pub struct ReceivedCommand(raw::Given);

impl ReceivedCommand {
    /// The packet's bytes.
    ///
    /// ```
    /// # use brundilope::{samples, Connection, Family, Item};
    /// # let mut connection = Connection::new(Family::Standard);
    /// # let _ = connection.feed(samples::LOGIN);
    /// let Item::Command(it) = connection.feed(samples::CODEC12_RESPONSE).item else { panic!() };
    /// assert_eq!(it.bytes(), samples::CODEC12_RESPONSE);
    /// ```
    #[must_use]
    #[inline]
    pub fn bytes(&self) -> &[u8] {
        self.0.bytes()
    }

    /// The family by whose limits it was judged: that of its connection.
    ///
    /// ```
    /// # use brundilope::{samples, Connection, Family, Item};
    /// # let mut connection = Connection::new(Family::Standard);
    /// # let _ = connection.feed(samples::LOGIN);
    /// let Item::Command(it) = connection.feed(samples::CODEC12_RESPONSE).item else { panic!() };
    /// assert_eq!(it.family(), connection.family());
    /// ```
    #[must_use]
    #[inline]
    pub fn family(&self) -> Family {
        self.0.family
    }

    /// What is in it: codec, type, IMEI, time and text. [`read_command`] judges it once more, by the connection's family.
    ///
    /// ```
    /// # use brundilope::{samples, Connection, Family, Item};
    /// # let mut connection = Connection::new(Family::Standard);
    /// # let _ = connection.feed(samples::LOGIN);
    /// let Item::Command(it) = connection.feed(samples::CODEC14_COMMAND).item else { panic!() };
    /// let command = it.read();
    /// assert_eq!((command.codec, command.message_type), (0x0E, 0x05));
    /// assert_eq!((command.imei, command.text), (352_093_081_452_251, &b"getver"[..]));
    /// ```
    pub fn read(&self) -> Command<'_> {
        read_command(self.0.family, self.bytes()).expect("a connection gives only commands that are accepted")
    }
}

impl Debug for ReceivedCommand {
    fn fmt(&self, f: &mut Formatter<'_>) -> Printed {
        f.debug_tuple("ReceivedCommand").field(&self.family()).field(&self.bytes()).finish()
    }
}

/// The items of received bytes, from [`Connection::items`].
///
/// What has not been asked for is not fed: the bytes from [`used`](Items::used) on are still the caller's.
///
/// ```
/// use brundilope::{samples, Connection, Family};
///
/// let mut connection = Connection::new(Family::Standard);
/// let received = [samples::LOGIN, samples::CODEC8, &samples::CODEC16[..9]].concat();
/// assert_eq!(connection.items(&received).count(), 2);
/// assert_eq!(connection.held(), &samples::CODEC16[..9]);
/// ```
#[derive(Debug)]
#[must_use = "iterators are lazy and do nothing unless consumed"]
pub struct Items<'a> {
    connection: &'a mut Connection,
    bytes: &'a [u8],
    used: usize,
    ended: bool,
}

impl Items<'_> {
    /// How many of the bytes were used so far; in the end all, unless the connection is closed.
    ///
    /// ```
    /// use brundilope::{samples, Connection, Family};
    ///
    /// let mut connection = Connection::new(Family::Standard);
    /// let received = [samples::LOGIN, samples::CODEC8].concat();
    /// let mut items = connection.items(&received);
    /// assert_eq!(items.used(), 0);
    /// let _ = items.next();
    /// assert_eq!(items.used(), 17);
    /// let _ = items.by_ref().count();
    /// assert_eq!(items.used(), received.len());
    /// ```
    #[must_use]
    pub fn used(&self) -> usize {
        self.used
    }
}

impl Iterator for Items<'_> {
    type Item = Item;

    #[inline]
    fn next(&mut self) -> Option<Item> {
        if self.ended {
            return None;
        }
        let mut next = Some(Item::More);
        if let Some(item) = &mut next {
            self.used += self.connection.feed_into(&self.bytes[self.used..], item);
            self.ended = self.used == self.bytes.len() || matches!(item, Item::Refused(_));
            if matches!(item, Item::More) {
                next = None;
            }
        }
        next
    }
}

impl FusedIterator for Items<'_> {}
