//! The archive's calls, declared as in include/brundilope.h, each behind a safe function. All `unsafe` is here.
use core::mem::MaybeUninit;
use core::slice;

use crate::{Family, LARGEST};

#[repr(C)]
pub struct Packet {
    pub number: usize,
    pub index: usize,
    pub place: usize,
    pub codec: u8,
    pub count: u8,
}

#[repr(C)]
pub struct Datagram {
    pub number: usize,
    pub index: usize,
    pub place: usize,
    pub codec: u8,
    pub count: u8,
    pub packet_id: u16,
    pub unused: u8,
    pub avl_packet_id: u8,
    pub imei: u64,
}

#[repr(C)]
pub struct Login {
    pub number: usize,
    pub index: usize,
    pub place: usize,
    pub imei: u64,
}

#[repr(C)]
pub struct Command {
    pub number: usize,
    pub index: usize,
    pub place: usize,
    pub codec: u8,
    pub message_type: u8,
    pub time: u32,
    pub imei: u64,
    pub offset: usize,
    pub size: usize,
}

#[repr(C)]
pub struct Record {
    pub number: usize,
    pub index: usize,
    pub place: usize,
    pub timestamp: u64,
    pub priority: u8,
    pub longitude: i32,
    pub latitude: i32,
    pub altitude: i16,
    pub angle: u16,
    pub satellites: u8,
    pub speed: u16,
    pub event: u16,
    pub generation: u8,
    pub elements: usize,
}

#[repr(C)]
pub struct Value {
    pub number: usize,
    pub index: usize,
    pub place: usize,
    pub id: u16,
    pub kind: u8,
    pub offset: usize,
    pub size: usize,
}

#[repr(C)]
pub struct Found {
    pub value: Value,
    pub passed: usize,
}

#[repr(C)]
pub struct Known {
    pub number: usize,
    pub index: usize,
    pub place: usize,
    pub older: bool,
    pub id: u16,
    pub kind: u8,
    pub offset: usize,
    pub size: usize,
    pub passed: usize,
}

#[repr(C)]
pub struct Written {
    pub number: usize,
    pub index: usize,
    pub place: usize,
    pub written: usize,
}

#[repr(C)]
pub struct Line {
    pub number: usize,
    pub index: usize,
    pub place: usize,
    pub timestamp: u64,
    pub longitude: i32,
    pub latitude: i32,
    pub speed: u16,
    pub elements: usize,
    pub start: usize,
}

#[repr(C)]
pub struct LineElement {
    pub number: usize,
    pub index: usize,
    pub place: usize,
    pub id: u16,
    pub tag: bool,
    pub value: u64,
    pub size: usize,
    pub next: usize,
}

#[repr(C)]
#[derive(Clone, PartialEq, Eq, Hash)]
pub struct Connection {
    pub held: [u8; LARGEST],
    pub fill: usize,
    pub phase: u8,
    pub family: Family,
}

#[repr(C)]
pub struct Taken {
    pub number: usize,
    pub index: usize,
    pub place: usize,
    pub used: usize,
    pub item: u8,
    pub imei: u64,
    pub size: usize,
    pub fill: usize,
    pub phase: u8,
}

/// Declares calls on one input: perhaps the family, its pointer and length, then numbers.
macro_rules! on_input {
    ($($safe:ident, $call:ident[$($family:ident)?]($($word:ident: $width:ty),*) -> $answer:ty;)*) => {
        extern "C" {
            $(fn $call($($family: usize,)? p: *const u8, p_len: usize, $($word: $width),*) -> $answer;)*
        }
        $(pub fn $safe($($family: Family,)? p: &[u8], $($word: $width),*) -> $answer {
            // SAFETY: pointer and length are those of a slice, which the call only reads, and it keeps neither.
            unsafe { $call($($family as usize,)? p.as_ptr(), p.len(), $($word),*) }
        })*
    };
}

on_input! {
    read_packet, brundilope_read_packet[family]() -> Packet;
    read_datagram, brundilope_read_datagram[family]() -> Datagram;
    read_login, brundilope_read_login[]() -> Login;
    read_command, brundilope_read_command[family]() -> Command;
    record_in_packet, brundilope_record_in_packet[family](record: usize) -> Record;
    record_in_datagram, brundilope_record_in_datagram[family](record: usize) -> Record;
    value_in_packet, brundilope_value_in_packet[family](record: usize, element: usize) -> Value;
    value_in_datagram, brundilope_value_in_datagram[family](record: usize, element: usize) -> Value;
    id_in_packet, brundilope_id_in_packet[family](record: usize, id: u16) -> Found;
    id_in_datagram, brundilope_id_in_datagram[family](record: usize, id: u16) -> Found;
    read_line, brundilope_read_line[]() -> Line;
    wrong_byte, brundilope_wrong_byte[]() -> usize;
}

/// Declares calls that write what belongs to one input into a lent buffer.
macro_rules! into_buffer {
    ($($safe:ident, $call:ident[$($family:ident)?]($($word:ident: $width:ty),*) -> $answer:ty;)*) => {
        extern "C" {
            $(fn $call(
                $($family: usize,)? p: *const u8, p_len: usize, $($word: $width,)* out: *mut u8, out_len: usize
            ) -> $answer;)*
        }
        $(pub fn $safe($($family: Family,)? p: &[u8], $($word: $width,)* out: &mut [u8]) -> $answer {
            // SAFETY: pointers and lengths are those of two slices, which do not overlap since one is `&mut`; the call
            // writes only within the second and keeps none of them.
            unsafe { $call($($family as usize,)? p.as_ptr(), p.len(), $($word,)* out.as_mut_ptr(), out.len()) }
        })*
    };
}

into_buffer! {
    answer_login, brundilope_answer_login[](known: bool) -> Written;
    acknowledge_packet, brundilope_acknowledge_packet[family]() -> Written;
    acknowledge_datagram, brundilope_acknowledge_datagram[family]() -> Written;
    form_of_packet, brundilope_form_of_packet[family]() -> Written;
    form_of_datagram, brundilope_form_of_datagram[family]() -> Written;
    packet_of_form, brundilope_packet_of_form[family]() -> Written;
    line_of_packet, brundilope_line_of_packet[family](record: usize) -> Written;
    line_of_datagram, brundilope_line_of_datagram[family](record: usize) -> Written;
    lines_of_packet, brundilope_lines_of_packet[family]() -> Written;
    lines_of_datagram, brundilope_lines_of_datagram[family]() -> Written;
    element_in_line, brundilope_element_in_line[](element: usize) -> LineElement;
    element_at, brundilope_element_at[](at: usize) -> LineElement;
}

/// Declares calls that write the table of contents of one input into lent words; they give the words written, too.
macro_rules! into_words {
    ($($safe:ident, $call:ident;)*) => {
        extern "C" {
            $(fn $call(family: usize, p: *const u8, p_len: usize, out: *mut u64, out_len: usize) -> Written;)*
        }
        $(#[inline]
        pub fn $safe<'a>(family: Family, p: &[u8], out: &'a mut [MaybeUninit<u64>]) -> (Written, &'a [u64]) {
            // SAFETY: pointers and lengths are those of two slices, which do not overlap since one is `&mut`; the call
            // writes only within the second, does not read it and keeps none of them.
            let answer = unsafe { $call(family as usize, p.as_ptr(), p.len(), out.as_mut_ptr().cast(), out.len()) };
            let written = &out[..answer.written];
            // SAFETY: the call has written the first `answer.written` words of `out`, and these are they.
            let words = unsafe { slice::from_raw_parts(written.as_ptr().cast(), written.len()) };
            (answer, words)
        })*
    };
}

into_words! {
    contents_of_packet, brundilope_contents_of_packet;
    contents_of_datagram, brundilope_contents_of_datagram;
}

extern "C" {
    fn brundilope_last_known(
        family: usize,
        newer: *const u8,
        newer_len: usize,
        older: *const u8,
        older_len: usize,
        id: u16,
    ) -> Known;

    fn brundilope_write_command(
        family: usize,
        codec: u8,
        message_type: u8,
        imei: *const u8,
        imei_len: usize,
        time: u32,
        text: *const u8,
        text_len: usize,
        out: *mut u8,
        out_len: usize,
    ) -> Written;
}

pub fn last_known(family: Family, newer: &[u8], older: &[u8], id: u16) -> Known {
    let (newer_at, older_at) = (newer.as_ptr(), older.as_ptr());
    // SAFETY: pointers and lengths are those of two slices, which the call only reads, and it keeps none of them.
    unsafe { brundilope_last_known(family as usize, newer_at, newer.len(), older_at, older.len(), id) }
}

pub fn write_command(
    family: Family,
    codec: u8,
    message_type: u8,
    imei: &[u8],
    time: u32,
    text: &[u8],
    out: &mut [u8],
) -> Written {
    let (imei_at, text_at, out_at) = (imei.as_ptr(), text.as_ptr(), out.as_mut_ptr());
    let (imei_len, text_len, out_len) = (imei.len(), text.len(), out.len());
    let family = family as usize;
    // SAFETY: pointers and lengths are those of three slices, and `out` overlaps neither of the others since it is
    // `&mut`; the call writes only within `out` and keeps none of them.
    unsafe {
        brundilope_write_command(
            family,
            codec,
            message_type,
            imei_at,
            imei_len,
            time,
            text_at,
            text_len,
            out_at,
            out_len,
        )
    }
}

extern "C" {
    fn brundilope_feed_lent(
        family: usize,
        phase: u8,
        fill: usize,
        held: *mut u8,
        held_len: usize,
        bytes: *const u8,
        bytes_len: usize,
        packet: *mut u8,
        packet_len: usize,
    ) -> Taken;

    fn brundilope_wanted(family: usize, phase: u8, fill: usize, held: *const u8, held_len: usize) -> usize;
}

/// A packet of a family by value, or none yet: its bytes at the start of a room for any, nothing behind them.
#[derive(Clone)]
pub struct Given {
    room: [MaybeUninit<u8>; LARGEST],
    size: usize,
    pub family: Family,
}

impl Given {
    #[inline]
    pub const fn none(family: Family) -> Self {
        Given { room: [MaybeUninit::uninit(); LARGEST], size: 0, family }
    }

    #[inline]
    pub fn bytes(&self) -> &[u8] {
        let written = &self.room[..self.size];
        // SAFETY: only `feed` sets `size`, to the number of bytes that the call has written at the room's start, and
        // these are they.
        unsafe { slice::from_raw_parts(written.as_ptr().cast(), written.len()) }
    }
}

#[inline]
pub fn feed(state: &mut Connection, bytes: &[u8], packet: &mut Given) -> Taken {
    let (held, room) = (&mut state.held, &mut packet.room);
    let (held_at, bytes_at, room_at) = (held.as_mut_ptr(), bytes.as_ptr(), room.as_mut_ptr().cast());
    let (family, phase, fill) = (state.family as usize, state.phase, state.fill);
    // SAFETY: pointers and lengths are those of two arrays and a slice, which do not overlap since the arrays are
    // `&mut`; the call writes only within the arrays, does not read the room and keeps none of them.
    let taken = unsafe {
        brundilope_feed_lent(family, phase, fill, held_at, held.len(), bytes_at, bytes.len(), room_at, room.len())
    };
    (state.fill, state.phase, packet.size) = (taken.fill, taken.phase, taken.size);
    taken
}

pub fn wanted(state: &Connection) -> usize {
    let (family, held) = (state.family as usize, &state.held);
    // SAFETY: pointer and length are those of an array, which the call only reads, and it keeps neither.
    unsafe { brundilope_wanted(family, state.phase, state.fill, held.as_ptr(), held.len()) }
}
