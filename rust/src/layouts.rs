//! Holds the structs of `raw` to the lines of tests/layouts, as tests/layouts.c holds the header's.
use core::mem::{offset_of, size_of};

use crate::raw::{
    Command, Connection, Datagram, Found, Known, Line, LineElement, Login, Packet, Record, Taken, Value, Written,
};

fn size_of_field<S, F>(_: fn(&S) -> &F) -> usize {
    size_of::<F>()
}

/// The lines of structs with these names in C; a field's name is C's but for `type`, which Rust keeps for itself.
macro_rules! lines {
    ($($name:ident as $c:literal { $($field:ident),* })*) => {
        [$(
            format!("STRUCT({}, {})", $c, size_of::<$name>()),
            $(format!(
                "FIELD({}, {}, {}, {})",
                $c,
                stringify!($field).replace("message_type", "type"),
                offset_of!($name, $field),
                size_of_field(|s: &$name| &s.$field)
            ),)*
        )*]
    };
}

#[test]
fn layouts_are_those_of_the_header() {
    let told = include_str!("../../tests/layouts");
    // all but `started` and `fed`, which hold a connection by value: no call of this crate gives them
    let by_value = |line: &&str| line.contains("(started,") || line.contains("(fed,");
    let told: Vec<&str> = told.lines().filter(|line| line.ends_with(')') && !by_value(line)).collect();
    let own = lines! {
        Packet as "packet" { number, index, place, codec, count }
        Datagram as "datagram" { number, index, place, codec, count, packet_id, unused, avl_packet_id, imei }
        Login as "login" { number, index, place, imei }
        Command as "command" { number, index, place, codec, message_type, time, imei, offset, size }
        Record as "record" {
            number, index, place, timestamp, priority, longitude, latitude, altitude, angle, satellites, speed, event,
            generation, elements
        }
        Value as "value" { number, index, place, id, kind, offset, size }
        Found as "found" { value, passed }
        Known as "known" { number, index, place, older, id, kind, offset, size, passed }
        Written as "written" { number, index, place, written }
        Line as "line" { number, index, place, timestamp, longitude, latitude, speed, elements, start }
        LineElement as "line_element" { number, index, place, id, tag, value, size, next }
        Connection as "connection" { held, fill, phase, family }
        Taken as "taken" { number, index, place, used, item, imei, size, fill, phase }
    };
    assert_eq!(own.as_slice(), told.as_slice());
}
