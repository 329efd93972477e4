//! Packets: what can be known of one from its first octets. There are two families, Space Packets (CCSDS 133.0) and
//! encapsulation packets (CCSDS 133.1; document 02, A5).

use crate::frame::big_endian;

/// The single octet that is an idle packet by itself, and the fill of packet zones.
pub const IDLE_OCTET: u8 = 0xE0;

/// The octets of a Space Packet's header, and of the shortest Space Packet.
const SPACE_HEADER: usize = 6;
pub const SHORTEST_SPACE: u64 = 7;

/// By length-of-length: the octets of an encapsulation packet's header, and those of the total length, which stands last
/// in the header. The octets between are not judged.
pub const HEADERS: [usize; 4] = [1, 2, 4, 8];
pub const LENGTH_FIELDS: [usize; 4] = [0, 1, 2, 4];

#[derive(Clone, Copy, PartialEq, Eq, Debug)]
pub enum Family {
    Space,
    Encapsulation,
}

/// What the octets from a packet's first one on say about it. A size is the whole packet's, header included; the octets
/// looked at may be fewer or more.
#[derive(Clone, Copy, PartialEq, Eq, Debug)]
pub enum Measure {
    /// No packet begins so.
    Unreadable,
    /// So many octets more make the header whole, or say how long it is; the size is not known before.
    Lacks(usize),
    Idle {
        size: u64,
    },
    Packet {
        family: Family,
        size: u64,
    },
}

impl Measure {
    fn of(family: Family, size: u64, idle: bool) -> Measure {
        if idle {
            Measure::Idle { size }
        } else {
            Measure::Packet { family, size }
        }
    }
}

/// Looks at a packet's octets.
pub fn measure(octets: &[u8]) -> Measure {
    let Some(first) = octets.first() else { return Measure::Lacks(1) };
    match first >> 5 {
        0b000 => measure_space(octets),
        0b111 => measure_encapsulation(*first, octets),
        _ => Measure::Unreadable,
    }
}

fn measure_space(octets: &[u8]) -> Measure {
    if octets.len() < SPACE_HEADER {
        return Measure::Lacks(SPACE_HEADER - octets.len());
    }
    let application = big_endian(&octets[..2]) & 0x07FF;
    Measure::of(Family::Space, SHORTEST_SPACE + big_endian(&octets[4..6]), application == 0x07FF)
}

/// First bits 111, then protocol and length-of-length.
fn measure_encapsulation(first: u8, octets: &[u8]) -> Measure {
    let idle = first >> 2 & 0b111 == 0b000;
    let length_of_length = usize::from(first & 0b11);
    let header = HEADERS[length_of_length];
    if length_of_length == 0 {
        // The header has no total: it is the whole packet, and only an idle one can be that.
        return if idle { Measure::Idle { size: 1 } } else { Measure::Unreadable };
    }
    if octets.len() < header {
        return Measure::Lacks(header - octets.len());
    }
    let size = big_endian(&octets[header - LENGTH_FIELDS[length_of_length]..header]);
    if size < header as u64 {
        return Measure::Unreadable;
    }
    Measure::of(Family::Encapsulation, size, idle)
}

/// The length of the whole packet that `octets` begin with, of either family and not idle; none where there is no such one.
pub fn whole_packet(octets: &[u8]) -> Option<usize> {
    match measure(octets) {
        Measure::Packet { size, .. } if size <= octets.len() as u64 => Some(size as usize),
        _ => None,
    }
}
