//! Stand-ins for the crate's data types, whose files are not at hand. What they decide is not the crate's:
//! the numbers of types, subtypes, families and states, how a prefix is written, and all about attributes.

use crate::error::EncodingError;
use crate::stand_ins::bytes::{BufMut, Bytes, BytesMut};
use crate::stand_ins::ipnet::IpNet;
use crate::stand_ins::num_enum::TryFromPrimitiveError;
use std::collections::HashMap;
use std::net::{IpAddr, Ipv4Addr};

macro_rules! numbered {
    ($name:ident: $number:ty { $($variant:ident = $value:literal),* $(,)? }) => {
        #[allow(non_camel_case_types)]
        #[derive(Debug, Clone, Copy, PartialEq, Eq)]
        #[repr($number)]
        pub enum $name {
            $($variant = $value),*
        }

        impl TryFrom<$number> for $name {
            type Error = TryFromPrimitiveError<$name>;

            fn try_from(value: $number) -> Result<Self, Self::Error> {
                match value {
                    $($value => Ok($name::$variant),)*
                    _ => Err(TryFromPrimitiveError::new(u16::from(value))),
                }
            }
        }
    };
}

numbered!(EntryType: u16 {
    NULL = 0, START = 1, DIE = 2, I_AM_DEAD = 3, PEER_DOWN = 4, BGP = 5, RIP = 6, IDRP = 7, RIPNG = 8,
    BGP4PLUS = 9, BGP4PLUS_01 = 10, OSPFv2 = 11, TABLE_DUMP = 12, TABLE_DUMP_V2 = 13,
    BGP4MP = 16, BGP4MP_ET = 17, ISIS = 32, ISIS_ET = 33, OSPFv3 = 48, OSPFv3_ET = 49,
});

numbered!(Bgp4MpType: u16 {
    StateChange = 0, Message = 1, MessageAs4 = 4, StateChangeAs4 = 5, MessageLocal = 6, MessageAs4Local = 7,
    MessageAddpath = 8, MessageAs4Addpath = 9, MessageLocalAddpath = 10, MessageLocalAs4Addpath = 11,
});

numbered!(TableDumpV2Type: u16 {
    PeerIndexTable = 1, RibIpv4Unicast = 2, RibIpv4Multicast = 3, RibIpv6Unicast = 4, RibIpv6Multicast = 5,
    RibGeneric = 6, GeoPeerTable = 7, RibIpv4UnicastAddPath = 8, RibIpv4MulticastAddPath = 9,
    RibIpv6UnicastAddPath = 10, RibIpv6MulticastAddPath = 11, RibGenericAddPath = 12,
});

numbered!(Afi: u16 { Ipv4 = 1, Ipv6 = 2, LinkState = 16388 });
numbered!(Safi: u8 { Unicast = 1, Multicast = 2 });
numbered!(BgpState: u16 { Idle = 1, Connect = 2, Active = 3, OpenSent = 4, OpenConfirm = 5, Established = 6 });

#[derive(Debug, Clone, Copy, PartialEq, Eq)]
pub struct CommonHeader {
    pub timestamp: u32,
    pub microsecond_timestamp: Option<u32>,
    pub entry_type: EntryType,
    pub entry_subtype: u16,
    pub length: u32,
}

#[derive(Debug, Clone)]
pub struct MrtRecord {
    pub common_header: CommonHeader,
    pub message: MrtMessage,
}

/// A body that passed its check. Only the crate's own reading of an envelope leaves something to see.
#[derive(Debug, Clone)]
pub enum MrtMessage {
    TableDumpMessage(Checked),
    TableDumpMessageBatch(Vec<Checked>),
    TableDumpV2Message(Checked),
    Bgp4Mp(Bgp4MpEnum),
    LegacyBgp(Checked),
}

impl MrtMessage {
    pub fn encode(&self, _subtype: u16) -> Result<Bytes, EncodingError> {
        Err(EncodingError::Unencodable { field: "MRT message", reason: "not part of this build".to_string() })
    }
}

#[derive(Debug, Clone, Copy)]
pub struct Checked;

#[derive(Debug, Clone)]
pub enum Bgp4MpEnum {
    Checked,
    StateChange(Bgp4MpStateChange),
    Message(Bgp4MpMessage),
}

#[derive(Debug, Clone)]
pub struct Bgp4MpStateChange {
    pub msg_type: Bgp4MpType,
    pub peer_asn: Asn,
    pub local_asn: Asn,
    pub interface_index: u16,
    pub peer_ip: IpAddr,
    pub local_addr: IpAddr,
    pub old_state: BgpState,
    pub new_state: BgpState,
}

#[derive(Debug, Clone)]
pub struct Bgp4MpMessage {
    pub msg_type: Bgp4MpType,
    pub peer_asn: Asn,
    pub local_asn: Asn,
    pub interface_index: u16,
    pub peer_ip: IpAddr,
    pub local_ip: IpAddr,
    pub bgp_message: BgpMessage,
}

/// A BGP message, kept as octets.
#[derive(Debug, Clone)]
pub struct BgpMessage(pub Bytes);

impl BgpMessage {
    pub fn encode(&self, _asn_len: AsnLength) -> Result<Bytes, EncodingError> {
        Ok(self.0.clone())
    }
}

pub enum BgpMessageType {
    OPEN = 1,
}

#[derive(Debug, Clone, Copy, PartialEq, Eq)]
pub struct AttrType;

pub struct BgpElem;

pub fn address_family(address: &IpAddr) -> u16 {
    match address {
        IpAddr::V4(_) => Afi::Ipv4 as u16,
        IpAddr::V6(_) => Afi::Ipv6 as u16,
    }
}

#[derive(Debug, Clone, Copy, PartialEq, Eq)]
pub enum AsnLength {
    Bits16,
    Bits32,
}

impl AsnLength {
    pub fn bytes(&self) -> usize {
        match self {
            AsnLength::Bits16 => 2,
            AsnLength::Bits32 => 4,
        }
    }
}

#[derive(Debug, Clone, Copy, PartialEq, Eq)]
pub struct Asn {
    value: u32,
    four_octets: bool,
}

impl Asn {
    pub fn new_16bit(value: u16) -> Self {
        Asn { value: u32::from(value), four_octets: false }
    }

    pub fn new_32bit(value: u32) -> Self {
        Asn { value, four_octets: true }
    }

    pub fn to_u32(&self) -> u32 {
        self.value
    }

    pub fn is_four_byte(&self) -> bool {
        self.four_octets
    }
}

impl From<&Asn> for u16 {
    fn from(asn: &Asn) -> u16 {
        asn.value as u16
    }
}

impl From<&Asn> for u32 {
    fn from(asn: &Asn) -> u32 {
        asn.value
    }
}

#[derive(Debug, Clone, Copy, PartialEq, Eq)]
pub struct PeerType(u8);

impl PeerType {
    pub const ADDRESS_FAMILY_IPV6: PeerType = PeerType(1);
    pub const AS_SIZE_32BIT: PeerType = PeerType(2);

    pub fn from_bits_retain(bits: u8) -> Self {
        PeerType(bits)
    }

    pub fn bits(&self) -> u8 {
        self.0
    }

    pub fn contains(&self, other: PeerType) -> bool {
        self.0 & other.0 == other.0
    }
}

#[derive(Debug, Clone, Copy, PartialEq, Eq)]
pub struct Peer {
    pub peer_type: PeerType,
    pub peer_bgp_id: Ipv4Addr,
    pub peer_ip: IpAddr,
    pub peer_asn: Asn,
}

#[derive(Debug, Clone)]
pub struct PeerIndexTable {
    pub collector_bgp_id: Ipv4Addr,
    pub view_name: String,
    pub id_peer_map: HashMap<u16, Peer>,
    pub peer_ip_id_map: HashMap<IpAddr, u16>,
}

/// A prefix, written as its number of bits and the fewest octets that hold them.
#[derive(Debug, Clone, Copy, PartialEq, Eq)]
pub struct NetworkPrefix {
    pub prefix: IpNet,
}

impl NetworkPrefix {
    pub fn new(prefix: IpNet, _path_id: Option<u32>) -> Self {
        NetworkPrefix { prefix }
    }

    pub fn encode(&self) -> Vec<u8> {
        let octets = match self.prefix.addr {
            IpAddr::V4(address) => address.octets().to_vec(),
            IpAddr::V6(address) => address.octets().to_vec(),
        };
        let mut out = vec![self.prefix.prefix_len];
        out.extend_from_slice(&octets[..usize::from(self.prefix.prefix_len).div_ceil(8)]);
        out
    }
}

#[derive(Debug, Clone)]
pub struct RibAfiEntries {
    pub rib_type: TableDumpV2Type,
    pub sequence_number: u32,
    pub prefix: NetworkPrefix,
    pub rib_entries: Vec<RibEntry>,
}

#[derive(Debug, Clone)]
pub struct RibEntry {
    pub peer_index: u16,
    pub originated_time: u32,
    pub path_id: Option<u32>,
    pub attributes: Attributes,
}

/// Attributes, kept as octets and written back as the same.
#[derive(Debug, Clone)]
pub struct Attributes(pub Bytes);

impl Attributes {
    pub fn check_mandatory_attributes(&mut self, _announced: bool, _has_next_hop: bool) {}

    pub fn encode_to(&self, _asn_len: AsnLength, out: &mut BytesMut) -> Result<(), EncodingError> {
        out.put_slice(&self.0);
        Ok(())
    }
}
