//! The PEER_INDEX_TABLE: its head, and its peers in lent slots.

use crate::{Refusal, boundary, part};
use core::net::{IpAddr, Ipv4Addr, Ipv6Addr};

/// A peer, as the slots of a [`PeerTable`] hold it and as the library does.
#[derive(Debug, Clone, Copy, PartialEq, Eq, Hash, Default)]
#[repr(C)]
pub struct Peer {
    /// The type octet: [`Peer::IPV6`] and [`Peer::WIDE_AS`] say what the other fields are.
    pub kind: u8,
    /// The BGP identifier.
    pub id: u32,
    /// The address. One of four octets has the first four.
    pub addr: [u8; 16],
    /// The AS number.
    pub asn: u32,
}

impl Peer {
    /// The bit of the type that means an IPv6 address.
    pub const IPV6: u8 = 1;
    /// The bit of the type that means an AS of four octets.
    pub const WIDE_AS: u8 = 2;

    /// A peer with an AS of four octets.
    ///
    /// ```
    /// use mrt::Peer;
    ///
    /// let peer = Peer::new("192.0.2.1".parse()?, 0xc0000201, 64_496);
    /// assert_eq!((peer.kind, peer.addr[0], peer.addr[4]), (Peer::WIDE_AS, 192, 0));
    /// assert_eq!(peer.address().to_string(), "192.0.2.1");
    /// # Ok::<(), core::net::AddrParseError>(())
    /// ```
    pub const fn new(address: IpAddr, id: u32, asn: u32) -> Peer {
        let (family, addr) = octets_of(address);
        Peer { kind: family | Peer::WIDE_AS, id, addr, asn }
    }

    /// The address, of the family that the type says.
    pub const fn address(&self) -> IpAddr {
        address_of(self.kind & Peer::IPV6 != 0, self.addr)
    }
}

/// The bit of a family, and an address in 16 octets.
const fn octets_of(address: IpAddr) -> (u8, [u8; 16]) {
    match address {
        IpAddr::V4(address) => {
            let [a, b, c, d] = address.octets();
            (0, [a, b, c, d, 0, 0, 0, 0, 0, 0, 0, 0, 0, 0, 0, 0])
        }
        IpAddr::V6(address) => (Peer::IPV6, address.octets()),
    }
}

/// The address that stands at the front of 16 octets.
pub(crate) const fn address_of(v6: bool, octets: [u8; 16]) -> IpAddr {
    if v6 {
        return IpAddr::V6(Ipv6Addr::from_bits(u128::from_be_bytes(octets)));
    }
    let [a, b, c, d, ..] = octets;
    IpAddr::V4(Ipv4Addr::new(a, b, c, d))
}

/// The head of a PEER_INDEX_TABLE (RFC 6396, 4.3.1) whose body holds every declared peer.
#[derive(Debug, Clone, Copy, PartialEq, Eq, Hash)]
#[non_exhaustive]
pub struct PeerIndex<'a> {
    /// The collector's BGP identifier.
    pub collector: u32,
    /// The view name, a part of the body. It need not be text.
    pub view: &'a [u8],
    /// How many peers there are: so many slots [`PeerTable::load`] needs.
    pub count: u16,
    /// Where the first peer starts in the body.
    pub first: usize,
    /// Where the last peer ends in the body. Octets after it are ignored.
    pub end: usize,
}

impl<'a> PeerIndex<'a> {
    /// Reads the head and checks that every declared peer is there.
    ///
    /// # Errors
    ///
    /// [`Refusal::BodyNotMet`].
    ///
    /// ```
    /// use mrt::{PeerIndex, Refusal};
    ///
    /// let body = [192, 0, 2, 1, 0, 2, b'm', b'e', 0, 0];
    /// let index = PeerIndex::read(&body)?;
    /// assert_eq!((index.collector, index.view, index.count), (0xc0000201, &b"me"[..], 0));
    /// assert_eq!(PeerIndex::read(&body[..9]), Err(Refusal::BodyNotMet));
    /// # Ok::<(), Refusal>(())
    /// ```
    pub fn read(body: &'a [u8]) -> Result<PeerIndex<'a>, Refusal> {
        let [collector, name, length, count, first, end] = boundary::check_peers(body)?;
        Ok(PeerIndex {
            collector: collector as u32,
            view: part(body, name, name.saturating_add(length)),
            count: count as u16,
            first: first as usize,
            end: end as usize,
        })
    }
}

/// What adding a peer did.
#[derive(Debug, Clone, Copy, PartialEq, Eq, Hash)]
pub enum Added {
    /// The address is new. The peer has this id.
    New(u16),
    /// The address was held by the peer of this id, and nothing was changed.
    Known(u16),
}

/// A peer table in lent slots. The peers fill them from the front; the others keep what they had.
///
/// ```
/// use mrt::{Added, Peer, PeerTable, Refusal};
///
/// let address = "2001:db8::1".parse().unwrap();
/// let mut slots = [Peer::default(); 4];
/// let mut table = PeerTable::new(&mut slots);
/// assert_eq!(table.add(&Peer::new(address, 1, 64_496))?, Added::New(0));
/// assert_eq!(table.add(&Peer::new(address, 2, 64_497))?, Added::Known(0));
///
/// let mut body = [0; 100];
/// let octets = table.write(&mut body, 0xc0000201, b"view")?;
/// let mut slots = [Peer::default(); 1];
/// let table = PeerTable::load(&body[..octets], &mut slots)?;
/// assert_eq!(table.find(address), Some(0));
/// assert_eq!(table.get(0).unwrap().asn, 64_496);
/// # Ok::<(), Refusal>(())
/// ```
#[derive(Debug)]
pub struct PeerTable<'a> {
    slots: &'a mut [Peer],
    /// At most the slots, and at most 65,535.
    count: usize,
}

impl<'a> PeerTable<'a> {
    /// A table with no peer.
    pub const fn new(slots: &'a mut [Peer]) -> PeerTable<'a> {
        PeerTable { slots, count: 0 }
    }

    /// A table whose peers are in the first slots already.
    ///
    /// # Errors
    ///
    /// [`Refusal::Beyond`] for a count above the slots or above 65,535.
    pub const fn with_peers(slots: &'a mut [Peer], count: usize) -> Result<PeerTable<'a>, Refusal> {
        if slots.len() < count || 65_535 < count {
            return Err(Refusal::Beyond);
        }
        Ok(PeerTable { slots, count })
    }

    /// The peers of a PEER_INDEX_TABLE's body.
    ///
    /// # Errors
    ///
    /// [`Refusal::BodyNotMet`]; [`Refusal::NoRoom`] for fewer slots than peers, whose number [`PeerIndex::read`] gives.
    pub fn load(body: &[u8], slots: &'a mut [Peer]) -> Result<PeerTable<'a>, Refusal> {
        let count = usize::from(PeerIndex::read(body)?.count);
        boundary::load_peers(body, slots)?;
        Ok(PeerTable { slots, count })
    }

    /// The highest id that holds an address, or `None`.
    pub fn find(&self, address: IpAddr) -> Option<u16> {
        let (family, addr) = octets_of(address);
        boundary::find_peer(self.slots, self.count, family, &addr).ok()
    }

    /// Adds a peer, unless its address is held. The new id is the number of peers before.
    ///
    /// # Errors
    ///
    /// [`Refusal::TooLarge`] for a 65,536th peer, [`Refusal::NoRoom`] for want of a slot.
    pub fn add(&mut self, peer: &Peer) -> Result<Added, Refusal> {
        let id = boundary::add_peer(self.slots, self.count, peer)?;
        if usize::from(id) < self.count {
            return Ok(Added::Known(id));
        }
        self.count = usize::from(id).saturating_add(1);
        Ok(Added::New(id))
    }

    /// Writes the body of a PEER_INDEX_TABLE at the front of the output, and says how many octets it takes.
    ///
    /// # Errors
    ///
    /// [`Refusal::TooLarge`] for a view name above 65,535 octets or an AS above 65,535 in a field of two octets;
    /// [`Refusal::NoRoom`].
    pub fn write(&self, out: &mut [u8], collector: u32, view: &[u8]) -> Result<usize, Refusal> {
        boundary::write_peers(out, collector, view, self.slots, self.count)
    }

    /// The peer of an id, or `None` where there are not so many.
    pub fn get(&self, id: u16) -> Option<&Peer> {
        self.peers().get(usize::from(id))
    }

    /// The peers, by their ids.
    pub fn peers(&self) -> &[Peer] {
        self.slots.get(..self.count).unwrap_or_default()
    }

    /// How many peers there are.
    pub const fn len(&self) -> usize {
        self.count
    }

    /// Whether there is no peer.
    pub const fn is_empty(&self) -> bool {
        self.count == 0
    }
}
