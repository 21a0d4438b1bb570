//! For the crate `ipnet`: an address and a number of prefix bits that it can have. Host bits are kept.

use std::net::{IpAddr, Ipv4Addr, Ipv6Addr};

#[derive(Debug)]
pub struct PrefixLenError;

#[derive(Debug, Clone, Copy, PartialEq, Eq)]
pub struct IpNet {
    pub addr: IpAddr,
    pub prefix_len: u8,
}

impl IpNet {
    pub fn new(addr: IpAddr, prefix_len: u8) -> Result<Self, PrefixLenError> {
        let most = if addr.is_ipv4() { 32 } else { 128 };
        if prefix_len > most {
            return Err(PrefixLenError);
        }
        Ok(IpNet { addr, prefix_len })
    }
}

pub struct Ipv4Net;

impl Ipv4Net {
    pub fn new(addr: Ipv4Addr, prefix_len: u8) -> Result<Self, PrefixLenError> {
        IpNet::new(IpAddr::V4(addr), prefix_len).map(|_| Ipv4Net)
    }
}

pub struct Ipv6Net;

impl Ipv6Net {
    pub fn new(addr: Ipv6Addr, prefix_len: u8) -> Result<Self, PrefixLenError> {
        IpNet::new(IpAddr::V6(addr), prefix_len).map(|_| Ipv6Net)
    }
}
