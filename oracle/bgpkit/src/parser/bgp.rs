//! Stand-ins for the crate's BGP parsers: attributes and messages are kept as octets, not looked into.

pub mod attributes {
    use crate::error::ParserError;
    use crate::models::{Afi, AsnLength, Attributes, NetworkPrefix, Safi};
    use crate::stand_ins::bytes::Bytes;

    pub(crate) fn parse_attributes(
        octets: Bytes,
        _asn_len: &AsnLength,
        _add_path: bool,
        _afi: Option<Afi>,
        _safi: Option<Safi>,
        _prefixes: Option<&[NetworkPrefix]>,
    ) -> Result<Attributes, ParserError> {
        Ok(Attributes(octets))
    }
}

pub mod messages {
    use crate::error::ParserError;
    use crate::models::{AsnLength, BgpMessage};
    use crate::stand_ins::bytes::Bytes;

    pub(crate) fn parse_bgp_message(
        octets: &mut Bytes,
        _add_path: bool,
        _asn_len: &AsnLength,
    ) -> Result<BgpMessage, ParserError> {
        let all = octets.len();
        Ok(BgpMessage(octets.split_to(all)))
    }
}
