//! Stand-ins for the BMP types that the crate's record file names. Nothing here makes one.

pub mod messages {
    use crate::models::{Asn, BgpMessage};
    use std::net::IpAddr;

    pub struct BmpMessage {
        pub per_peer_header: Option<PerPeerHeader>,
        pub message_body: BmpMessageBody,
    }

    pub enum BmpMessageBody {
        RouteMonitoring(RouteMonitoring),
        Other,
    }

    pub struct RouteMonitoring {
        pub bgp_message: BgpMessage,
    }

    pub struct PerPeerHeader {
        pub peer_ip: IpAddr,
        pub peer_asn: Asn,
        pub timestamp: f64,
    }
}
