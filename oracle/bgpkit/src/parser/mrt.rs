//! The crate's MRT files, and glue where the crate looks for BGP4MP and TABLE_DUMP.

own_file!("mrt_header");
own_file!("mrt_record");

pub mod messages {
    pub mod table_dump_v2 {
        own_file!("peer_index_table");
        own_file!("rib_afi_entries");
    }

    /// The crate's own file. A walk comes here only while `with_own_parsers` runs.
    pub(crate) mod own {
        own_file!("bgp4mp");
    }

    pub(crate) mod bgp4mp {
        use super::own;
        use crate::parser::own_parsers;
        use crate::stand_ins::bytes::Bytes;

        /// 01's second replacement: the Zebra short form answers no.
        pub(crate) fn uses_zebra_compat(subtype: u16, body: &Bytes) -> bool {
            own_parsers() && own::bgp4mp::uses_zebra_compat(subtype, body)
        }
    }

    /// The crate's file is not at hand. It may take four octets more after a type 12 record; here it never does.
    pub(crate) mod table_dump {
        pub(crate) fn needs_legacy_length_correction(_subtype: u16, _body: &[u8]) -> bool {
            false
        }
    }
}
