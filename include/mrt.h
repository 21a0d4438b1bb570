/*
 * MRT dumps (RFC 6396, RFC 8050): headers, records, peer tables, RIB bodies, TABLE_DUMP bodies and the recovering walk.
 *
 * Each slice is passed as its pointer and its length in elements. A length of 0 may come with any pointer, NULL too.
 * Of a caller this is asked, which no call can test: the elements are there, aligned for their type; memory that a call
 * writes overlaps no other memory that it is lent; and nobody else writes to either during the call. Every value, length
 * and offset is accepted. No call keeps a pointer, allocates, or fails otherwise than by its result.
 *
 * A call that returns uint32_t returns 0 where it has served, or a refusal's number:
 *
 *    1  the header runs past the stream          7  the body check is not met
 *    2  the type is unknown                      8  an index, offset, count or length beyond what exists
 *    3  type 17, 33, 49: wire length under 4     9  too few places or too little output room
 *    4  the body runs past the stream           10  a value does not fit its field
 *    5  the type is not carried                 11  the scan's window is exhausted
 *    6  the subtype is not carried
 *
 * Values are left at the front of `out`, in the order that is given here; places after them keep what they had. A refusal
 * leaves all lent memory as it was. Too few places are 9, after every other refusal of the call. The one exception is
 * mrt_next, which says so.
 */
#ifndef MRT_H
#define MRT_H

#include <stddef.h>
#include <stdint.h>

/*
 * The number of this interface. It goes up whenever a call's values or their meaning change, and the Rust crate's minor version
 * is the same. 2 after 1: mrt_candidate leaves three values and no family, and evidence 1 is no longer given.
 */
#define MRT_INTERFACE 2

#ifdef __cplusplus
extern "C" {
#endif

/* How many values each call leaves. */
#define MRT_HEADER_VALUES 6
#define MRT_FRAME_VALUES 8
#define MRT_JUDGE_VALUES 9
#define MRT_WALK_VALUES 2
#define MRT_NEXT_VALUES 10
#define MRT_PEERS_VALUES 6
#define MRT_RIB_VALUES 5
#define MRT_PREFIX_OCTETS 16
#define MRT_ENTRY_VALUES 5
#define MRT_FIRST_VALUES 2
#define MRT_STEP_VALUES 8
#define MRT_BUILDER_VALUES 3
#define MRT_TABLE_DUMP_VALUES 8
#define MRT_CANDIDATE_VALUES 3
#define MRT_COUNTERS_VALUES 4
#define MRT_MISSING_VALUES 3

/* The kinds of a walk's answer. */
#define MRT_RECORD 1
#define MRT_GAP 2
#define MRT_END 3
#define MRT_WINDOW 4

/* What a writer returns: a refusal's number or 0, and how many octets it has written, 0 where it has refused. */
typedef struct mrt_written {
    uint64_t octets;
    uint32_t refusal;
} mrt_written;

/* What a call for many rows of values returns: a refusal's number or 0, and how many rows it served, 0 where it has refused. */
typedef struct mrt_handed {
    uint64_t count;
    uint32_t refusal;
} mrt_handed;

/* What a lookup and an addition return: a refusal's number or 0, and the id of a peer, 0 where they have refused. */
typedef struct mrt_found {
    uint32_t refusal;
    uint32_t id;
} mrt_found;

/*
 * A peer, as the slots hold it, in 28 octets, of which the three after `type` mean nothing. Bit value 1 of `type` means an IPv6
 * address, value 2 an AS of four octets. A four-octet address is the first four of `addr`.
 */
typedef struct mrt_peer {
    uint8_t type;
    uint32_t id;
    uint8_t addr[16];
    uint32_t asn;
} mrt_peer;

/*
 * The header at the offset `at` of the stream `s`. Types 17, 33 and 49 have four octets of microseconds, which their wire length
 * counts and their stored length does not: 3 is a wire length under 4, and the second 1 a header that is cut before them.
 * Values: timestamp, type, subtype, wire length, stored length, microseconds (0 for any other type). Refusals: 8, 1, 2, 3, 1, 9.
 */
uint32_t mrt_read_header(const uint8_t *s, size_t s_len, size_t at, uint64_t *out, size_t out_len);

/*
 * The record at an offset, framed.
 * Values: those of the header, where the body starts, where it ends. Refusals: 8, 1, 2, 3, 1, 4, 9.
 */
uint32_t mrt_frame(const uint8_t *s, size_t s_len, size_t at, uint64_t *out, size_t out_len);

/*
 * The record at an offset, framed and put to its body check.
 * Values: where the record starts, then those of the frame. Refusals: 8, 1, 2, 3, 1, 4, 5, 6, 7, 9.
 */
uint32_t mrt_judge(const uint8_t *s, size_t s_len, size_t at, uint64_t *out, size_t out_len);

/*
 * Writes a header at the front of `out`: 16 octets for types 17, 33 and 49 and 12 for any other. `stored` is the length of the body
 * alone. Refusals: 2, 10, 9; 10 is `micros` other than 0 for any other type, or of those three a `stored` above 4294967291.
 */
mrt_written mrt_write_header(uint8_t *out, size_t out_len, uint32_t timestamp, uint16_t type, uint16_t subtype, uint32_t stored,
                             uint32_t micros);

/*
 * The next answer of a walk over the stream `s`. `walk` has two places: the position, and 1 where the walk is finished or 0
 * where it is not; a fresh walk has 0 and 0. A scan looks at no more than `window` distances and leaves where `asked` records
 * of those that mrt_candidate accepts stand in a row (0 counts as 1).
 * Values: 1 (a record), its start, then those of the frame;
 *         2 (a gap), its start, its end, the refusal's number, the evidence (2 marker, 3 state change, 4 the record's own end,
 *           5 the stream's end; 1 is reserved and never given), how many records confirm it;
 *         3 (the end), the walk's position;
 *         4 (an exhausted window), where the scan started, the window, the number of the record there.
 * Refusals: 8 where `walk` has fewer than two places, a second place above 1 or a position beyond the stream, then 9 where
 * `out` has fewer than ten places: both leave everything as it was, so that no answer is lost. 11 leaves its values (4 ..),
 * and the walk is finished.
 */
uint32_t mrt_next(const uint8_t *s, size_t s_len, uint64_t *walk, size_t walk_len, size_t window, uint8_t asked, uint64_t *out,
                  size_t out_len);

/*
 * Records from a walk's position on, one after another, as long as each passes all checks and `out` has ten places for it: many
 * answers of mrt_next by one call, each with the values that mrt_next leaves. The walk is moved past them. Where fewer records
 * come than there are places for, mrt_next says what stands after them; of a finished walk none come.
 * Refusals: those of mrt_next, 8 and 9, which leave everything as it was.
 */
mrt_handed mrt_records(const uint8_t *s, size_t s_len, uint64_t *walk, size_t walk_len, uint64_t *out, size_t out_len);

/*
 * How many rows are missing between a record and the last one of its type before it, by their sequence numbers. To be called for
 * each record that a walk hands out, in order; gaps need no call. `counters` has four places: 1 where a RIB record of type 13 was
 * counted and 0 where none was, its sequence number, and the same two of type 12; fresh ones have four times 0. They are the
 * caller's, to be kept from one stream to the next.
 * Counted are type 13 of subtypes 2 to 5 and 8 to 11, and type 12 of any subtype, where the body has at least four octets. A peer
 * table (type 13, subtype 1) clears all four places. Any other record leaves them.
 * The later number minus the earlier one, minus 1, turns over at 2^32 for type 13 and at 2^16 for type 12: a number that has fallen
 * by n gives 2^32 - n - 1 or 2^16 - n - 1, since nothing tells a fall from a turn.
 * Values: 1, how many rows are missing, 1 where the number is the same again (and none are missing) or 0; or three times 0 where
 * there is nothing to tell. Refusals: 8 (fewer than four counter places, a mark above 1, a number above 4,294,967,295 of type 13 or
 * above 65,535 of type 12), 9.
 */
uint32_t mrt_missing(const uint8_t *body, size_t body_len, uint16_t type, uint16_t subtype, uint64_t *counters, size_t counters_len,
                     uint64_t *out, size_t out_len);

/*
 * The head of a PEER_INDEX_TABLE whose body holds every declared peer.
 * Values: collector id, where the view name starts in the body, its octets, how many peers there are, where the first one
 * starts, where the last one ends. Refusals: 7, 9.
 */
uint32_t mrt_check_peers(const uint8_t *body, size_t body_len, uint64_t *out, size_t out_len);

/*
 * The peers of a PEER_INDEX_TABLE in the first slots, one each, zeros after a four-octet address; later slots keep what they
 * had. mrt_check_peers says how many there are. Refusals: 7, 9 (too few slots).
 */
uint32_t mrt_load_peers(const uint8_t *body, size_t body_len, mrt_peer *slots, size_t slots_len);

/*
 * The highest id among the first `count` slots that holds an address. Of `type` bit value 1 counts alone, of `addr` the first
 * sixteen octets, or four where the type says IPv4. Refusals: 8 where `addr` has fewer than 16 octets, where `count` is above the
 * slots or above 65,535, and where no slot holds the address.
 */
mrt_found mrt_find_peer(const mrt_peer *slots, size_t slots_len, size_t count, uint8_t type, const uint8_t *addr,
                        size_t addr_len);

/*
 * Adds a peer to the first `count` slots. A known address gives its id, below the count, and changes nothing. Any other gives the
 * count: the peer is in that slot, zeros after a four-octet address, and the count is the caller's to raise.
 * Refusals: 8 where `addr` has fewer than 16 octets and where `count` is above the slots or above 65,535, then, for an address
 * that is not known, 10 at 65,535 peers and 9 where no slot is left.
 */
mrt_found mrt_add_peer(mrt_peer *slots, size_t slots_len, size_t count, uint8_t type, uint32_t id, const uint8_t *addr,
                       size_t addr_len, uint32_t asn);

/*
 * Writes the body of a PEER_INDEX_TABLE at the front of `out`: the collector id, the view name and the first `count` slots.
 * Refusals: 8 where `count` is above the slots or above 65,535, 10 where the view name has more than 65,535 octets or an AS above
 * 65,535 has two octets, 9.
 */
mrt_written mrt_write_peers(uint8_t *out, size_t out_len, uint32_t collector, const uint8_t *view, size_t view_len,
                            const mrt_peer *slots, size_t slots_len, size_t count);

/*
 * The head of a RIB body; the prefix goes into the first 16 octets of `prefix`, the bits after it cleared.
 * Values: sequence number, prefix bits, declared count, read count, where the entries start in the body.
 * Refusals: 6, 7, 9 (fewer than five places or 16 octets).
 */
uint32_t mrt_read_rib(const uint8_t *body, size_t body_len, uint16_t subtype, uint64_t *out, size_t out_len, uint8_t *prefix,
                      size_t prefix_len);

/*
 * The entry `i` of a RIB body.
 * Values: peer index, originated time, path number (0 where the subtype has none), where the attributes start in the body,
 * where they end. Refusals: 6, 7, 8 (at or beyond the read count), 9.
 */
uint32_t mrt_rib_entry(const uint8_t *body, size_t body_len, uint16_t subtype, size_t i, uint64_t *out, size_t out_len);

/*
 * The cursor at the first entry of a RIB body.
 * Values: where the entry starts in the body, how many are left by the declared count. Refusals: 6, 7, 9.
 */
uint32_t mrt_rib_first(const uint8_t *body, size_t body_len, uint16_t subtype, uint64_t *out, size_t out_len);

/*
 * The entry at a cursor, and the cursor after it. The head is not looked at.
 * Values: 1, those of the entry, where the next one starts, how many are left; or eight times 0 where none is left or the
 * next one does not fit. Refusals: 8 (an offset beyond the body), 6, 9.
 */
uint32_t mrt_rib_next(const uint8_t *body, size_t body_len, uint16_t subtype, size_t at, uint16_t left, uint64_t *out,
                      size_t out_len);

/*
 * Entries from a cursor on, one after another, as long as there are any and `out` has five places for each: many answers of
 * mrt_rib_next by one call, each with the values of mrt_rib_entry. `cursor` has the two values of mrt_rib_first and is moved past
 * them. Where fewer entries come than there are places for, reading has stopped.
 * Refusals: 8 (fewer than two places, more than 65,535 left, or an offset beyond the body), 6, 9 (fewer than five places), which
 * leave everything as it was.
 */
mrt_handed mrt_rib_entries(const uint8_t *body, size_t body_len, uint16_t subtype, uint64_t *cursor, size_t cursor_len, uint64_t *out,
                           size_t out_len);

/*
 * Begins a RIB body with no entry at the front of `out`. `prefix` has 16 octets, of which the first that hold `bits` bits are
 * written; the bits after them are cleared. Refusals: 8 (a prefix of fewer octets), 6, 10 (too many bits), 9.
 */
mrt_written mrt_begin_rib(uint8_t *out, size_t out_len, uint16_t subtype, uint32_t sequence, uint8_t bits, const uint8_t *prefix,
                          size_t prefix_len);

/*
 * Adds an entry to the body in the first `len` octets of `out`, straight after it, and raises its count. `path` is 0 where the
 * subtype has no path number. The octets of the answer are the length of the body after it. All earlier entries are passed
 * over: for many entries, open a builder and push. Refusals: 8, 6, 7 (a body that is not whole), 10, 9.
 */
mrt_written mrt_add_entry(uint8_t *out, size_t out_len, size_t len, uint16_t subtype, uint16_t peer, uint32_t originated,
                          uint32_t path, const uint8_t *attributes, size_t attributes_len);

/*
 * A builder at the end of a body that has every declared entry and nothing after them.
 * Values: where the body ends, where its entry count stands, that count. Refusals: 6, 7, 9.
 */
uint32_t mrt_open_rib(const uint8_t *body, size_t body_len, uint16_t subtype, uint64_t *out, size_t out_len);

/*
 * Writes an entry where a builder stands, raises the count, and moves the builder, which is lent as the three values of
 * mrt_open_rib. The entries before it are not looked at. Refusals: 8 (fewer than three places, a count above 65,535, a builder
 * beyond `out`), 6, 7 (in front of it no head can be read, or the count stands elsewhere or is another), 10, 9; each leaves `out`
 * and the builder.
 */
uint32_t mrt_push_entry(uint8_t *out, size_t out_len, uint16_t subtype, uint64_t *builder, size_t builder_len, uint16_t peer,
                        uint32_t originated, uint32_t path, const uint8_t *attributes, size_t attributes_len);

/*
 * Writes entries where a builder stands, one after another, as long as mrt_push_entry would accept each: many pushes by one call.
 * `rows` has five values for each entry, as mrt_rib_entries hands them out: peer index, originated time, path number, where its
 * attributes start in `attributes`, where they end. `rows_len` counts values. The builder is moved past the entries. Where fewer go
 * in than were given, mrt_push_entry says of the next one why; a row that it cannot be asked about stops them too (a peer index
 * above 65,535, a time or path number above 4,294,967,295, a start after the end, an end beyond `attributes`).
 * Refusals: 8 (fewer than three builder places, a count above 65,535, rows that are no whole number of rows, a builder beyond
 * `out`), 6, 7 (as for mrt_push_entry), which leave everything as it was.
 */
mrt_handed mrt_push_entries(uint8_t *out, size_t out_len, uint16_t subtype, uint64_t *builder, size_t builder_len,
                            const uint64_t *rows, size_t rows_len, const uint8_t *attributes, size_t attributes_len);

/*
 * The body of a TABLE_DUMP record, IPv4 for subtype 1 and IPv6 for 2. The prefix goes into the first 16 octets of `prefix` as it
 * stands, bits after it too, and the peer's address into those of `peer`; zeros come after four octets.
 * Values: view number, sequence number, prefix bits, status, originated time, peer AS, where the attributes start in the body,
 * where they end. Refusals: 6, 7, 9 (fewer than eight places, or fewer than 16 octets in `prefix` or `peer`).
 */
uint32_t mrt_read_table_dump(const uint8_t *body, size_t body_len, uint16_t subtype, uint64_t *out, size_t out_len, uint8_t *prefix,
                             size_t prefix_len, uint8_t *peer, size_t peer_len);

/*
 * Writes the body of a TABLE_DUMP record at the front of `out`. `prefix` and `peer` have 16 octets, of which the first four are
 * written for subtype 1 and all for 2, as they stand.
 * Refusals: 8 (a prefix or a peer of fewer octets), 6, 10 (more prefix bits than an address has, an AS above 65,535, or more than
 * 65,535 octets of attributes), 9.
 */
mrt_written mrt_write_table_dump(uint8_t *out, size_t out_len, uint16_t subtype, uint16_t view, uint16_t sequence,
                                 const uint8_t *prefix, size_t prefix_len, uint8_t bits, uint8_t status, uint32_t originated,
                                 const uint8_t *peer, size_t peer_len, uint32_t asn, const uint8_t *attributes,
                                 size_t attributes_len);

/* The record's timestamp minus the originated time, in seconds: below zero where the route is later than the record. */
int64_t mrt_age(uint32_t timestamp, uint32_t originated);

/*
 * Whether a scan may take up the record at an offset: one of type 16 or 17 that passes all checks, with microseconds below
 * 1,000,000. Records of other types are passed over.
 * Values: 1, the evidence (2 marker, 3 state change), where the record ends; or three times 0 where it may not.
 * Refusals: 8 (an offset beyond the stream), 9.
 */
uint32_t mrt_candidate(const uint8_t *s, size_t s_len, size_t at, uint64_t *out, size_t out_len);

/*
 * The check of a body by the type, subtype and stored length of its record. Returns 0, 2 for a type that is not known, 5 for
 * one that is not carried (any but 5, 12, 13, 16 and 17), 6 or 7. Of type 5 the octets are not looked at.
 */
uint32_t mrt_check_body(const uint8_t *body, size_t body_len, uint16_t type, uint16_t subtype, uint32_t stored);

#ifdef __cplusplus
}
#endif

#endif
