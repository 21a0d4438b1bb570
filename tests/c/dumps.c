/*
 * TABLE_DUMP bodies read and written with odd arguments, and records of them judged and walked. What the calls leave is held to
 * bodies that are written out here.
 *
 *     cc -std=c11 -Wall -Wextra -Werror -Iinclude tests/c/dumps.c libmrt.a -o dumps && ./dumps
 */
#include "help.h"

/* What a body says. Of both addresses an IPv4 body has the first four octets. Its attributes are 1, 2, 3 .. */
typedef struct dump {
    uint16_t subtype, view, sequence;
    uint8_t prefix[16], bits, status;
    uint32_t originated;
    uint8_t peer[16];
    uint32_t asn;
    size_t attributes;
} dump;

/* Each field has octets of its own, so that none can be taken for another. Bits are set after both prefixes. */
static const dump v4 = {
    1, 0x2122, 0x2324, {245, 246, 247, 248, 9, 9, 9, 9, 9, 9, 9, 9, 9, 9, 9, 9}, 17, 0xfe, 0xf1f2f3f4,
    {193, 194, 195, 196, 9, 9, 9, 9, 9, 9, 9, 9, 9, 9, 9, 9}, 0xe1e2, 3,
};
static const dump v6 = {
    2, 0xfffe, 0xfdfc, {33, 34, 35, 36, 37, 38, 39, 40, 41, 42, 43, 44, 45, 46, 47, 48}, 65, 0x99, 0x91929394,
    {129, 130, 131, 132, 133, 134, 135, 136, 137, 138, 139, 140, 141, 142, 143, 144}, 0x5152, 5,
};

static size_t address(const dump *d) { return d->subtype == 1 ? 4 : 16; }

static size_t size(const dump *d) { return 14 + 2 * address(d) + d->attributes; }

static uint8_t *attributes(size_t n) {
    uint8_t *p = block(n);
    for (size_t i = 0; i < n; i++) {
        p[i] = (uint8_t)(i + 1);
    }
    return p;
}

/* These n octets, and where they end. */
static size_t put_octets(uint8_t *to, size_t at, size_t n, const uint8_t *from) {
    if (n) {
        memcpy(to + at, from, n);
    }
    return at + n;
}

/* The body in as many octets as it has. */
static void by_paper(uint8_t *to, const dump *d) {
    const size_t x = address(d);
    uint8_t *octets = attributes(d->attributes);
    size_t at = put_octets(to, put(to, put(to, 0, 2, d->view), 2, d->sequence), x, d->prefix);
    at = put(to, put(to, put(to, at, 1, d->bits), 1, d->status), 4, d->originated);
    at = put(to, put(to, put_octets(to, at, x, d->peer), 2, d->asn), 2, d->attributes);
    put_octets(to, at, d->attributes, octets);
    free(octets);
}

static uint8_t *body_of(const dump *d) {
    uint8_t *body = block(size(d));
    by_paper(body, d);
    return body;
}

/* Sixteen octets stand at the front, x from here and zeros after them, or none where nothing was read; the rest is as it was. */
static int holds_address(const uint8_t *got, size_t n, int was_read, const uint8_t *from, size_t x) {
    for (size_t i = 0; i < n; i++) {
        uint8_t octet = !was_read || 16 <= i ? UNTOUCHED : i < x ? from[i] : 0;
        if (got[i] != octet) {
            return 0;
        }
    }
    return 1;
}

/* One read with so many places and so many octets for each address: what d says, or the refusal. */
static void read_into(const uint8_t *s, size_t n, const dump *d, uint32_t number, size_t len, size_t room, size_t room_of_peer) {
    uint64_t *out = places(len);
    uint8_t *prefix = untouched(room), *peer = untouched(room_of_peer);
    const size_t x = address(d), start = 14 + 2 * x;
    const uint64_t values[8] = {d->view, d->sequence, d->bits, d->status, d->originated, d->asn, start, start + d->attributes};
    const uint32_t want = number ? number : len < MRT_TABLE_DUMP_VALUES || room < 16 || room_of_peer < 16 ? 9 : 0;
    uint32_t got = mrt_read_table_dump(s, n, d->subtype, out, len, prefix, room, peer, room_of_peer);
    expect(got == want, "read", got, want);
    expect(holds(out, len, values, want ? 0 : 8), "the values", n, len);
    expect(holds_address(prefix, room, !want, d->prefix, x), "the prefix", n, room);
    expect(holds_address(peer, room_of_peer, !want, d->peer, x), "the peer", n, room_of_peer);
    free(out);
    free(prefix);
    free(peer);
}

/* The read with each number of places, none to two more than it has values, and of octets for the addresses. */
static void answers(const uint8_t *s, size_t n, const dump *d, uint32_t number) {
    static const size_t rooms[6] = {0, 1, 4, 15, 16, 17};
    for (size_t i = 0; i < (MRT_TABLE_DUMP_VALUES + 3) * 36; i++) {
        read_into(s, n, d, number, i / 36, rooms[i / 6 % 6], rooms[i % 6]);
    }
}

/* The check of a body says the same, whatever the stored length is. */
static void checked(const uint8_t *s, size_t n, const dump *d, uint32_t number) {
    const uint32_t stored[3] = {(uint32_t)n, 0, UINT32_MAX};
    for (size_t i = 0; i < 3; i++) {
        uint32_t got = mrt_check_body(s, n, 12, d->subtype, stored[i]);
        expect(got == number, "the body check", got, number);
    }
}

/* The record of a body is judged as the body is, and no scan takes it up. */
static void judged(const uint8_t *body, size_t n, const dump *d, uint32_t number) {
    uint8_t *s = block(12 + n);
    put_octets(s, put(s, put(s, put(s, put(s, 0, 4, 9), 2, 12), 2, d->subtype), 4, n), n, body);
    const uint64_t values[9] = {0, 9, 12, d->subtype, n, n, 0, 12, 12 + n}, none[MRT_CANDIDATE_VALUES] = {0};
    uint64_t *out = places(10);
    uint32_t got = mrt_judge(s, 12 + n, 0, out, 10);
    expect(got == number && holds(out, 10, values, got ? 0 : 9), "judge", got, number);
    uint64_t *candidate = places(MRT_CANDIDATE_VALUES + 1);
    got = mrt_candidate(s, 12 + n, 0, candidate, MRT_CANDIDATE_VALUES + 1);
    expect(got == 0 && holds(candidate, MRT_CANDIDATE_VALUES + 1, none, MRT_CANDIDATE_VALUES), "candidate", got, n);
    free(s);
    free(out);
    free(candidate);
}

static void held(const uint8_t *s, size_t n, const dump *d, uint32_t number) {
    answers(s, n, d, number);
    checked(s, n, d, number);
    judged(s, n, d, number);
}

/* Each beginning of a body from so many octets on, and the body with an octet too many. */
static void every_length(const dump *d, size_t least) {
    uint8_t *whole = body_of(d);
    for (size_t n = least; n <= size(d) + 1; n++) {
        uint8_t *s = untouched(n);
        put_octets(s, 0, n < size(d) ? n : size(d), whole);
        held(s, n, d, n == size(d) ? 0 : 7);
        free(s);
    }
    free(whole);
}

/* Other subtypes are refused whatever the body: one that would do, and none. */
static void other_subtypes(const dump *d) {
    static const uint16_t others[5] = {0, 3, 257, 258, UINT16_MAX};
    uint8_t *whole = body_of(d);
    for (size_t i = 0; i < 5; i++) {
        dump other = *d;
        other.subtype = others[i];
        held(whole, size(d), &other, 6);
        held(NULL, 0, &other, 6);
    }
    free(whole);
}

/* The address size is the subtype's alone: 46 octets that are a body of either family, with 24 octets of attributes or with none. */
static void either_family(void) {
    dump d = {.subtype = 2, .status = 24};
    uint8_t *s = body_of(&d);
    held(s, 46, &d, 0);
    d = (dump){.subtype = 1, .attributes = 24};
    held(s, 46, &d, 0);
    free(s);
}

static void with_bits(const dump *d, uint8_t bits, uint32_t number) {
    dump other = *d;
    other.bits = bits;
    uint8_t *s = body_of(&other);
    held(s, size(d), &other, number);
    free(s);
}

static void bounds_of_bits(void) {
    for (unsigned bits = 0; bits <= 255; bits++) {
        with_bits(&v4, (uint8_t)bits, bits <= 32 ? 0 : 7);
        with_bits(&v6, (uint8_t)bits, bits <= 128 ? 0 : 7);
    }
}

/* What a writer is lent besides what the body says. */
typedef struct lent {
    size_t room, prefix, peer;
} lent;

/* One write: the body at the front, or the refusal; all else that is lent stays as it was. */
static void written(const dump *d, lent m, uint32_t number) {
    uint8_t *prefix = untouched(m.prefix), *peer = untouched(m.peer), *octets = attributes(d->attributes);
    uint8_t *want = untouched(m.room), *out = untouched(m.room);
    put_octets(prefix, 0, m.prefix < 16 ? m.prefix : 16, d->prefix);
    put_octets(peer, 0, m.peer < 16 ? m.peer : 16, d->peer);
    if (!number) {
        by_paper(want, d);
    }
    mrt_written got = mrt_write_table_dump(out, m.room, d->subtype, d->view, d->sequence, prefix, m.prefix, d->bits, d->status,
                                           d->originated, peer, m.peer, d->asn, octets, d->attributes);
    expect(got.refusal == number, "write", got.refusal, number);
    expect(got.octets == (number ? 0 : size(d)), "octets written", got.octets, size(d));
    expect(same(out, want, m.room), "the output", m.room, number);
    uint8_t *again = attributes(d->attributes);
    expect(same(prefix, d->prefix, m.prefix < 16 ? m.prefix : 16), "the prefix is left", m.prefix, number);
    expect(same(peer, d->peer, m.peer < 16 ? m.peer : 16), "the peer is left", m.peer, number);
    expect(same(octets, again, d->attributes), "the attributes are left", d->attributes, number);
    free(prefix);
    free(peer);
    free(octets);
    free(again);
    free(want);
    free(out);
}

/* With each room from none to two octets too many. */
static void every_room(const dump *d) {
    for (size_t room = 0; room <= size(d) + 2; room++) {
        written(d, (lent){room, 16, 16}, room < size(d) ? 9 : 0);
        written(d, (lent){room, 17, 16}, room < size(d) ? 9 : 0);
        written(d, (lent){room, 16, 17}, room < size(d) ? 9 : 0);
    }
}

/* With each length of the addresses. */
static void every_address(const dump *d) {
    for (size_t i = 0; i < 17 * 17; i++) {
        const lent m = {size(d), i / 17, i % 17};
        written(d, m, m.prefix < 16 || m.peer < 16 ? 8 : 0);
    }
}

/* Everything that can be wrong with a write, in all combinations: 8 before 6, 6 before 10, 10 before 9. */
static void refusals_in_order(const dump *good) {
    for (unsigned wrongs = 0; wrongs < 128; wrongs++) {
        dump d = *good;
        d.subtype = wrongs & 4 ? 3 : good->subtype;
        d.bits = wrongs & 8 ? 129 : good->bits;
        d.asn = wrongs & 16 ? 65536 : good->asn;
        d.attributes = wrongs & 32 ? 65536 : good->attributes;
        const lent m = {wrongs & 64 ? 0 : size(&d), wrongs & 1 ? 15 : 16, wrongs & 2 ? 15 : 16};
        written(&d, m, wrongs & 3 ? 8 : wrongs & 4 ? 6 : wrongs & 56 ? 10 : wrongs & 64 ? 9 : 0);
    }
}

/* With as much room as the body would take. */
static void write_whole(const dump *d, uint32_t number) { written(d, (lent){size(d), 16, 16}, number); }

static void written_bits(const dump *good) {
    for (unsigned bits = 0; bits <= 255; bits++) {
        dump d = *good;
        d.bits = (uint8_t)bits;
        write_whole(&d, bits <= 8 * address(good) ? 0 : 10);
    }
}

static void written_systems(const dump *good) {
    static const uint32_t systems[6] = {0, 65535, 65536, 65537, 0x80000000, UINT32_MAX};
    for (size_t i = 0; i < 6; i++) {
        dump d = *good;
        d.asn = systems[i];
        write_whole(&d, systems[i] <= 65535 ? 0 : 10);
    }
}

static void written_subtypes(const dump *good) {
    static const uint16_t others[5] = {0, 3, 257, 258, UINT16_MAX};
    for (size_t i = 0; i < 5; i++) {
        dump d = *good;
        d.subtype = others[i];
        write_whole(&d, 6);
    }
}

static void written_attributes(const dump *good) {
    dump d = *good;
    d.attributes = 65536;
    write_whole(&d, 10);
    written(&d, (lent){size(&d) - 1, 16, 16}, 10);
    d.attributes = 65535;
    write_whole(&d, 0);
    written(&d, (lent){size(&d) - 1, 16, 16}, 9);
    written(&d, (lent){size(&d) + 1, 16, 16}, 0);
}

static void nothing_at_all(void) {
    const uint8_t zeros[16] = {0};
    expect(mrt_read_table_dump(NULL, 0, 0, NULL, 0, NULL, 0, NULL, 0) == 6, "read nothing, of no subtype", 0, 0);
    expect(mrt_read_table_dump(NULL, 0, 1, NULL, 0, NULL, 0, NULL, 0) == 7, "read nothing", 0, 0);
    mrt_written got = mrt_write_table_dump(NULL, 0, 1, 0, 0, NULL, 0, 0, 0, 0, NULL, 0, 0, NULL, 0);
    expect(got.refusal == 8 && got.octets == 0, "write nothing", got.refusal, got.octets);
    got = mrt_write_table_dump(NULL, 0, 1, 0, 0, zeros, 16, 0, 0, 0, zeros, 16, 0, NULL, 0);
    expect(got.refusal == 9 && got.octets == 0, "write into nothing", got.refusal, got.octets);
}

/* Numbers that look random and are the same in every run. */
static uint64_t seed = 1;

static uint64_t below(uint64_t n) {
    seed ^= seed << 13;
    seed ^= seed >> 7;
    seed ^= seed << 17;
    return seed % n;
}

static dump some_dump(void) {
    dump d = {.subtype = (uint16_t)(1 + below(2)), .view = (uint16_t)below(65536), .sequence = (uint16_t)below(65536)};
    for (size_t i = 0; i < 16; i++) {
        d.prefix[i] = (uint8_t)below(256);
        d.peer[i] = (uint8_t)below(256);
    }
    d.bits = (uint8_t)below(8 * address(&d) + 1);
    d.status = (uint8_t)below(256);
    d.originated = (uint32_t)below((uint64_t)UINT32_MAX + 1);
    d.asn = (uint32_t)below(65536);
    d.attributes = below(200);
    return d;
}

/* What is written is read back, and written from what was read it is the same octets. */
static void there_and_back(void) {
    for (size_t turn = 0; turn < 2000; turn++) {
        const dump d = some_dump();
        const size_t n = size(&d);
        uint8_t *s = body_of(&d), *out = untouched(n);
        uint64_t v[8];
        uint8_t prefix[16], peer[16];
        write_whole(&d, 0);
        read_into(s, n, &d, 0, 8, 16, 16);
        mrt_read_table_dump(s, n, d.subtype, v, 8, prefix, 16, peer, 16);
        mrt_written got = mrt_write_table_dump(out, n, d.subtype, (uint16_t)v[0], (uint16_t)v[1], prefix, 16, (uint8_t)v[2],
                                               (uint8_t)v[3], (uint32_t)v[4], peer, 16, (uint32_t)v[5], s + v[6], v[7] - v[6]);
        expect(got.refusal == 0 && got.octets == n && same(out, s, n), "there and back", got.refusal, turn);
        free(s);
        free(out);
    }
}

/* A record after `at` octets of the output, header and body by the library's own writers, and where it ends. */
static size_t write_record(uint8_t *out, size_t at, size_t room, const dump *d) {
    uint8_t *octets = attributes(d->attributes);
    mrt_written header = mrt_write_header(out + at, room - at, 9, 12, d->subtype, (uint32_t)size(d), 0);
    at += header.octets;
    mrt_written body = mrt_write_table_dump(out + at, room - at, d->subtype, d->view, d->sequence, d->prefix, 16, d->bits, d->status,
                                            d->originated, d->peer, 16, d->asn, octets, d->attributes);
    expect(header.octets == 12 && header.refusal == 0 && body.octets == size(d) && body.refusal == 0, "a record", at, room);
    free(octets);
    return at + body.octets;
}

/* The next answer of a walk with a window of 1,000 and three confirmations. */
static void next_is(const char *what, const uint8_t *s, size_t n, uint64_t *walk, const uint64_t *values, size_t count) {
    uint64_t *out = places(MRT_NEXT_VALUES);
    uint32_t got = mrt_next(s, n, walk, 2, 1000, 3, out, MRT_NEXT_VALUES);
    expect(got == 0 && holds(out, MRT_NEXT_VALUES, values, count), what, got, walk[0]);
    free(out);
}

/* Records one after another, and the rows that a walk hands out for them. */
static size_t stream_of(uint8_t *s, size_t room, const dump *all, size_t count, uint64_t *rows) {
    size_t n = 0;
    for (size_t i = 0; i < count; i++) {
        const uint64_t start = n;
        n = write_record(s, n, room, all + i);
        const uint64_t row[10] = {1, start, 9, 12, all[i].subtype, size(all + i), size(all + i), 0, start + 12, n};
        memcpy(rows + 10 * i, row, sizeof row);
    }
    return n;
}

/* Records of both families are handed out, one by one and many by one call. */
static void walked(const dump *all, size_t count) {
    uint8_t s[1000];
    uint64_t *rows = places(10 * count), *out = places(10 * count + 1), walk[2] = {0, 0}, many[2] = {0, 0};
    const size_t n = stream_of(s, sizeof s, all, count, rows);
    for (size_t i = 0; i < count; i++) {
        next_is("a record", s, n, walk, rows + 10 * i, 10);
        read_into(s + rows[10 * i + 8], size(all + i), all + i, 0, 8, 16, 16);
    }
    mrt_handed got = mrt_records(s, n, many, 2, out, 10 * count + 1);
    expect(got.refusal == 0 && got.count == count && many[0] == n, "records", got.count, many[0]);
    expect(holds(out, 10 * count + 1, rows, 10 * count), "rows", n, count);
    free(out);
    free(rows);
}

/*
 * Three records after one that is refused confirm its own end. After octets that are no record they do not: the scan goes on past
 * them, to three records that it may take up or to the stream's end.
 */
static void recovered(const dump *d) {
    const dump all[3] = {*d, *d, *d};
    const uint8_t change[32] = {0, 0, 0, 9, 0, 16, 0, 0, 0, 0, 0, 20, 0, 1, 0, 2, 0, 0, 0, 1};
    const uint8_t refused[12] = {0, 0, 0, 9, 0, 12, 0, 3, 0, 0, 0, 0};
    uint8_t s[500];
    uint64_t walk[2] = {0, 0}, rows[30];
    const size_t n = 12 + stream_of(s + 12, sizeof s - 12, all, 3, rows);
    const uint64_t own_end[6] = {2, 0, 12, 6, 4, 3}, to_the_end[6] = {2, 0, n, 2, 5, 0}, past[6] = {2, 0, n, 2, 3, 3};
    put_octets(s, 0, 12, refused);
    next_is("own end", s, n, walk, own_end, 6);
    memset(s, 255, 12);
    walk[0] = 0;
    next_is("no candidate", s, n, walk, to_the_end, 6);
    put_octets(s, put_octets(s, put_octets(s, n, 32, change), 32, change), 32, change);
    walk[0] = 0;
    next_is("past them", s, n + 96, walk, past, 6);
}

static void reads(const dump *d) {
    dump most = *d;
    most.attributes = 65535;
    every_length(d, 0);
    every_length(&most, size(&most) - 1);
    other_subtypes(d);
}

static void writes(const dump *d) {
    every_room(d);
    every_address(d);
    refusals_in_order(d);
    written_bits(d);
    written_systems(d);
    written_subtypes(d);
    written_attributes(d);
}

int main(void) {
    const dump none[2] = {{.subtype = 1}, {.subtype = 2}};
    const dump all[5] = {v4, v6, none[0], none[1], v4};
    for (size_t i = 0; i < 4; i++) {
        reads(all + i);
        writes(all + i);
        recovered(all + i);
    }
    either_family();
    bounds_of_bits();
    nothing_at_all();
    there_and_back();
    walked(all, 5);
    return result();
}
