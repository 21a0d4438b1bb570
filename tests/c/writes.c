/*
 * Calls every export that writes octets with odd arguments and holds answer and memory to what include/mrt.h says.
 *
 *     cc -std=c11 -Wall -Wextra -Werror -Iinclude tests/c/writes.c libmrt.a -o writes && ./writes
 */
#include "help.h"

/* The answer of a writer that was lent `len` octets and should have left `want` in them: `size` octets, or a refusal. */
static void wrote(const char *what, mrt_written got, const uint8_t *out, const uint8_t *want, size_t len, size_t size,
                  uint32_t number) {
    expect(got.refusal == number, what, got.refusal, number);
    expect(got.octets == (number ? 0 : size), what, got.octets, size);
    expect(same(out, want, len), what, len, size);
}

/* One header with each room up to one octet too much. */
static void header_written(uint32_t time, uint16_t type, uint16_t subtype, uint32_t stored, uint32_t micros, uint32_t number) {
    size_t size = timed(type) ? 16 : 12;
    for (size_t len = 0; len <= 17; len++) {
        uint8_t *out = untouched(len), want[17];
        memset(want, UNTOUCHED, sizeof want);
        uint32_t returned = number ? number : len < size ? 9 : 0;
        if (!returned) {
            put(want, 0, 4, time);
            put(want, 4, 2, type);
            put(want, 6, 2, subtype);
            put(want, 8, 4, stored + (size - 12));
            put(want, 12, size - 12, micros);
        }
        wrote("header", mrt_write_header(out, len, time, type, subtype, stored, micros), out, want, len, size, returned);
        free(out);
    }
}

static void headers_written(void) {
    for (uint32_t type = 0; type <= 60; type++) {
        header_written(1, (uint16_t)type, 2, 3, 0, known(type) ? 0 : 2);
        header_written(1, (uint16_t)type, 2, 3, 1, !known(type) ? 2 : timed(type) ? 0 : 10);
    }
    header_written(UINT32_MAX, 16, UINT16_MAX, UINT32_MAX, 0, 0);
    for (uint16_t type = 17; type <= 49; type += 16) {
        header_written(UINT32_MAX, type, UINT16_MAX, 4294967291u, UINT32_MAX, 0);
        header_written(0, type, 0, 4294967292u, 0, 10);
        header_written(0, type, 0, UINT32_MAX, UINT32_MAX, 10);
    }
    header_written(UINT32_MAX, UINT16_MAX, UINT16_MAX, UINT32_MAX, UINT32_MAX, 2);
}

/* The most prefix bits of a subtype; 0 where it is not carried. */
static unsigned most_bits(uint16_t subtype) {
    switch (subtype) {
    case 2: case 3: case 8: case 9: return 32;
    case 4: case 5: case 10: case 11: return 128;
    default: return 0;
    }
}

/* A body with no entry, with each room up to one octet too much, and a prefix of 16 octets or one fewer. */
static void begun(uint16_t subtype, uint8_t bits) {
    const size_t size = 7 + (bits + 7u) / 8;
    for (size_t given = 15; given <= 17; given++) {
        uint8_t *prefix = block(given);
        memset(prefix, 255, given);
        for (size_t len = 0; len <= size + 1; len++) {
            uint8_t *out = untouched(len), *want = untouched(len);
            unsigned most = most_bits(subtype);
            uint32_t number = given < 16 ? 8 : !most ? 6 : most < bits ? 10 : len < size ? 9 : 0;
            if (!number) {
                put(want, 0, 4, 0xfffefdfc);
                want[4] = bits;
                for (size_t i = 0; i < size - 7; i++) {
                    want[5 + i] = i < bits / 8u ? 255 : (uint8_t)(0xff00u >> (bits % 8));
                }
                put(want, size - 2, 2, 0);
            }
            wrote("begin", mrt_begin_rib(out, len, subtype, 0xfffefdfc, bits, prefix, given), out, want, len, size, number);
            free(out);
            free(want);
        }
        free(prefix);
    }
}

static void bodies_begun(void) {
    const uint8_t bits[] = {0, 1, 7, 8, 9, 31, 32, 33, 127, 128, 129, 255};
    for (uint16_t subtype = 0; subtype <= 13; subtype++) {
        for (size_t i = 0; i < sizeof bits; i++) {
            begun(subtype, bits[i]);
        }
    }
    begun(UINT16_MAX, 0);
    mrt_written got = mrt_begin_rib(NULL, 0, 2, 0, 0, NULL, 0);
    expect(got.refusal == 8 && got.octets == 0, "begin with nothing", got.refusal, got.octets);
}

/* An entry with the attributes 1, 2, 3 .. after a body of 8 octets: prefix bits 1, and the entry count. */
static size_t with_entry(uint8_t *body, uint16_t subtype, uint32_t path, size_t attributes) {
    size_t at = put(body, 0, 4, 7);
    at = put(body, at, 2, 0x0180);
    at = put(body, at, 2, 1);
    at = put(body, at, 2, 65535);
    at = put(body, at, 4, UINT32_MAX);
    at = put(body, at, subtype < 8 ? 0 : 4, path);
    at = put(body, at, 2, attributes);
    for (size_t i = 0; i < attributes; i++) {
        body[at++] = (uint8_t)(i + 1);
    }
    return at;
}

/* The same entry added, and pushed by a builder: the same octets, the same refusals. */
static void entry_written(uint16_t subtype, size_t room, size_t len, uint32_t path, size_t attributes, uint32_t number) {
    uint8_t *want = untouched(room + 32 + attributes), *added = untouched(room), *pushed = untouched(room);
    uint8_t *octets = block(attributes), start[8];
    size_t end = with_entry(want, subtype, path, attributes);
    memcpy(start, want, 8);
    put(start, 6, 2, 0);
    memcpy(want, start, 8);
    memcpy(added, want, room < 8 ? room : 8);
    memcpy(pushed, want, room < 8 ? room : 8);
    if (attributes) {
        memcpy(octets, want + end - attributes, attributes);
    }
    memset(want + 8, UNTOUCHED, end - 8);
    if (!number) {
        with_entry(want, subtype, path, attributes);
    }
    mrt_written got = mrt_add_entry(added, room, len, subtype, 65535, UINT32_MAX, path, octets, attributes);
    wrote("add", got, added, want, room, end, number);
    uint64_t builder[3] = {len, 6, 0}, after[3] = {number ? len : end, 6, number ? 0 : 1};
    uint32_t answer = mrt_push_entry(pushed, room, subtype, builder, 3, 65535, UINT32_MAX, path, octets, attributes);
    expect(answer == number, "push", answer, number);
    expect(same(pushed, want, room), "octets pushed", room, end);
    expect(same(builder, after, sizeof after), "the builder after a push", builder[0], builder[2]);
    free(want);
    free(added);
    free(pushed);
    free(octets);
}

static void entries_written(void) {
    for (size_t attributes = 0; attributes <= 3; attributes++) {
        const size_t plain = 16 + attributes, pathed = 20 + attributes;
        for (size_t over = 0; over <= 2; over++) {
            entry_written(2, plain - 1 + over, 8, 0, attributes, over ? 0 : 9);
            entry_written(8, pathed - 1 + over, 8, UINT32_MAX, attributes, over ? 0 : 9);
        }
        entry_written(4, plain, 8, 1, attributes, 10);
        entry_written(4, plain - 1, 8, 1, attributes, 10);
        entry_written(6, plain, 8, 1, attributes, 6);
        entry_written(UINT16_MAX, 8, 8, 1, attributes, 6);
        entry_written(2, 8, 9, 0, attributes, 8);
        entry_written(6, 8, SIZE_MAX, 1, attributes, 8);
    }
    entry_written(2, 16 + 65535, 8, 0, 65535, 0);
    entry_written(2, 15 + 65535, 8, 0, 65535, 9);
    entry_written(2, 16 + 65536, 8, 0, 65536, 10);
}

/* Bodies that are not whole. */
static void not_whole(void) {
    uint8_t body[24];
    memset(body, 0, sizeof body);
    const size_t end = with_entry(body, 2, 0, 1);
    uint64_t *out = places(4);
    const uint64_t opened[3] = {end, 6, 1};
    for (size_t len = 0; len <= end + 1; len++) {
        uint8_t *part = copy(body, len);
        uint32_t number = mrt_open_rib(part, len, 2, out, 4);
        expect(number == (len == end ? 0 : 7), "open", len, number);
        expect(holds(out, 4, opened, number ? 0 : 3), "the values of a builder", len, number);
        mrt_written got = mrt_add_entry(part, len, len, 2, 0, 0, 0, NULL, 0);
        expect(got.refusal == (len == end ? 9 : 7) && got.octets == 0, "add to a part", len, got.refusal);
        expect(same(part, body, len), "a part is left", len, 0);
        for (size_t i = 0; i < 4; i++) {
            out[i] = FILL;
        }
        free(part);
    }
    expect(mrt_open_rib(body, end, 2, out, 2) == 9 && holds(out, 4, opened, 0), "open with two places", 0, 0);
    expect(mrt_open_rib(body, end, 6, out, 4) == 6 && holds(out, 4, opened, 0), "open 6", 0, 0);
    expect(mrt_open_rib(NULL, 0, 2, NULL, 0) == 7, "open nothing", 0, 0);
    free(out);
}

/* Places that hold no builder of what stands in the output: each refusal leaves both. */
static void no_builder(uint8_t *out, size_t n, uint16_t subtype, uint64_t len, uint64_t at, uint64_t count, uint32_t number) {
    uint8_t *before = copy(out, n);
    uint64_t builder[3] = {len, at, count};
    uint32_t got = mrt_push_entry(out, n, subtype, builder, 3, 0, 0, 0, NULL, 0);
    expect(got == number, "no such builder", got, number);
    expect(same(out, before, n) && builder[0] == len && builder[1] == at && builder[2] == count, "no builder is left", len, at);
    free(before);
}

static void no_builders(void) {
    uint8_t body[25], zeros[10] = {0};
    memset(body, 0, sizeof body);
    const size_t end = with_entry(body, 2, 0, 1);
    const uint64_t counts[2] = {65536, UINT64_MAX}, lengths[3] = {sizeof body + 1, UINT32_MAX, UINT64_MAX};
    for (size_t i = 0; i < 2; i++) {
        no_builder(body, sizeof body, 2, end, 6, counts[i], 8);
        no_builder(body, sizeof body, 6, 0, 0, counts[i], 8);
    }
    for (size_t i = 0; i < 3; i++) {
        no_builder(body, sizeof body, 2, lengths[i], 6, 1, 8);
        no_builder(body, sizeof body, 6, lengths[i], 6, 1, 8);
    }
    no_builder(body, sizeof body, 6, end, 5, 0, 6);
    const uint64_t places_of_count[5] = {0, 5, 7, end - 2, UINT64_MAX};
    for (size_t i = 0; i < 5; i++) {
        no_builder(body, sizeof body, 2, end, places_of_count[i], 1, 7);
    }
    no_builder(body, sizeof body, 2, end, 6, 0, 7);
    no_builder(body, sizeof body, 2, end, 6, 2, 7);
    no_builder(body, sizeof body, 2, end, 6, 65535, 7);
    for (size_t len = 0; len < 8; len++) {
        no_builder(body, sizeof body, 2, len, 6, 1, 7);
    }
    body[4] = 33;
    no_builder(body, sizeof body, 2, end, 10, 0, 7);
    no_builder(zeros, sizeof zeros, 2, 2, 0, 0, 7);
    no_builder(zeros, sizeof zeros, 2, 10, 0, 0, 7);
    uint64_t builder[3] = {7, 5, 0};
    expect(mrt_push_entry(zeros, sizeof zeros, 2, builder, 3, 0, 0, 0, NULL, 0) == 9, "a builder of zeros", 0, 0);
    expect(mrt_push_entry(zeros, sizeof zeros, 2, builder, 2, 0, 0, 0, NULL, 0) == 8, "two places for a builder", 0, 0);
    expect(mrt_push_entry(NULL, 0, 2, NULL, 0, 0, 0, 0, NULL, 0) == 8, "push with nothing", 0, 0);
}

/* As many entries as a count can hold, and no more. */
static void filled(void) {
    const size_t room = 7 + 65536u * 8;
    uint8_t *out = untouched(room), none[16] = {0};
    mrt_written begun = mrt_begin_rib(out, room, 2, 0, 0, none, 16);
    uint64_t builder[3];
    expect(begun.octets == 7 && mrt_open_rib(out, 7, 2, builder, 3) == 0, "the default route", begun.octets, 0);
    for (uint32_t i = 0; i < 65535; i++) {
        uint32_t number = mrt_push_entry(out, room, 2, builder, 3, (uint16_t)i, i, 0, NULL, 0);
        expect(number == 0 && builder[2] == i + 1, "an entry", i, number);
    }
    expect(mrt_push_entry(out, room, 2, builder, 3, 0, 0, 0, NULL, 0) == 10, "one entry too many pushed", 0, 0);
    mrt_written got = mrt_add_entry(out, room, builder[0], 2, 0, 0, 0, NULL, 0);
    expect(got.refusal == 10 && got.octets == 0 && builder[0] == room - 8, "one entry too many added", got.refusal, 0);
    uint64_t head[5], last[5];
    uint8_t prefix[16];
    expect(mrt_read_rib(out, room - 8, 2, head, 5, prefix, 16) == 0 && head[2] == 65535 && head[3] == 65535, "read back", head[3], 0);
    expect(mrt_rib_entry(out, room - 8, 2, 65534, last, 5) == 0 && last[0] == 65534 && last[1] == 65534, "the last one", last[0], 0);
    free(out);
}

int main(void) {
    headers_written();
    bodies_begun();
    entries_written();
    not_whole();
    no_builders();
    filled();
    return result();
}
