/*
 * The calls that hand out many rows by one call, with odd arguments: each count of places from none to more than enough, walks
 * and cursors that are none, at and past the end. What they hand out is held to the calls that answer one at a time.
 */
#include "help.h"

/* Four records of type 16 that pass, of 32 octets each, and one octet too many. */
#define RECORDS 4
#define RECORD 32
#define STREAM (RECORDS * RECORD + 1)

static void stream(uint8_t *s) {
    static const uint8_t state_change[RECORD] = {0, 0, 0, 1, 0, 16, 0, 0, 0, 0, 0, 20, 0, 1, 0, 2, 0, 0, 0, 1};
    for (size_t i = 0; i < RECORDS; i++) {
        memcpy(s + i * RECORD, state_change, RECORD);
    }
    s[STREAM - 1] = 0;
}

/* As many rows as the places and the stream have, each as mrt_next leaves it; the rest as it was. */
static void records_from(const uint8_t *s, size_t n, uint64_t from) {
    for (size_t len = 0; len <= (RECORDS + 1) * MRT_NEXT_VALUES + 1; len++) {
        uint64_t *out = places(len), *walk = places(3), one[MRT_NEXT_VALUES], by_one[2] = {from, 0};
        walk[0] = from;
        walk[1] = 0;
        mrt_handed got = mrt_records(s, n, walk, 2 + len % 2, out, len);
        expect(got.refusal == (len < MRT_NEXT_VALUES ? 9 : 0), "records", got.refusal, len);
        size_t rows = 0;
        while (rows < len / MRT_NEXT_VALUES) {
            const uint64_t before = by_one[0];
            mrt_next(s, n, by_one, 2, 1, 1, one, MRT_NEXT_VALUES);
            if (one[0] != MRT_RECORD) {
                by_one[0] = before;
                break;
            }
            expect(same(out + rows * MRT_NEXT_VALUES, one, sizeof one), "the values of a record", rows, len);
            rows++;
        }
        expect(got.count == rows, "how many records", got.count, rows);
        expect(walk[0] == by_one[0] && walk[1] == 0 && walk[2] == FILL, "the walk after records", walk[0], by_one[0]);
        expect(holds(out + rows * MRT_NEXT_VALUES, len - rows * MRT_NEXT_VALUES, NULL, 0), "places after records", rows, len);
        free(out);
        free(walk);
    }
}

/* A walk that hands out nothing: a refusal's number, or 0 for a finished one. */
static void no_records(const uint8_t *s, size_t n, uint64_t from, uint64_t mark, size_t walk_len, uint32_t number) {
    for (size_t len = 0; len <= 2 * MRT_NEXT_VALUES; len++) {
        uint64_t *out = places(len), *walk = places(walk_len);
        if (walk_len > 0) {
            walk[0] = from;
        }
        if (walk_len > 1) {
            walk[1] = mark;
        }
        mrt_handed got = mrt_records(s, n, walk, walk_len, out, len);
        expect(got.refusal == (number ? number : len < MRT_NEXT_VALUES ? 9 : 0) && got.count == 0, "no records", got.refusal, number);
        expect(holds(out, len, NULL, 0), "places without records", len, number);
        expect(walk_len < 2 || (walk[0] == from && walk[1] == mark), "the walk without records", len, number);
        free(out);
        free(walk);
    }
}

static void walks(void) {
    uint8_t *s = block(STREAM);
    stream(s);
    for (size_t n = 0; n <= STREAM; n++) {
        uint8_t *part = copy(s, n);
        for (uint64_t from = 0; from <= n; from += RECORD / 2) {
            records_from(part, n, from);
        }
        records_from(part, n, n);
        no_records(part, n, n + 1, 0, 2, 8);
        free(part);
    }
    no_records(s, STREAM, 0, 1, 2, 0);
    no_records(s, STREAM, STREAM, 1, 3, 0);
    no_records(s, STREAM, UINT64_MAX, 0, 2, 8);
    no_records(s, STREAM, 0, 2, 2, 8);
    no_records(s, STREAM, 0, UINT64_MAX, 2, 8);
    no_records(s, STREAM, 0, 0, 1, 8);
    no_records(s, STREAM, 0, 0, 0, 8);
    expect(mrt_records(NULL, 0, NULL, 0, NULL, 0).refusal == 8, "nothing at all", 0, 0);
    free(s);
}

/* A body with three entries, of 8 or 12 octets and their number of attributes. */
#define ENTRIES 3

static size_t body(uint8_t *s, uint16_t subtype) {
    static const uint8_t prefix[MRT_PREFIX_OCTETS] = {10}, attributes[ENTRIES] = {1, 2, 3};
    size_t len = mrt_begin_rib(s, 64, subtype, 9, 8, prefix, sizeof prefix).octets;
    for (uint16_t i = 0; i < ENTRIES; i++) {
        len = mrt_add_entry(s, 64, len, subtype, i, 50 + i, subtype < 8 ? 0 : 70 + i, attributes, i).octets;
    }
    return len;
}

/* As many rows as the places and the body have, each as mrt_rib_next leaves it; the rest as it was. */
static void entries_from(const uint8_t *s, size_t n, uint16_t subtype, uint64_t at, uint64_t left) {
    for (size_t len = 0; len <= (ENTRIES + 1) * MRT_ENTRY_VALUES + 1; len++) {
        uint64_t *out = places(len), *cursor = places(3), one[MRT_STEP_VALUES], by_one[2] = {at, left};
        cursor[0] = at;
        cursor[1] = left;
        mrt_handed got = mrt_rib_entries(s, n, subtype, cursor, 2 + len % 2, out, len);
        expect(got.refusal == (len < MRT_ENTRY_VALUES ? 9 : 0), "entries", got.refusal, len);
        size_t rows = 0;
        while (rows < len / MRT_ENTRY_VALUES) {
            mrt_rib_next(s, n, subtype, by_one[0], (uint16_t)by_one[1], one, MRT_STEP_VALUES);
            if (!one[0]) {
                break;
            }
            expect(same(out + rows * MRT_ENTRY_VALUES, one + 1, MRT_ENTRY_VALUES * sizeof *one), "the values of an entry", rows, len);
            memcpy(by_one, one + 1 + MRT_ENTRY_VALUES, sizeof by_one);
            rows++;
        }
        expect(got.count == rows, "how many entries", got.count, rows);
        expect(same(cursor, by_one, sizeof by_one) && cursor[2] == FILL, "the cursor after entries", cursor[0], by_one[0]);
        expect(holds(out + rows * MRT_ENTRY_VALUES, len - rows * MRT_ENTRY_VALUES, NULL, 0), "places after entries", rows, len);
        free(out);
        free(cursor);
    }
}

/* A call that refuses, whatever its places. */
static void no_entries(const uint8_t *s, size_t n, uint16_t subtype, uint64_t at, uint64_t left, size_t cursor_len, uint32_t number) {
    for (size_t len = 0; len <= MRT_ENTRY_VALUES; len++) {
        uint64_t *out = places(len), *cursor = places(cursor_len);
        if (cursor_len > 0) {
            cursor[0] = at;
        }
        if (cursor_len > 1) {
            cursor[1] = left;
        }
        mrt_handed got = mrt_rib_entries(s, n, subtype, cursor, cursor_len, out, len);
        expect(got.refusal == number && got.count == 0, "no entries", got.refusal, number);
        expect(holds(out, len, NULL, 0), "places without entries", len, number);
        expect(cursor_len < 1 || cursor[0] == at, "the cursor without entries", len, number);
        free(out);
        free(cursor);
    }
}

static void ribs(void) {
    const uint16_t subtypes[2] = {2, 8}, others[6] = {0, 1, 6, 7, 12, UINT16_MAX};
    uint8_t whole[64];
    for (size_t k = 0; k < 2; k++) {
        const size_t most = body(whole, subtypes[k]);
        for (size_t n = 0; n <= most; n++) {
            uint8_t *s = copy(whole, n);
            const uint64_t lefts[5] = {0, 1, ENTRIES - 1, ENTRIES, UINT16_MAX};
            for (size_t i = 0; i < 5; i++) {
                entries_from(s, n, subtypes[k], n < 8 ? n : 8, lefts[i]);
            }
            entries_from(s, n, subtypes[k], n, 1);
            no_entries(s, n, subtypes[k], n, UINT16_MAX + 1, 2, 8);
            no_entries(s, n, subtypes[k], n, UINT64_MAX, 3, 8);
            no_entries(s, n, subtypes[k], n, 1, 1, 8);
            no_entries(s, n, subtypes[k], n, 1, 0, 8);
            const uint64_t beyond[3] = {n + 1, UINT32_MAX, UINT64_MAX};
            for (size_t i = 0; i < 3; i++) {
                no_entries(s, n, subtypes[k], beyond[i], i, 2, 8);
                no_entries(s, n, others[i], beyond[i], UINT16_MAX, 2, 8);
            }
            for (size_t i = 0; i < 6; i++) {
                no_entries(s, n, others[i], n, 1, 2, 6);
            }
            free(s);
        }
    }
    expect(mrt_rib_entries(NULL, 0, 2, NULL, 0, NULL, 0).refusal == 8, "nothing at all", 0, 0);
}

int main(void) {
    walks();
    ribs();
    return result();
}
