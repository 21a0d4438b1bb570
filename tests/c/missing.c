/*
 * Missing rows counted with odd arguments: too few places, counters that are none, every type and subtype, short bodies, and both
 * ends and the middle of both widths. Number and memory are held to a reading that is written out here.
 *
 *     cc -std=c11 -Wall -Wextra -Werror -Iinclude tests/c/missing.c libmrt.a -o missing && ./missing
 */
#include "help.h"

#define BODY 6
#define COUNT(table) (sizeof(table) / sizeof *(table))

/* What a call is given. Counter places after the four have the fill, and so has all of `out`. */
typedef struct given {
    uint16_t type, subtype;
    size_t body_len;
    uint8_t body[BODY];
    uint64_t counters[MRT_COUNTERS_VALUES];
    size_t counters_len, out_len;
} given;

/* A record, and places enough. The number is in its first four octets, so that of type 12 the lower half of it counts. */
static given record(uint16_t type, uint16_t subtype, uint32_t number) {
    given g = {.type = type, .subtype = subtype, .body_len = BODY};
    g.counters_len = MRT_COUNTERS_VALUES;
    g.out_len = MRT_MISSING_VALUES;
    put(g.body, put(g.body, 0, 4, number), 2, 0x9192);
    return g;
}

static given counted(given g, uint64_t table_seen, uint64_t table, uint64_t dump_seen, uint64_t dump) {
    const uint64_t counters[MRT_COUNTERS_VALUES] = {table_seen, table, dump_seen, dump};
    memcpy(g.counters, counters, sizeof counters);
    return g;
}

static given with_places(given g, size_t counters_len, size_t out_len) {
    g.counters_len = counters_len;
    g.out_len = out_len;
    return g;
}

/* The refusal by the paper. */
static uint32_t refused(const given *g) {
    const int whole = g->counters_len >= 4 && g->counters[0] <= 1 && g->counters[2] <= 1;
    if (!whole || g->counters[1] > 4294967295 || g->counters[3] > 65535) {
        return 8;
    }
    return g->out_len < 3 ? 9 : 0;
}

static int is_rib(uint16_t subtype) {
    static const int ribs[12] = {[2] = 1, [3] = 1, [4] = 1, [5] = 1, [8] = 1, [9] = 1, [10] = 1, [11] = 1};
    return subtype < 12 && ribs[subtype];
}

/* The pair of one type: what is told of a number, after which the pair has it. */
static void number_told(uint64_t *pair, uint64_t later, uint64_t turn, uint64_t *values) {
    if (pair[0] && pair[1] == later) {
        values[0] = values[2] = 1;
    } else if (pair[0]) {
        values[0] = 1;
        values[1] = (later < pair[1] ? later + turn : later) - pair[1] - 1;
    }
    pair[0] = 1;
    pair[1] = later;
}

/* The counters and the values by the paper, of a call that is served. The values are zeros before. */
static void by_paper(const given *g, uint64_t *counters, uint64_t *values) {
    const uint8_t *b = g->body;
    if (g->type == 13 && g->subtype == 1) {
        memset(counters, 0, MRT_COUNTERS_VALUES * sizeof *counters);
    } else if (g->body_len < 4) {
        return;
    } else if (g->type == 13 && is_rib(g->subtype)) {
        number_told(counters, b[0] * 16777216u + b[1] * 65536u + b[2] * 256u + b[3], 4294967296, values);
    } else if (g->type == 12) {
        number_told(counters + 2, b[2] * 256u + b[3], 65536, values);
    }
}

/* Lent places have these values at the front, and the guards on either side are as they were. */
static int kept(const uint64_t *whole, size_t n, size_t guards, const uint64_t *values, size_t count) {
    return holds(whole, guards, NULL, 0) && holds(whole + guards, n + guards, values, count);
}

/* One call. So many guards stand on either side of all that is lent. */
static void call(const given *g, size_t guards) {
    const size_t front = g->counters_len < 4 ? g->counters_len : 4, octets = g->body_len + 2 * guards;
    uint8_t *body = untouched(octets);
    uint64_t *counters = places(g->counters_len + 2 * guards), *out = places(g->out_len + 2 * guards);
    if (g->body_len) {
        memcpy(body + guards, g->body, g->body_len);
    }
    if (front) {
        memcpy(counters + guards, g->counters, front * sizeof *counters);
    }
    uint8_t *before = copy(body, octets);
    uint64_t want[MRT_COUNTERS_VALUES], values[MRT_MISSING_VALUES] = {0};
    memcpy(want, g->counters, sizeof want);
    const uint32_t number = refused(g);
    if (!number) {
        by_paper(g, want, values);
    }
    uint32_t got = mrt_missing(body + guards, g->body_len, g->type, g->subtype, counters + guards, g->counters_len, out + guards,
                               g->out_len);
    expect(got == number, "missing", got, number);
    expect(kept(counters, g->counters_len, guards, want, front), "the counters", g->type, g->subtype);
    expect(kept(out, g->out_len, guards, values, number ? 0 : MRT_MISSING_VALUES), "the values", g->type, g->subtype);
    expect(same(body, before, octets), "the body is left", g->type, g->subtype);
    free(body);
    free(before);
    free(counters);
    free(out);
}

/* In blocks of the exact size, NULL for none; and between guards, which show a store too many without a checker of memory. */
static void held(given g) {
    call(&g, 0);
    call(&g, 1);
}

/* Rows of both types, a peer table, what is no row, and a row that is too short. */
#define RECORDS 6

static given some_record(size_t i) {
    static const uint16_t types[RECORDS] = {13, 12, 13, 16, 13, 12}, subtypes[RECORDS] = {2, 1, 1, 0, 6, 2};
    given g = record(types[i], subtypes[i], 0x81828384);
    g.body_len = i == RECORDS - 1 ? 3 : BODY;
    return g;
}

/* Each count of places up to two too many, with counters that will do and that will not: 8 comes before 9. */
static void every_place(void) {
    static const uint64_t last[3] = {0x8384, 65535, 65536};
    for (size_t i = 0; i < RECORDS * 3 * 7 * 6; i++) {
        given g = counted(some_record(i / 126), 1, 0x81828380, 1, last[i / 42 % 3]);
        held(with_places(g, i / 6 % 7, i % 6));
    }
}

/* Marks and numbers of both types at and beyond their bounds, each with each; with places for the values, and with one too few. */
static void every_counter(void) {
    static const uint64_t marks[4] = {0, 1, 2, UINT64_MAX};
    static const uint64_t numbers[8] = {0, 1, 65535, 65536, UINT32_MAX, 4294967296, 4294967297, UINT64_MAX};
    for (size_t i = 0; i < RECORDS * 2 * 32 * 32; i++) {
        const size_t table = i / 32 % 32, dump = i % 32;
        given g = with_places(some_record(i / 2048), MRT_COUNTERS_VALUES, MRT_MISSING_VALUES - i / 1024 % 2);
        held(counted(g, marks[table / 8], numbers[table % 8], marks[dump / 8], numbers[dump % 8]));
    }
}

/* Types and subtypes up to well beyond those that count, with each length of a body; where each type has a number and where not. */
static void every_kind(void) {
    for (size_t i = 0; i < 4 * 66 * 15 * (BODY + 1); i++) {
        const size_t type = i / 105 % 66, subtype = i / 7 % 15, seen = i / 6930;
        given g = record(type < 65 ? (uint16_t)type : UINT16_MAX, subtype < 14 ? (uint16_t)subtype : UINT16_MAX, 0xf1f2f3f4);
        g.body_len = i % 7;
        held(counted(g, seen / 2, 0xf1f2f3f0 * (seen / 2), seen % 2, 0xf3f5 * (seen % 2)));
    }
}

/* The later number after the earlier one, where the other type has no number and where it has one. */
static void pair(uint16_t type, uint16_t subtype, uint64_t earlier, uint64_t later) {
    /* Of type 12 the upper half of the octets is the view. */
    given g = record(type, subtype, type == 12 ? 0xe1e20000 + (uint32_t)later : (uint32_t)later);
    for (uint64_t other = 0; other < 2; other++) {
        held(type == 12 ? counted(g, other, other * 77, 1, earlier) : counted(g, 1, earlier, other, other * 77));
        held(type == 12 ? counted(g, other, other * 77, 0, earlier) : counted(g, 0, earlier, other, other * 77));
    }
}

/* Numbers at both ends and in the middle of a width, and for type 13 of 16 bits too, each after each. */
static void pairs(uint16_t type, uint16_t subtype) {
    static const uint64_t wide[15] = {0,          1,          2,          32768,      65534,      65535,      65536,      65537,
                                      2147483647, 2147483648, 2147483649, 4294901759, 4294901760, 4294967294, 4294967295};
    static const uint64_t narrow[11] = {0, 1, 2, 255, 256, 32767, 32768, 32769, 65533, 65534, 65535};
    const uint64_t *all = type == 12 ? narrow : wide;
    const size_t count = type == 12 ? COUNT(narrow) : COUNT(wide);
    for (size_t i = 0; i < count * count; i++) {
        pair(type, subtype, all[i / count], all[i % count]);
    }
}

/* A row after a row by one set of counters: a turn, a repeat, a fall, and a peer table between. */
static void in_a_row(void) {
    static const uint32_t rows[8] = {4294967294, 4294967295, 0, 0, 3, 1, 7, 8};
    static const uint64_t told[8][3] = {{0}, {1}, {1}, {1, 0, 1}, {1, 2}, {1, 4294967293}, {0}, {1}};
    uint64_t counters[MRT_COUNTERS_VALUES] = {0};
    for (size_t i = 0; i < 8; i++) {
        uint64_t out[MRT_MISSING_VALUES];
        uint8_t body[4];
        put(body, 0, 4, rows[i]);
        if (i == 6) {
            expect(mrt_missing(NULL, 0, 13, 1, counters, 4, out, 3) == 0, "a peer table", i, 0);
        }
        expect(mrt_missing(body, 4, 13, i % 2 ? 2 : 11, counters, 4, out, 3) == 0, "a row", i, 0);
        expect(same(out, told[i], sizeof out), "what a row tells", i, out[1]);
    }
}

int main(void) {
    static const uint16_t ribs[8] = {2, 3, 4, 5, 8, 9, 10, 11};
    every_place();
    every_counter();
    every_kind();
    for (size_t i = 0; i < COUNT(ribs); i++) {
        pairs(13, ribs[i]);
    }
    pairs(12, 1);
    pairs(12, 2);
    in_a_row();
    expect(mrt_missing(NULL, 0, 0, 0, NULL, 0, NULL, 0) == 8, "nothing at all", 0, 0);
    return result();
}
