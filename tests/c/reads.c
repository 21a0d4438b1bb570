/*
 * Calls every export that reads with odd arguments and holds number and memory to what include/mrt.h says.
 *
 *     cc -std=c11 -Wall -Wextra -Werror -Iinclude tests/c/reads.c libmrt.a -o reads && ./reads
 */
#include "help.h"

/* What a call is given besides the places for its values. */
struct given {
    const uint8_t *s;
    size_t n;
    size_t at;
    uint16_t subtype;
    uint16_t left;
};

typedef uint32_t call(const struct given *g, uint64_t *out, size_t out_len);

/* The call with each number of places, from none to two more than it has values: NULL, one short, exactly full. */
static void answers(const char *what, call *f, const struct given *g, uint32_t number, const uint64_t *values, size_t count) {
    for (size_t len = 0; len <= count + 2; len++) {
        uint64_t *out = places(len);
        uint32_t want = number ? number : len < count ? 9 : 0;
        uint32_t got = f(g, out, len);
        expect(got == want, what, got, want);
        expect(holds(out, len, values, want ? 0 : count), what, len, count);
        free(out);
    }
    uint64_t one = FILL;
    uint32_t got = f(g, &one, 0);
    expect(got == (number ? number : 9) && one == FILL, what, got, number);
}

static uint32_t read_header(const struct given *g, uint64_t *out, size_t n) { return mrt_read_header(g->s, g->n, g->at, out, n); }
static uint32_t frame(const struct given *g, uint64_t *out, size_t n) { return mrt_frame(g->s, g->n, g->at, out, n); }
static uint32_t judge(const struct given *g, uint64_t *out, size_t n) { return mrt_judge(g->s, g->n, g->at, out, n); }
static uint32_t check_peers(const struct given *g, uint64_t *out, size_t n) { return mrt_check_peers(g->s, g->n, out, n); }
static uint32_t candidate(const struct given *g, uint64_t *out, size_t n) { return mrt_candidate(g->s, g->n, g->at, out, n); }
static uint32_t rib_entry(const struct given *g, uint64_t *out, size_t n) {
    return mrt_rib_entry(g->s, g->n, g->subtype, g->at, out, n);
}
static uint32_t rib_first(const struct given *g, uint64_t *out, size_t n) {
    return mrt_rib_first(g->s, g->n, g->subtype, out, n);
}
static uint32_t rib_next(const struct given *g, uint64_t *out, size_t n) {
    return mrt_rib_next(g->s, g->n, g->subtype, g->at, g->left, out, n);
}

/* A number of n octets, the highest first. */
static uint64_t be(const uint8_t *p, size_t n) {
    uint64_t v = 0;
    for (size_t i = 0; i < n; i++) {
        v = v * 256 + p[i];
    }
    return v;
}

/* The frame at an offset by the paper: the number, and all values where that is 0. */
static uint32_t by_paper(const uint8_t *s, size_t n, size_t at, uint64_t *v, int body) {
    if (n < at) {
        return 8;
    }
    const uint8_t *p = s + (n ? at : 0);
    size_t left = n - at;
    if (left < 12) {
        return 1;
    }
    v[0] = be(p, 4);
    v[1] = be(p + 4, 2);
    v[2] = be(p + 6, 2);
    v[3] = v[4] = be(p + 8, 4);
    v[5] = 0;
    size_t size = 12;
    if (!known(v[1])) {
        return 2;
    }
    if (timed(v[1])) {
        if (v[3] < 4) {
            return 3;
        }
        if (left < 16) {
            return 1;
        }
        size = 16;
        v[4] = v[3] - 4;
        v[5] = be(p + 12, 4);
    }
    v[6] = at + size;
    v[7] = at + size + v[4];
    return body && left - size < v[4] ? 4 : 0;
}

/* A state change of subtype 0 over IPv4 (32 octets), a peer table that lacks an octet (19), and the first one again. */
static const uint8_t stream[83] = {
    0, 0, 0, 1, 0, 16, 0, 0, 0, 0, 0, 20, 0, 1, 0, 2, 0, 0, 0, 1, 1, 2, 3, 4, 5, 6, 7, 8, 0, 1, 0, 2,
    0, 0, 0, 1, 0, 13, 0, 1, 0, 0, 0, 7, 0, 0, 0, 0, 0, 0, 0,
    0, 0, 0, 1, 0, 16, 0, 0, 0, 0, 0, 20, 0, 1, 0, 2, 0, 0, 0, 1, 1, 2, 3, 4, 5, 6, 7, 8, 0, 1, 0, 2,
};

/* A type 17 record with four octets of body, an unknown type, the largest length, and a type 17 wire length of 3. */
static const uint8_t oddments[56] = {
    1, 2, 3, 4, 0, 17, 0, 0, 0, 0, 0, 8, 255, 255, 255, 255, 1, 2, 3, 4,
    0, 0, 0, 0, 0, 14, 0, 0, 0, 0, 0, 0,
    255, 255, 255, 255, 0, 49, 255, 255, 255, 255, 255, 255,
    0, 0, 0, 0, 0, 17, 0, 0, 0, 0, 0, 3,
};

/* Headers and frames at each offset of each beginning of a stream, and at offsets beyond it. */
static void headers(const uint8_t *whole, size_t most) {
    for (size_t n = 0; n <= most; n++) {
        uint8_t *s = copy(whole, n);
        for (size_t i = 0; i <= n + 3; i++) {
            size_t at = i == n + 2 ? SIZE_MAX : i == n + 3 ? SIZE_MAX - 11 : i;
            struct given g = {.s = s, .n = n, .at = at};
            uint64_t v[8] = {0};
            uint32_t number = by_paper(s, n, at, v, 0);
            answers("header", read_header, &g, number, v, MRT_HEADER_VALUES);
            number = by_paper(s, n, at, v, 1);
            answers("frame", frame, &g, number, v, MRT_FRAME_VALUES);
            if (number) {
                answers("judge, not framed", judge, &g, number, v, MRT_JUDGE_VALUES);
            }
        }
        free(s);
    }
}

/* Each type with microseconds and the one before it, with lengths on both sides of their four octets. */
static void timed_headers(void) {
    const uint8_t types[] = {16, 17, 32, 33, 48, 49}, lengths[] = {0, 3, 4, 5, 8, 255};
    for (size_t i = 0; i < sizeof types; i++) {
        for (size_t j = 0; j < sizeof lengths; j++) {
            uint8_t s[21] = {1, 2, 3, 4, 0, types[i], 0, 7, 0, 0, 0, lengths[j], 255, 254, 253, 252, 9, 8, 7, 6, 5};
            headers(s, sizeof s);
        }
    }
}

static void judgements(void) {
    uint8_t *s = copy(stream, sizeof stream);
    const uint64_t first[9] = {0, 1, 16, 0, 20, 20, 0, 12, 32};
    const uint64_t last[9] = {51, 1, 16, 0, 20, 20, 0, 63, 83};
    const uint64_t stands[MRT_CANDIDATE_VALUES] = {1, 3, 32}, stands_last[MRT_CANDIDATE_VALUES] = {1, 3, 83};
    const uint64_t fails[MRT_CANDIDATE_VALUES] = {0};
    struct given g = {.s = s, .n = sizeof stream};
    answers("judge", judge, &g, 0, first, 9);
    answers("candidate", candidate, &g, 0, stands, MRT_CANDIDATE_VALUES);
    g.at = 32;
    answers("judge 7", judge, &g, 7, first, 9);
    answers("candidate, a peer table", candidate, &g, 0, fails, MRT_CANDIDATE_VALUES);
    g.at = 51;
    answers("judge, the last", judge, &g, 0, last, 9);
    answers("candidate, the last", candidate, &g, 0, stands_last, MRT_CANDIDATE_VALUES);
    for (size_t at = 72; at <= 84; at++) {
        g.at = at;
        answers("judge at the end", judge, &g, at <= 83 ? 1 : 8, first, 9);
        answers("candidate at the end", candidate, &g, at <= 83 ? 0 : 8, fails, MRT_CANDIDATE_VALUES);
    }
    g.at = SIZE_MAX;
    answers("judge beyond", judge, &g, 8, first, 9);
    answers("candidate beyond", candidate, &g, 8, fails, MRT_CANDIDATE_VALUES);
    g = (struct given){.s = NULL, .n = 0, .at = 0};
    answers("judge nothing", judge, &g, 1, first, 9);
    answers("candidate in nothing", candidate, &g, 0, fails, MRT_CANDIDATE_VALUES);
    g.at = 1;
    answers("candidate beyond nothing", candidate, &g, 8, fails, MRT_CANDIDATE_VALUES);
    free(s);
}

/* One call of the walk from two places, with each number of places for the answer. */
static void walk_call(const char *what, const uint8_t *s, size_t n, uint64_t from, uint64_t finished, size_t window, uint8_t asked,
                      uint32_t number, const uint64_t *values, size_t count, uint64_t to, uint64_t after) {
    for (size_t len = 0; len <= MRT_NEXT_VALUES + 2; len++) {
        uint64_t *out = places(len), *walk = places(3);
        walk[0] = from;
        walk[1] = finished;
        uint32_t want = number == 8 ? 8 : len < MRT_NEXT_VALUES ? 9 : number;
        int served = want == 0 || want == 11;
        uint32_t got = mrt_next(s, n, walk, 2 + len % 2, window, asked, out, len);
        expect(got == want, what, got, want);
        expect(holds(out, len, values, served ? count : 0), what, len, count);
        expect(walk[0] == (served ? to : from) && walk[1] == (served ? after : finished) && walk[2] == FILL, what, walk[0], walk[1]);
        free(out);
        free(walk);
    }
}

static void walks(void) {
    uint8_t *s = copy(stream, sizeof stream), *zeros = calloc(7, 1), *six = calloc(6, 1);
    const size_t n = sizeof stream;
    const uint64_t first[10] = {1, 0, 1, 16, 0, 20, 20, 0, 12, 32}, last[10] = {1, 51, 1, 16, 0, 20, 20, 0, 63, 83};
    const uint64_t gap[6] = {2, 32, 51, 7, 4, 1}, end[2] = {3, 83}, stopped[2] = {3, 32}, none[1] = {0};
    walk_call("a record", s, n, 0, 0, 1048576, 3, 0, first, 10, 32, 0);
    walk_call("a gap", s, n, 32, 0, 1048576, 3, 0, gap, 6, 51, 0);
    walk_call("a gap, none asked", s, n, 32, 0, 0, 0, 0, gap, 6, 51, 0);
    walk_call("a gap, the most asked", s, n, 32, 0, SIZE_MAX, 255, 0, gap, 6, 51, 0);
    walk_call("the last record", s, n, 51, 0, SIZE_MAX, 255, 0, last, 10, 83, 0);
    walk_call("the end", s, n, 83, 0, 0, 0, 0, end, 2, 83, 1);
    walk_call("the end again", s, n, 83, 1, 0, 0, 0, end, 2, 83, 1);
    walk_call("a finished walk", s, n, 32, 1, 1, 1, 0, stopped, 2, 32, 1);
    walk_call("beyond", s, n, 84, 0, 1, 1, 8, none, 0, 0, 0);
    walk_call("beyond, finished", s, n, UINT64_MAX, 1, 1, 1, 8, none, 0, 0, 0);
    walk_call("no mark", s, n, 0, 2, 1, 1, 8, none, 0, 0, 0);
    walk_call("no mark, the largest", s, n, 0, UINT64_MAX, 1, 1, 8, none, 0, 0, 0);
    const uint64_t shut[4] = {4, 0, 0, 1}, narrow[4] = {4, 0, 1, 1}, rest[6] = {2, 0, 7, 1, 5, 0}, near[6] = {2, 0, 6, 1, 5, 0};
    walk_call("no window", zeros, 7, 0, 0, 0, 1, 11, shut, 4, 0, 1);
    walk_call("a window of one", zeros, 7, 0, 0, 1, 1, 11, narrow, 4, 0, 1);
    walk_call("a window of two", zeros, 7, 0, 0, 2, 1, 0, rest, 6, 7, 0);
    walk_call("the largest window", zeros, 7, 0, 0, SIZE_MAX, 255, 0, rest, 6, 7, 0);
    walk_call("near the end", six, 6, 0, 0, 1, 0, 0, near, 6, 6, 0);
    const uint64_t nothing[2] = {3, 0};
    walk_call("nothing", NULL, 0, 0, 0, 1, 1, 0, nothing, 2, 0, 1);
    walk_call("nothing, beyond", NULL, 0, 1, 0, 1, 1, 8, none, 0, 0, 0);
    uint64_t *walk = places(1), *out = places(10);
    expect(mrt_next(s, n, NULL, 0, 1, 1, out, 10) == 8 && holds(out, 10, none, 0), "no walk", 0, 0);
    expect(mrt_next(s, n, walk, 1, 1, 1, out, 10) == 8 && walk[0] == FILL && holds(out, 10, none, 0), "half a walk", 0, 0);
    expect(mrt_next(NULL, 0, NULL, 0, 0, 0, NULL, 0) == 8, "nothing at all", 0, 0);
    free(walk);
    free(out);
    free(s);
    free(zeros);
    free(six);
}

/* A type 5 record of subtype 7. */
static const uint8_t legacy[24] = {0, 0, 0, 9, 0, 5, 0, 7, 0, 0, 0, 12};

/* One part for each letter: a type 5 record (l), a state change (s), a peer table that lacks an octet (t), 20 octets 255 (x). */
static uint8_t *joined(const char *letters, size_t *n) {
    uint8_t damage[20], all[200];
    memset(damage, 255, sizeof damage);
    for (*n = 0; *letters; letters++) {
        const uint8_t *part = *letters == 'l' ? legacy : *letters == 's' ? stream : *letters == 't' ? stream + 32 : damage;
        const size_t octets = *letters == 'l' ? 24 : *letters == 's' ? 32 : *letters == 't' ? 19 : 20;
        memcpy(all + *n, part, octets);
        *n += octets;
    }
    return copy(all, *n);
}

/* The gap at the front of these parts, where two records are asked for. */
static void gap_of(const char *what, const char *letters, uint64_t end, uint64_t refusal, uint64_t evidence, uint64_t confirmed) {
    size_t n;
    uint8_t *s = joined(letters, &n);
    const uint64_t gap[6] = {2, 0, end, refusal, evidence, confirmed};
    walk_call(what, s, n, 0, 0, 1000, 2, 0, gap, 6, end, 0);
    free(s);
}

/* A type 5 record is judged, walked and counts at a record's own end. A scan passes over it, and a chain breaks at it. */
static void legacies(void) {
    uint8_t *s = copy(legacy, sizeof legacy);
    const uint64_t record[10] = {1, 0, 9, 5, 7, 12, 12, 0, 12, 24}, fails[MRT_CANDIDATE_VALUES] = {0};
    struct given g = {.s = s, .n = sizeof legacy};
    answers("judge, type 5", judge, &g, 0, record + 1, MRT_JUDGE_VALUES);
    answers("candidate, type 5", candidate, &g, 0, fails, MRT_CANDIDATE_VALUES);
    walk_call("a record of type 5", s, sizeof legacy, 0, 0, 1000, 2, 0, record, 10, 24, 0);
    gap_of("damage and type 5 alone", "xll", 68, 2, 5, 0);
    gap_of("type 5 before state changes", "xllss", 68, 2, 3, 2);
    gap_of("type 5 between state changes", "xslss", 76, 2, 3, 2);
    gap_of("type 5 at an own end", "tll", 19, 7, 4, 2);
    free(s);
}

/* A table with a view name of two octets, an IPv4 peer with a two-octet AS and an IPv6 peer with a four-octet one. */
static const uint8_t table[46] = {
    255, 0, 0, 1, 0, 2, 'a', 'b', 0, 2,
    0, 1, 1, 1, 1, 10, 0, 0, 1, 0, 1,
    3, 2, 2, 2, 2, 32, 1, 13, 184, 0, 0, 0, 0, 0, 0, 0, 0, 0, 0, 0, 1, 0, 1, 0, 0,
};

static void tables(void) {
    const uint64_t head[6] = {4278190081u, 6, 2, 2, 10, 46}, empty[6] = {0, 6, 0, 0, 8, 8};
    for (size_t n = 0; n <= sizeof table; n++) {
        uint8_t *s = copy(table, n);
        struct given g = {.s = s, .n = n};
        answers("peers", check_peers, &g, n < sizeof table ? 7 : 0, head, 6);
        expect(mrt_check_body(s, n, 13, 1, 0) == (n < sizeof table ? 7 : 0), "the check of a table", n, 0);
        free(s);
    }
    for (size_t n = 7; n <= 9; n++) {
        uint8_t *s = calloc(n, 1);
        struct given g = {.s = s, .n = n};
        answers("no peers", check_peers, &g, n < 8 ? 7 : 0, empty, 6);
        free(s);
    }
}

/* A prefix of nine bits with bits after it, two entries declared and one there; with and without a path number. */
static const uint8_t plain[20] = {0, 0, 0, 9, 9, 10, 255, 0, 2, 0, 7, 255, 255, 255, 255, 0, 3, 1, 2, 3};
static const uint8_t pathed[24] = {0, 0, 0, 9, 9, 10, 255, 0, 2, 0, 7, 255, 255, 255, 255, 255, 255, 255, 254, 0, 3, 1, 2, 3};

static void rib_read(const uint8_t *s, size_t n, uint16_t subtype, uint32_t number, const uint64_t *head) {
    const uint8_t octets[2] = {10, 128};
    for (size_t len = 0; len <= MRT_RIB_VALUES + 1; len++) {
        for (size_t room = 0; room <= 17; room++) {
            uint64_t *out = places(len);
            uint8_t *prefix = block(room);
            if (room) {
                memset(prefix, 0xa5, room);
            }
            uint32_t want = number ? number : len < MRT_RIB_VALUES || room < MRT_PREFIX_OCTETS ? 9 : 0;
            uint32_t got = mrt_read_rib(s, n, subtype, out, len, prefix, room);
            expect(got == want, "rib", got, want);
            expect(holds(out, len, head, want ? 0 : MRT_RIB_VALUES), "the values of a rib", len, room);
            for (size_t i = 0; i < room; i++) {
                uint8_t octet = want || MRT_PREFIX_OCTETS <= i ? 0xa5 : i < 2 ? octets[i] : 0;
                expect(prefix[i] == octet, "the prefix of a rib", i, prefix[i]);
            }
            free(out);
            free(prefix);
        }
    }
}

static void rib(const uint8_t *whole, size_t most, uint16_t subtype, uint64_t path) {
    const size_t start = path ? 21 : 17;
    const uint64_t entry[5] = {7, UINT32_MAX, path, start, most}, first[2] = {9, 2}, none[8] = {0};
    const uint64_t step[8] = {1, 7, UINT32_MAX, path, start, most, most, 1}, one[8] = {1, 7, UINT32_MAX, path, start, most, most, 0};
    for (size_t n = 0; n <= most; n++) {
        uint8_t *s = copy(whole, n);
        const uint32_t head = n < 9 ? 7 : 0;
        const uint64_t values[5] = {9, 9, 2, n == most, 9};
        struct given g = {.s = s, .n = n, .subtype = subtype};
        rib_read(s, n, subtype, head, values);
        answers("first", rib_first, &g, head, first, 2);
        answers("entry 0", rib_entry, &g, head ? head : n < most ? 8 : 0, entry, 5);
        const size_t beyond[4] = {1, 2, 65536, SIZE_MAX};
        for (size_t i = 0; i < 4; i++) {
            g.at = beyond[i];
            answers("entry beyond", rib_entry, &g, head ? head : 8, entry, 5);
        }
        g.at = 9;
        g.left = 2;
        const uint32_t beyond_body = n < 9 ? 8 : 0;
        answers("next", rib_next, &g, beyond_body, n < most ? none : step, 8);
        g.left = 1;
        answers("next, the last", rib_next, &g, beyond_body, n < most ? none : one, 8);
        g.left = 0;
        answers("next, none left", rib_next, &g, beyond_body, none, 8);
        g.left = UINT16_MAX;
        const size_t places_beyond[4] = {n, n + 1, SIZE_MAX, SIZE_MAX - 7};
        for (size_t i = 0; i < 4; i++) {
            g.at = places_beyond[i];
            answers("next at the end", rib_next, &g, i ? 8 : 0, none, 8);
            g.subtype = 6;
            answers("next at the end 6", rib_next, &g, i ? 8 : 6, none, 8);
            g.subtype = subtype;
        }
        g.at = 0;
        const uint16_t others[6] = {0, 1, 6, 7, 12, UINT16_MAX};
        for (size_t i = 0; i < 6; i++) {
            g.subtype = others[i];
            rib_read(s, n, others[i], 6, values);
            answers("first 6", rib_first, &g, 6, first, 2);
            answers("entry 6", rib_entry, &g, 6, entry, 5);
            answers("next 6", rib_next, &g, 6, none, 8);
        }
        free(s);
    }
}

static void bodies(void) {
    const struct {
        uint16_t type, subtype;
        uint32_t stored, number;
    } rows[] = {
        {5, 1, 15, 7},          {5, 1, 16, 0},     {5, 1, 65535, 0}, {5, 1, 65536, 7},  {5, 3, 10, 0},       {5, 3, 9, 7},
        {5, 5, 4089, 0},        {5, 5, 4090, 7},   {5, 6, 14, 0},    {5, 7, 12, 0},     {5, 7, UINT32_MAX, 7}, {5, 0, 10, 6},
        {5, UINT16_MAX, 10, 6}, {13, 1, 0, 7},     {13, 2, 0, 7},    {13, 6, 0, 6},     {13, UINT16_MAX, 0, 6}, {16, 0, 0, 7},
        {16, 2, 0, 6},          {17, 11, 0, 7},    {17, 12, 0, 6},   {0, 0, 0, 5},      {11, 1, 0, 5},       {14, 0, 0, 2},
        {15, 1, 16, 2},         {18, 0, 0, 2},     {33, 0, 0, 5},    {34, 0, 0, 2},     {49, 0, 0, 5},       {50, 0, 0, 2},
        {UINT16_MAX, UINT16_MAX, UINT32_MAX, 2},
    };
    for (size_t i = 0; i < sizeof rows / sizeof *rows; i++) {
        uint32_t got = mrt_check_body(NULL, 0, rows[i].type, rows[i].subtype, rows[i].stored);
        expect(got == rows[i].number, "a body of no octets", i, got);
    }
    for (size_t n = 0; n <= 21; n++) {
        uint8_t *s = copy(stream + 12, n);
        expect(mrt_check_body(s, n, 16, 0, (uint32_t)n) == (n == 20 ? 0 : 7), "the body of a state change", n, 0);
        expect(mrt_check_body(s, n, 17, 0, UINT32_MAX) == (n == 20 ? 0 : 7), "the body of a state change of type 17", n, 0);
        free(s);
    }
}

/* An OPEN of every length up to a few octets above the most. */
static void opens(void) {
    static uint8_t room[16 + 4100] = {[7] = 1};
    memset(room + 16, 255, 16);
    room[16 + 18] = 1;
    for (size_t n = 19; n <= 4100; n++) {
        room[16 + 16] = (uint8_t)(n >> 8);
        room[16 + 17] = (uint8_t)n;
        uint8_t *s = copy(room, 16 + n);
        uint32_t number = n >= 29 && n <= 4096 ? 0 : 7;
        expect(mrt_check_body(s, 16 + n, 16, 1, (uint32_t)(16 + n)) == number, "the body of an OPEN", n, number);
        free(s);
    }
}

static void ages(void) {
    expect(mrt_age(0, 0) == 0 && mrt_age(UINT32_MAX, UINT32_MAX) == 0, "no age", 0, 0);
    expect(mrt_age(UINT32_MAX, 0) == 4294967295ll, "the greatest age", 0, 0);
    expect(mrt_age(0, UINT32_MAX) == -4294967295ll, "the least age", 0, 0);
    expect(mrt_age(1, 2) == -1 && mrt_age(2, 1) == 1, "one second", 0, 0);
}

int main(void) {
    headers(stream, sizeof stream);
    headers(oddments, sizeof oddments);
    timed_headers();
    judgements();
    walks();
    legacies();
    tables();
    rib(plain, sizeof plain, 2, 0);
    rib(pathed, sizeof pathed, 8, 4294967294u);
    bodies();
    opens();
    ages();
    return result();
}
