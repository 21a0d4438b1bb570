/*
 * Entries pushed by rows, with odd arguments: each refusal of the call and their order, each kind of row that stops it, attributes
 * of every small length, bodies that are nearly full, and random rows. What the call leaves is held to entries that are written out
 * here, and to the same rows pushed one by one.
 */
#include "help.h"

/*
 * Everything runs twice: with no guard around what is lent, so that a checker of memory sees each octet too many, and with guards
 * that are looked at. Octets then stand at odd places.
 */
static size_t guard;

typedef struct lent {
    uint8_t *at;
    size_t n, side;
} lent;

static lent lend(const void *from, size_t n, size_t side) {
    uint8_t *p = untouched(n + 2 * side);
    lent m = {side ? p + side : p, n, side};
    if (n) {
        memcpy(m.at, from, n);
    }
    return m;
}

/* Whether the memory holds these octets and its guards what they had. It is given back. */
static int returned(lent m, const void *want) {
    uint8_t *p = m.side ? m.at - m.side : m.at;
    int good = same(m.at, want, m.n);
    for (size_t i = 0; i < m.side; i++) {
        good &= p[i] == UNTOUCHED && p[m.side + m.n + i] == UNTOUCHED;
    }
    free(p);
    return good;
}

/* What is lent to a call. */
typedef struct given {
    uint16_t subtype;
    const uint8_t *out;
    size_t out_len;
    uint64_t builder[4];
    size_t builder_len;
    const uint64_t *rows;
    size_t rows_len;
    const uint8_t *attributes;
    size_t attributes_len;
} given;

/* The call on copies, which leaves this output and this builder, and the rows and their attributes as they were. */
static mrt_handed call(const given *g, const uint8_t *out, const uint64_t *builder) {
    const size_t odd = guard ? guard + 1 : 0;
    lent o = lend(g->out, g->out_len, odd), a = lend(g->attributes, g->attributes_len, odd);
    lent b = lend(g->builder, g->builder_len * sizeof *builder, guard), r = lend(g->rows, g->rows_len * sizeof *g->rows, guard);
    mrt_handed got = mrt_push_entries(o.at, o.n, g->subtype, (uint64_t *)b.at, g->builder_len, (const uint64_t *)r.at,
                                      g->rows_len, a.at, a.n);
    expect(returned(o, out), "the output after rows", g->out_len, g->rows_len);
    expect(returned(b, builder), "the builder after rows", g->builder_len, g->rows_len);
    expect(returned(r, g->rows) && returned(a, g->attributes), "rows and attributes are left", g->rows_len, g->attributes_len);
    return got;
}

static void refused(const given *g, uint32_t number) {
    mrt_handed got = call(g, g->out, g->builder);
    expect(got.refusal == number && got.count == 0, "refused rows", got.refusal, number);
}

/* A push can be asked for with the row. */
static int askable(const given *g, const uint64_t *row) {
    return row[0] <= UINT16_MAX && row[1] <= UINT32_MAX && row[2] <= UINT32_MAX && row[3] <= row[4] && row[4] <= g->attributes_len;
}

static int fits(const given *g, const uint64_t *row, const uint64_t *builder) {
    const size_t m = row[4] - row[3], path = g->subtype < 8 ? 0 : 4;
    return builder[2] < 65535 && m <= 65535 && (path || !row[2]) && 8 + path + m <= g->out_len - builder[0];
}

/* The rows written out here, up to the first that does not go in, and how many do. */
static size_t by_hand(const given *g, uint8_t *out, uint64_t *builder) {
    const uint64_t *row = g->rows;
    size_t n = 0;
    for (; n < g->rows_len / 5 && askable(g, row) && fits(g, row, builder); n++, row += 5) {
        size_t at = put(out, put(out, builder[0], 2, row[0]), 4, row[1]);
        at = put(out, put(out, at, g->subtype < 8 ? 0 : 4, row[2]), 2, row[4] - row[3]);
        for (size_t i = row[3]; i < row[4]; i++) {
            out[at++] = g->attributes[i];
        }
        builder[0] = at;
        put(out, builder[1], 2, ++builder[2]);
    }
    return n;
}

static uint32_t push(const given *g, const uint64_t *row, uint8_t *out, uint64_t *builder) {
    const uint8_t *from = row[3] < row[4] ? g->attributes + row[3] : NULL;
    return mrt_push_entry(out, g->out_len, g->subtype, builder, 3, (uint16_t)row[0], (uint32_t)row[1], (uint32_t)row[2], from,
                          row[4] - row[3]);
}

/* The same rows one by one. What mrt_push_entry says of the first that does not go in is left in `says`: 0 where it cannot be asked. */
static size_t one_by_one(const given *g, uint8_t *out, uint64_t *builder, uint32_t *says) {
    size_t n = 0;
    *says = 0;
    for (; n < g->rows_len / 5 && askable(g, g->rows + 5 * n); n++) {
        *says = push(g, g->rows + 5 * n, out, builder);
        if (*says) {
            break;
        }
    }
    return n;
}

/* Rows of a builder that stands: how many go in, and what mrt_push_entry says of the next. */
static size_t pushed(const given *g, uint32_t *says) {
    uint8_t *out = copy(g->out, g->out_len), *other = copy(g->out, g->out_len);
    uint64_t builder[4], after[4];
    memcpy(builder, g->builder, sizeof builder);
    memcpy(after, g->builder, sizeof after);
    size_t n = by_hand(g, out, builder);
    mrt_handed got = call(g, out, builder);
    expect(got.refusal == 0 && got.count == n, "how many rows", got.count, n);
    expect(one_by_one(g, other, after, says) == n, "how many one by one", g->rows_len, n);
    expect(same(out, other, g->out_len) && same(builder, after, sizeof after), "one by one the same", builder[0], after[0]);
    free(out);
    free(other);
    return n;
}

static void goes_in(const char *what, const given *g, size_t count, uint32_t says) {
    uint32_t said;
    size_t n = pushed(g, &said);
    expect(n == count, what, n, count);
    expect(said == says, what, said, says);
}

/* The head of a body with one prefix bit, which has 8 octets, and its count at 6. */
static void head(uint8_t *out, uint16_t count) { put(out, put(out, put(out, 0, 4, 7), 2, 0x0180), 2, count); }

/* A good call: two rows after a head of this count, with more room than they need. */
#define ROOM 64
static const uint8_t octets[8] = {1, 2, 3, 4, 5, 6, 7, 8};
static const uint64_t two[10] = {65535, UINT32_MAX, 0, 0, 8, 1, 2, 0, 3, 3};

static given good(uint8_t *out, uint16_t count) {
    memset(out, UNTOUCHED, ROOM);
    head(out, count);
    return (given){2, out, ROOM, {8, 6, count, FILL}, 3, two, 10, octets, sizeof octets};
}

/* Everything that can be wrong with a call, in all combinations: 8 comes before 6, and 6 before 7. */
static void refusals_in_order(void) {
    uint8_t out[ROOM];
    for (unsigned wrongs = 1; wrongs < 256; wrongs++) {
        given g = good(out, 1);
        g.builder_len = wrongs & 1 ? 2 : 3;
        g.rows_len = wrongs & 4 ? 9 : 10;
        g.subtype = wrongs & 16 ? 6 : 2;
        g.builder[0] = wrongs & 8 ? ROOM + 1 : wrongs & 128 ? 7 : 8;
        g.builder[1] = wrongs & 32 ? 5 : 6;
        g.builder[2] = wrongs & 2 ? 65536 : wrongs & 64 ? 0 : 1;
        refused(&g, wrongs & 15 ? 8 : wrongs & 16 ? 6 : 7);
    }
    given g = good(out, 1);
    goes_in("nothing wrong", &g, 2, 0);
    g.builder_len = 4;
    goes_in("four builder places", &g, 2, 0);
}

/* Each number of the call at its ends. */
static void refusals_at_the_ends(void) {
    uint8_t out[ROOM];
    const uint64_t far[3] = {ROOM + 1, UINT32_MAX, UINT64_MAX}, many[3] = {65536, UINT32_MAX, UINT64_MAX};
    const uint64_t elsewhere[6] = {0, 5, 7, 8, UINT32_MAX, UINT64_MAX}, others[4] = {0, 2, 256, 65535};
    const uint16_t subtypes[6] = {0, 1, 6, 7, 12, UINT16_MAX};
    for (size_t i = 0; i < 6; i++) {
        given beyond = good(out, 1), count = beyond, places_of_count = beyond, other = beyond, subtype = beyond;
        beyond.builder[0] = far[i % 3];
        refused(&beyond, 8);
        count.builder[2] = many[i % 3];
        refused(&count, 8);
        places_of_count.builder[1] = elsewhere[i];
        refused(&places_of_count, 7);
        other.builder[2] = others[i % 4];
        refused(&other, 7);
        subtype.subtype = subtypes[i];
        refused(&subtype, 6);
    }
    for (size_t n = 0; n <= 10; n++) {
        given g = good(out, 1);
        g.rows_len = n;
        if (n % 5) {
            refused(&g, 8);
        } else {
            goes_in("whole rows", &g, n / 5, 0);
        }
        g.builder_len = n % 3;
        refused(&g, 8);
        g.builder_len = 3;
        g.rows_len = 10;
        g.builder[0] = n;
        if (n < 8) {
            refused(&g, 7);
        } else {
            goes_in("a length in the entries", &g, 2, 0);
        }
    }
}

/* Heads that cannot be read, and output of every length that is too short. */
static void no_heads(void) {
    uint8_t out[ROOM];
    for (size_t n = 0; n <= 8; n++) {
        given g = good(out, 1);
        g.out_len = g.builder[0] = n;
        if (n < 8) {
            refused(&g, 7);
        } else {
            goes_in("no room at all", &g, 0, 9);
        }
        g.builder[0] = n + 1;
        refused(&g, 8);
    }
    given g = good(out, 1);
    out[4] = 33;
    memset(out + 5, 0, 7);
    g.builder[0] = 12;
    g.builder[1] = 10;
    g.builder[2] = 0;
    refused(&g, 7);
    g.subtype = 4;
    goes_in("33 bits of 128", &g, 2, 0);
    out[4] = 129;
    refused(&g, 7);
}

/* No rows: a good builder is left as it is, and any other refused. Nothing at all is no builder. */
static void no_rows(void) {
    uint8_t out[ROOM];
    given g = good(out, 1);
    g.rows = NULL;
    g.attributes = NULL;
    g.rows_len = g.attributes_len = 0;
    goes_in("no rows", &g, 0, 0);
    refused(&g, 0);
    g.builder[2] = 2;
    refused(&g, 7);
    g = (given){2, NULL, 0, {0, 0, 0, 0}, 0, NULL, 0, NULL, 0};
    refused(&g, 8);
    g.builder_len = 3;
    refused(&g, 7);
    g.subtype = 6;
    refused(&g, 6);
}

/* A row that is refused after two that go in, and before a good one; then alone, where nothing goes in. */
static void stops(const char *what, uint16_t subtype, const uint64_t *row, size_t room, uint32_t says) {
    uint8_t *out = untouched(room), *attributes = untouched(65536 + 8);
    uint64_t rows[20];
    head(out, 1);
    memcpy(rows, two, sizeof two);
    memcpy(rows + 10, row, 5 * sizeof *row);
    memcpy(rows + 15, two, 5 * sizeof *two);
    given g = {subtype, out, room, {8, 6, 1, FILL}, 3, rows, 20, attributes, 65536 + 8};
    goes_in(what, &g, 2, says);
    g.rows += 10;
    g.rows_len = 10;
    g.out_len = says == 9 ? 8 + 7 : room;
    goes_in(what, &g, 0, says);
    free(out);
    free(attributes);
}

/* A row that no push can be asked for, of either path size, whatever the room. */
static void stops_unasked(const char *what, uint64_t a, uint64_t b, uint64_t c, uint64_t start, uint64_t end) {
    const uint64_t row[5] = {a, b, c, start, end};
    for (uint16_t subtype = 2; subtype <= 8; subtype += 6) {
        stops(what, subtype, row, 128, 0);
        stops(what, subtype, row, 8 + 28 + 28, 0);
    }
}

static void rows_that_stop(void) {
    const uint64_t path[5] = {1, 2, 1, 0, 1}, most_path[5] = {1, 2, UINT32_MAX, 0, 0}, wide[5] = {1, 2, 0, 7, 7 + 65536};
    const uint64_t plain[5] = {1, 2, 0, 0, 3}, wide_path[5] = {1, 2, 5, 0, 65536}, most[5] = {1, 2, 0, 9, 9 + 65535};
    stops("a path number", 2, path, 128, 10);
    stops("a path number before the room", 5, path, 8 + 16 + 8, 10);
    stops("the greatest path number", 3, most_path, 128, 10);
    stops("too many attributes", 2, wide, 70000, 10);
    stops("too many attributes, with a path number", 11, wide_path, 70000, 10);
    stops("too many attributes before the room", 4, wide, 8 + 16 + 8, 10);
    stops("no room for one octet", 2, plain, 8 + 16 + 8 + 10, 9);
    stops("no room after a path number", 9, path, 8 + 20 + 12 + 12, 9);
    stops("no room for the most attributes", 2, most, 8 + 16 + 8 + 8 + 65534, 9);
    stops_unasked("a peer index", 65536, 2, 0, 0, 1);
    stops_unasked("the greatest peer index", UINT64_MAX, 2, 0, 0, 1);
    stops_unasked("a time", 1, (uint64_t)UINT32_MAX + 1, 0, 0, 1);
    stops_unasked("the greatest time", 1, UINT64_MAX, 0, 0, 1);
    stops_unasked("a wide path number", 1, 2, (uint64_t)UINT32_MAX + 1, 0, 1);
    stops_unasked("the widest path number", 1, 2, UINT64_MAX, 0, 1);
    stops_unasked("a start after the end", 1, 2, 0, 2, 1);
    stops_unasked("the greatest start", 1, 2, 0, UINT64_MAX, 0);
    stops_unasked("an end beyond the buffer", 1, 2, 0, 65536 + 8, 65536 + 9);
    stops_unasked("the greatest end", 1, 2, 0, 0, UINT64_MAX);
    stops_unasked("both beyond", 1, 2, 0, UINT64_MAX, UINT64_MAX);
    stops_unasked("everything", UINT64_MAX, UINT64_MAX, UINT64_MAX, UINT64_MAX, UINT64_MAX);
}

/* Numbers that look random and are the same in every run. */
static uint64_t seed = 1;

static uint64_t below(uint64_t n) {
    seed ^= seed << 13;
    seed ^= seed >> 7;
    seed ^= seed << 17;
    return seed % n;
}

static uint8_t *noise(size_t n) {
    uint8_t *p = block(n);
    for (size_t i = 0; i < n; i++) {
        p[i] = (uint8_t)below(256);
    }
    return p;
}

/* Attributes of each length from the buffer's front, from one octet on, and up to its end, with exactly the room for them. */
static void every_length(uint16_t subtype) {
    const size_t fixed = subtype < 8 ? 8 : 12;
    for (size_t m = 0; m <= 300; m++) {
        const size_t n = m + 3, room = 8 + 3 * (fixed + m);
        uint8_t *attributes = noise(n), *out = untouched(room);
        const uint64_t path = subtype < 8 ? 0 : UINT32_MAX - m;
        const uint64_t rows[15] = {m, m, path, 0, m, m + 1, m, path, 1, m + 1, m + 2, m, path, n - m, n};
        head(out, 0);
        given g = {subtype, out, room, {8, 6, 0, FILL}, 3, rows, 15, attributes, n};
        goes_in("every length", &g, 3, 0);
        g.out_len--;
        goes_in("every length but one octet", &g, 2, 9);
        free(attributes);
        free(out);
    }
}

/* A body of so many entries takes what is left up to 65,535, whatever the rows and the room are. */
static void nearly_full(void) {
    uint64_t rows[50] = {0};
    uint8_t out[8 + 10 * 12];
    for (uint16_t left = 0; left <= 11; left++) {
        for (uint16_t subtype = 2; subtype <= 8; subtype += 6) {
            memset(out, UNTOUCHED, sizeof out);
            head(out, 65535 - left);
            given g = {subtype, out, sizeof out, {8, 6, 65535 - left, FILL}, 3, rows, 50, NULL, 0};
            goes_in("nearly full", &g, left < 10 ? left : 10, left < 10 ? 10 : 0);
        }
    }
}

/* More rows than a count can hold, by one call. */
static void filled(void) {
    const size_t many = 65540, room = 8 + many * 8;
    uint64_t *rows = places(5 * many);
    uint8_t *out = untouched(room);
    for (size_t i = 0; i < many; i++) {
        const uint64_t row[5] = {i % 65536, i, 0, 0, 0};
        memcpy(rows + 5 * i, row, sizeof row);
    }
    head(out, 0);
    given g = {2, out, room, {8, 6, 0, FILL}, 3, rows, 5 * many, NULL, 0};
    goes_in("filled", &g, 65535, 10);
    free(rows);
    free(out);
}

/* A value that is nearly always below n. */
static uint64_t value(uint64_t n) {
    const uint64_t odd[4] = {n, n + below(3), UINT32_MAX + below(3), UINT64_MAX - below(3)};
    return below(60) ? below(n) : odd[below(4)];
}

static void random_rows(void) {
    static const uint16_t subtypes[8] = {2, 3, 4, 5, 8, 9, 10, 11};
    for (size_t turn = 0; turn < 4000; turn++) {
        const size_t count = below(12), n = below(400), room = 8 + below(2) * below(120) + below(1500);
        uint8_t *attributes = noise(n), *out = untouched(room);
        uint64_t *rows = places(5 * count);
        const uint16_t subtype = subtypes[below(8)], entries = (uint16_t)(below(4) ? below(65536) : 65535 - below(10));
        for (uint64_t *row = rows; row < rows + 5 * count; row += 5) {
            row[0] = value(65536);
            row[1] = value((uint64_t)UINT32_MAX + 1);
            row[2] = subtype < 8 ? !below(40) : value((uint64_t)UINT32_MAX + 1);
            row[3] = value(n + 1);
            row[4] = below(60) && row[3] <= n ? row[3] + below(n + 1 - row[3]) : value(n + 1);
        }
        head(out, entries);
        given g = {subtype, out, room, {8, 6, entries, FILL}, 3, rows, 5 * count, attributes, n};
        uint32_t says;
        size_t went = pushed(&g, &says);
        expect(went == count || says || !askable(&g, rows + 5 * went), "rows stop at one that is refused", turn, says);
        free(attributes);
        free(out);
        free(rows);
    }
}

/* The entries of a body, handed out by so many at a time and pushed after its head, are that body again. */
static void there_and_back(const uint8_t *body, size_t n, uint16_t subtype, size_t chunk) {
    uint8_t *out = untouched(n);
    uint64_t *rows = places(5 * chunk), cursor[2], builder[4] = {8, 6, 0, FILL};
    head(out, 0);
    expect(mrt_rib_first(body, n, subtype, cursor, 2) == 0, "the first entry", n, chunk);
    for (;;) {
        mrt_handed read = mrt_rib_entries(body, n, subtype, cursor, 2, rows, 5 * chunk);
        mrt_handed wrote = mrt_push_entries(out, n, subtype, builder, 3, rows, 5 * read.count, body, n);
        expect(read.refusal == 0 && wrote.refusal == 0 && wrote.count == read.count, "a chunk", read.count, wrote.count);
        if (read.count < chunk) {
            break;
        }
    }
    expect(builder[0] == n && cursor[0] == n && same(out, body, n), "there and back", builder[0], n);
    free(rows);
    free(out);
}

/* A body of many entries, with attributes of 0 to 149 octets, some of them many more. */
static void bodies(uint16_t subtype, size_t entries, size_t chunk) {
    const size_t room = 8 + entries * (12 + 150) + (entries / 1000 + 1) * 65535;
    uint8_t *out = untouched(room), *attributes = noise(65535);
    uint64_t builder[3] = {8, 6, 0};
    head(out, 0);
    for (size_t i = 0; i < entries; i++) {
        const size_t m = i % 1000 == 999 ? 65535 - below(10) : below(150);
        const uint32_t path = subtype < 8 ? 0 : (uint32_t)below(UINT32_MAX);
        uint32_t said = mrt_push_entry(out, room, subtype, builder, 3, (uint16_t)i, (uint32_t)below(UINT32_MAX), path,
                                       attributes + below(65536 - m), m);
        expect(said == 0, "an entry of a body", said, i);
    }
    uint8_t *body = copy(out, builder[0]);
    there_and_back(body, builder[0], subtype, chunk);
    free(body);
    free(out);
    free(attributes);
}

static void whole_bodies(void) {
    for (size_t entries = 0; entries <= 20; entries++) {
        for (size_t chunk = 1; chunk <= 21; chunk += 4) {
            bodies(4, entries, chunk);
            bodies(10, entries, chunk);
        }
    }
    bodies(3, 2500, 16);
    bodies(9, 2500, 64);
    bodies(2, 65535, 1024);
}

static void all(void) {
    refusals_in_order();
    refusals_at_the_ends();
    no_heads();
    no_rows();
    rows_that_stop();
    every_length(2);
    every_length(8);
    nearly_full();
    random_rows();
}

int main(void) {
    all();
    guard = 32;
    all();
    filled();
    whole_bodies();
    return result();
}
