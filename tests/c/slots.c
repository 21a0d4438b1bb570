/*
 * Calls every export over peer slots with odd arguments and holds answer and memory to what include/mrt.h says.
 *
 *     cc -std=c11 -Wall -Wextra -Werror -Iinclude tests/c/slots.c libmrt.a -o slots && ./slots
 */
#include "help.h"

/* A table with a view name of two octets, an IPv4 peer with a two-octet AS and an IPv6 peer with a four-octet one. */
static const uint8_t table[46] = {
    255, 0, 0, 1, 0, 2, 'a', 'b', 0, 2,
    0, 1, 1, 1, 1, 10, 0, 0, 1, 0, 1,
    3, 2, 2, 2, 2, 32, 1, 13, 184, 0, 0, 0, 0, 0, 0, 0, 0, 0, 0, 0, 1, 0, 1, 0, 0,
};

static const mrt_peer held[2] = {
    {.type = 0, .id = 0x01010101, .addr = {10, 0, 0, 1}, .asn = 1},
    {.type = 3, .id = 0x02020202, .addr = {32, 1, 13, 184, [15] = 1}, .asn = 65536},
};

static int same_peer(const mrt_peer *a, const mrt_peer *b) {
    return a->type == b->type && a->id == b->id && a->asn == b->asn && same(a->addr, b->addr, 16);
}

/* Slots that nobody has written to. */
static mrt_peer *slots(size_t n) {
    mrt_peer *p = block(n * sizeof *p);
    if (n) {
        memset(p, UNTOUCHED, n * sizeof *p);
    }
    return p;
}

/* The first slots hold these peers, and the others are untouched. */
static int hold(const mrt_peer *p, size_t n, const mrt_peer *want, size_t count) {
    for (size_t i = 0; i < n; i++) {
        mrt_peer other;
        memset(&other, UNTOUCHED, sizeof other);
        if (!same_peer(p + i, i < count ? want + i : &other)) {
            return 0;
        }
    }
    return 1;
}

static void loads(void) {
    for (size_t n = 0; n <= sizeof table + 1; n++) {
        uint8_t *body = block(n);
        for (size_t i = 0; i < n; i++) {
            body[i] = i < sizeof table ? table[i] : 7;
        }
        for (size_t len = 0; len <= 3; len++) {
            mrt_peer *p = slots(len);
            uint32_t want = n < sizeof table ? 7 : len < 2 ? 9 : 0, got = mrt_load_peers(body, n, p, len);
            expect(got == want, "load", got, want);
            expect(hold(p, len, held, want ? 0 : 2), "slots after a load", n, len);
            free(p);
        }
        free(body);
    }
    expect(mrt_load_peers(NULL, 0, NULL, 0) == 7, "load nothing", 0, 0);
}

static void found(const char *what, mrt_found got, uint32_t number, uint32_t id) {
    expect(got.refusal == number, what, got.refusal, number);
    expect(got.id == (number ? 0 : id), what, got.id, id);
}

/* Peers A, A, B: the highest id of an address, by its family. */
static void finds(void) {
    const uint8_t a[16] = {10, 0, 0, 1}, tail[16] = {10, 0, 0, 1, 9, 9}, none[16] = {10, 0, 0, 2};
    mrt_peer *p = slots(4);
    p[0] = p[1] = held[0];
    p[2] = held[1];
    found("the highest id", mrt_find_peer(p, 4, 3, 0, a, 16), 0, 1);
    found("four octets alone", mrt_find_peer(p, 4, 3, 2, tail, 16), 0, 1);
    found("an IPv6 address", mrt_find_peer(p, 4, 3, 1, held[1].addr, 16), 0, 2);
    found("another family", mrt_find_peer(p, 4, 3, 1, a, 16), 8, 0);
    found("an address not held", mrt_find_peer(p, 4, 3, 0, none, 16), 8, 0);
    found("beyond the count", mrt_find_peer(p, 4, 2, 1, held[1].addr, 16), 8, 0);
    found("no peers", mrt_find_peer(p, 4, 0, 0, a, 16), 8, 0);
    found("a count beyond the slots", mrt_find_peer(p, 4, 5, 0, a, 16), 8, 0);
    found("the largest count", mrt_find_peer(p, 4, SIZE_MAX, 0, a, 16), 8, 0);
    for (size_t len = 0; len <= 16; len++) {
        uint8_t *addr = copy(a, len);
        found("an address that is cut", mrt_find_peer(p, 4, 3, 0, addr, len), len < 16 ? 8 : 0, 1);
        free(addr);
    }
    found("nothing at all", mrt_find_peer(NULL, 0, 0, 255, NULL, 0), 8, 0);
    free(p);
}

/* A new peer after A, A, B, and what must be refused. */
static void adds(void) {
    const uint8_t c[16] = {10, 0, 0, 3, 9, 9};
    const mrt_peer new_peer = {.type = 2, .id = 9, .addr = {10, 0, 0, 3}, .asn = UINT32_MAX};
    for (size_t len = 3; len <= 5; len++) {
        mrt_peer *p = slots(len), want[4] = {held[0], held[0], held[1], new_peer};
        memcpy(p, want, 3 * sizeof *p);
        found("a known address", mrt_add_peer(p, len, 3, 0, 5, held[0].addr, 16, 5), 0, 1);
        expect(hold(p, len, want, 3), "slots after a known address", len, 0);
        found("a count beyond the slots", mrt_add_peer(p, len, len + 1, 2, 9, c, 16, 1), 8, 0);
        found("an address that is cut", mrt_add_peer(p, len, 3, 2, 9, c, 15, 1), 8, 0);
        found("a known address that is cut", mrt_add_peer(p, len, 3, 0, 5, held[0].addr, 4, 5), 8, 0);
        expect(hold(p, len, want, 3), "slots after a refusal", len, 0);
        found("a new address", mrt_add_peer(p, len, 3, 2, 9, c, 16, UINT32_MAX), len == 3 ? 9 : 0, 3);
        expect(hold(p, len, want, len == 3 ? 3 : 4), "slots after a new address", len, 0);
        free(p);
    }
    found("no slots", mrt_add_peer(NULL, 0, 0, 0, 0, c, 16, 0), 9, 0);
    found("nothing at all", mrt_add_peer(NULL, 0, 0, 0, 0, NULL, 0, 0), 8, 0);
}

/* As many peers as a count can hold, and no more. */
static void filled(void) {
    const size_t len = 65537;
    mrt_peer *p = slots(len);
    for (uint32_t i = 0; i < 65535; i++) {
        p[i] = (mrt_peer){.type = 2, .addr = {(uint8_t)(i >> 16), (uint8_t)(i >> 8), (uint8_t)i, 1}, .asn = i};
    }
    const uint8_t c[16] = {10, 0, 0, 3};
    found("the 65,536th peer", mrt_add_peer(p, len, 65535, 0, 0, c, 16, 0), 10, 0);
    found("the 65,535th peer again", mrt_add_peer(p, len, 65534, 0, 0, c, 16, 0), 0, 65534);
    found("a count above 65,535", mrt_add_peer(p, len, 65536, 0, 0, c, 16, 0), 8, 0);
    found("the first of many", mrt_find_peer(p, len, 65535, 0, p[0].addr, 16), 0, 0);
    const size_t size = 8 + 11 + 65534u * 13;
    uint8_t *out = untouched(size);
    mrt_written got = mrt_write_peers(out, size, 1, NULL, 0, p, len, 65536);
    expect(got.refusal == 8 && got.octets == 0 && out[0] == UNTOUCHED, "more peers than a count holds", got.refusal, 0);
    got = mrt_write_peers(out, size, 1, NULL, 0, p, len, 65535);
    expect(got.refusal == 0 && got.octets == size, "a full table", got.refusal, got.octets);
    mrt_peer *back = slots(65535);
    expect(mrt_load_peers(out, size, back, 65535) == 0 && same_peer(back + 65534, p + 65534), "a full table read back", 0, 0);
    free(back);
    free(out);
    free(p);
}

/* The table with each room up to one octet too much: its own octets, or a refusal that leaves the output. */
static void writes(void) {
    mrt_peer *p = slots(3);
    memcpy(p, held, sizeof held);
    p[2] = (mrt_peer){.type = 1, .asn = 65536};
    uint8_t *view = untouched(65536);
    for (size_t len = 0; len <= sizeof table + 1; len++) {
        uint8_t *out = untouched(len), *want = untouched(len);
        uint32_t number = len < sizeof table ? 9 : 0;
        if (!number) {
            memcpy(want, table, sizeof table);
        }
        mrt_written got = mrt_write_peers(out, len, 0xff000001, (const uint8_t *)"ab", 2, p, 3, 2);
        expect(got.refusal == number && got.octets == (number ? 0 : sizeof table), "write", got.refusal, got.octets);
        expect(same(out, want, len), "octets written", len, 0);
        expect(mrt_write_peers(out, len, 0, view, 65536, p, 3, 4).refusal == 8, "a count beyond the slots", len, 0);
        expect(mrt_write_peers(out, len, 0, view, 65536, p, 3, 2).refusal == 10, "a view name that is too long", len, 0);
        expect(mrt_write_peers(out, len, 0, NULL, 0, p, 3, 3).refusal == 10, "an AS that does not fit", len, 0);
        expect(same(out, want, len), "octets after a refusal", len, 0);
        free(out);
        free(want);
    }
    uint8_t empty[8];
    expect(mrt_write_peers(empty, 8, 1, NULL, 0, NULL, 0, 0).octets == 8, "a table of no peers", 0, 0);
    expect(mrt_write_peers(NULL, 0, 1, NULL, 0, NULL, 0, 0).refusal == 9, "nothing at all", 0, 0);
    free(view);
    free(p);
}

int main(void) {
    expect(sizeof(mrt_peer) == 28, "the size of a slot", sizeof(mrt_peer), 28);
    loads();
    finds();
    adds();
    filled();
    writes();
    return result();
}
