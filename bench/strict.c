/* What the walk is measured against: readers of each message of bench/run, written by hand for that one type. Each
   reads DER strictly (the shortest lengths and integers, the order of a SET and of a SET OF) and tests the constraints
   of the one rule. bench/peer.c times them and sets them on a pipe.

   Of text there are two: a loop that the compiler doesn't make into lanes, and lanes of AVX2 written by hand; `copy`
   copies the octets. */
#include "peer.h"
#include <immintrin.h>
#include <stdint.h>
#include <string.h>

/* The contents of the element at `at`, whose identifier is one octet: from `*from` to `*to`. */
static inline int element(message m, size_t at, size_t end, unsigned tag, size_t *from, size_t *to) {
    if (at >= end || m.octets[at] != tag || ++at >= end) return 0;
    size_t length = m.octets[at++];
    if (length >= 128) {
        unsigned many = length & 127;
        if (many == 0 || many > 4 || many > end - at || m.octets[at] == 0) return 0;
        for (length = 0; many--;) length = length << 8 | m.octets[at++];
        if (length < 128) return 0;
    }
    if (length > end - at) return 0;
    *from = at;
    *to = at + length;
    return 1;
}

static inline int shortest(message m, size_t from, size_t to) {
    const unsigned char *p = m.octets + from;
    return to > from && !(to - from > 1 && ((p[0] == 0 && p[1] < 128) || (p[0] == 255 && p[1] > 127)));
}

static inline int number(message m, size_t from, size_t to, int64_t low, int64_t high) {
    if (!shortest(m, from, to) || to - from > 8) return 0;
    int64_t n = (int8_t)m.octets[from++];
    for (; from < to; from++) n = (int64_t)((uint64_t)n << 8 | m.octets[from]);
    return n >= low && n <= high;
}

static int utf8(message m, size_t from, size_t to, size_t most) {
    const unsigned char *p = m.octets;
    size_t characters = 0;
    while (from < to) {
        unsigned code = p[from++], more, least;
        if (code < 0x80) more = 0, least = 0;
        else if (code >= 0xC2 && code < 0xE0) more = 1, code &= 31, least = 0x80;
        else if (code >> 4 == 14) more = 2, code &= 15, least = 0x800;
        else if (code >= 0xF0 && code < 0xF5) more = 3, code &= 7, least = 0x10000;
        else return 0;
        if (more > to - from) return 0;
        for (; more; more--) {
            if ((p[from] & 0xC0) != 0x80) return 0;
            code = code << 6 | (p[from++] & 63);
        }
        if (code < least || code > 0x10FFFF || (code >= 0xD800 && code < 0xE000)) return 0;
        characters++;
    }
    return characters <= most;
}

static inline int an_order(message m, int64_t low, int64_t high, int any) {
    size_t at, end, from, to;
    if (!element(m, 0, m.end, 0x30, &at, &end) || end != m.end) return 0;
    if (!element(m, at, end, 0x80, &from, &to) || !number(m, from, to, 0, 99999)) return 0;
    at = to;
    if (!element(m, at, end, 0x81, &from, &to) || to - from != 1 || m.octets[from] > 1) return 0;
    at = to;
    if (at < end && m.octets[at] == 0x82) {
        if (!element(m, at, end, 0x82, &from, &to) || !number(m, from, to, 1, 10)) return 0;
        if (to - from == 1 && m.octets[from] == 1) return 0;
        at = to;
    }
    if (at < end && m.octets[at] == 0x83) {
        if (!element(m, at, end, 0x83, &from, &to) || !utf8(m, from, to, 20)) return 0;
        at = to;
    }
    if (!element(m, at, end, 0xA4, &at, &to) || to != end) return 0;
    while (at < end) {
        if (!element(m, at, end, 2, &from, &to)) return 0;
        if (any ? !shortest(m, from, to) || to - from > 16 : !number(m, from, to, low, high)) return 0;
        at = to;
    }
    return 1;
}

static int order(message m) { return an_order(m, 0, 0, 1); }

static int bulk(message m) { return an_order(m, 0, 32767, 0); }

static int level(message m, size_t at, size_t end, int deep) {
    size_t from, to;
    for (; at < end; at = to) {
        if (!element(m, at, end, deep ? 0x30 : 2, &from, &to)) return 0;
        if (deep ? !level(m, from, to, deep - 1) : !number(m, from, to, 0, 100)) return 0;
    }
    return 1;
}

static int nest(message m) {
    size_t from, to;
    return element(m, 0, m.end, 0x30, &from, &to) && to == m.end && level(m, from, to, 29);
}

__attribute__((optimize("O2", "no-tree-vectorize"))) static int digits(const unsigned char *p, size_t size) {
    for (size_t at = 0; at < size; at++)
        if ((unsigned char)(p[at] - '0') > 9) return 0;
    return 1;
}

__attribute__((target("avx2"))) static int digits_by_lanes(const unsigned char *p, size_t size) {
    size_t at = 0;
    __m256i low = _mm256_set1_epi8('0'), span = _mm256_set1_epi8(9), bad = _mm256_setzero_si256();
    for (; at + 128 <= size; at += 128) {
        for (int lanes = 0; lanes < 4; lanes++) {
            __m256i of = _mm256_sub_epi8(_mm256_loadu_si256((const void *)(p + at + 32 * lanes)), low);
            bad = _mm256_or_si256(bad, _mm256_xor_si256(_mm256_max_epu8(of, span), span));
        }
        if (!_mm256_testz_si256(bad, bad)) return 0;
    }
    return digits(p + at, size - at);
}

static int text(message m) {
    size_t from, to;
    return element(m, 0, m.end, 0x16, &from, &to) && to == m.end && digits(m.octets + from, to - from);
}

static int text_by_lanes(message m) {
    size_t from, to;
    return element(m, 0, m.end, 0x16, &from, &to) && to == m.end && digits_by_lanes(m.octets + from, to - from);
}

static int characters(message m) {
    size_t from, to;
    return element(m, 0, m.end, 0x0C, &from, &to) && to == m.end && utf8(m, from, to, (size_t)-1);
}

/* A SET of 64 components with the tags 0 to 63, each a number of at most 100; they come in the order of their tags. */
static int set(message m) {
    size_t at, end, from, to;
    if (!element(m, 0, m.end, 0x30, &at, &end) || end != m.end) return 0;
    for (size_t next; at < end; at = next) {
        size_t part, last;
        if (!element(m, at, end, 0x31, &part, &last)) return 0;
        next = last;
        for (unsigned tag = 0; tag < 64; tag++) {
            if (tag < 31) {
                if (!element(m, part, last, 0x80 | tag, &from, &to)) return 0;
            } else {
                if (part + 1 >= last || m.octets[part] != 0x9F) return 0;
                if (!element(m, part + 1, last, tag, &from, &to)) return 0;
            }
            if (!number(m, from, to, 0, 100)) return 0;
            part = to;
        }
        if (part != last) return 0;
    }
    return 1;
}

/* A SET OF numbers, each element not less than the one before: octet by octet, the shorter one filled with zeros. */
static int set_of(message m) {
    size_t at, end, from, to, before = 0, before_end = 0;
    if (!element(m, 0, m.end, 0x31, &at, &end) || end != m.end) return 0;
    for (; at < end; at = to) {
        if (!element(m, at, end, 2, &from, &to) || !shortest(m, from, to) || to - from > 16) return 0;
        if (before_end) {
            size_t one = before_end - before, other = to - at, least = one < other ? one : other;
            int order = memcmp(m.octets + before, m.octets + at, least);
            if (order > 0) return 0;
            if (order == 0)
                for (size_t k = other; k < one; k++)
                    if (m.octets[before + k]) return 0;
        }
        before = at;
        before_end = to;
    }
    return 1;
}

static unsigned char into[1 << 21];

static int copy(message m) {
    if (m.end > sizeof into) return 0;
    memcpy(into, m.octets, m.end);
    __asm__ volatile("" ::"r"(into) : "memory");
    return 1;
}

static const struct { const char *name; reader *read; } cases[] = {
    {"order", order}, {"bulk", bulk}, {"nest", nest}, {"text", text}, {"text-avx2", text_by_lanes},
    {"utf8", characters}, {"set", set}, {"set-of", set_of}, {"copy", copy},
};

reader *reader_of(const char *name) {
    for (size_t at = 0; at < sizeof cases / sizeof *cases; at++)
        if (!strcmp(name, cases[at].name)) return cases[at].read;
    return NULL;
}
