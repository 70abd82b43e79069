/* SHA-1 with its 80 steps written out; the schedule is kept in 16 words. */
#include "sha1.h"
#include "words.h"

#include <string.h>

static inline uint32_t rotl(uint32_t x, int n)
{
    return x << n | x >> (32 - n);
}

#define CHOOSE(b, c, d) ((d) ^ ((b) & ((c) ^ (d))))
#define PARITY(b, c, d) ((b) ^ (c) ^ (d))
#define MAJORITY(b, c, d) (((b) & (c)) + ((d) & ((b) ^ (c))))

#define FRESH(t) (w[t] = load_big32(p + 4 * (t)))
#define MIXED(t) (w[(t) & 15] = rotl(w[((t) + 13) & 15] ^ w[((t) + 8) & 15] ^ w[((t) + 2) & 15] ^ w[(t) & 15], 1))

#define STEP(a, b, c, d, e, f, k, word)        \
    do {                                       \
        e += rotl(a, 5) + f(b, c, d) + k + word; \
        b = rotl(b, 30);                       \
    } while (0)
#define FIVE(f, k, word, t)                     \
    do {                                        \
        STEP(a, b, c, d, e, f, k, word(t));     \
        STEP(e, a, b, c, d, f, k, word(t + 1)); \
        STEP(d, e, a, b, c, f, k, word(t + 2)); \
        STEP(c, d, e, a, b, f, k, word(t + 3)); \
        STEP(b, c, d, e, a, f, k, word(t + 4)); \
    } while (0)
#define TWENTY(f, k, t)          \
    do {                         \
        FIVE(f, k, MIXED, t);      \
        FIVE(f, k, MIXED, t + 5);  \
        FIVE(f, k, MIXED, t + 10); \
        FIVE(f, k, MIXED, t + 15); \
    } while (0)

static void blocks(uint32_t h[5], const uint8_t *p, size_t count)
{
    for (; count; count--, p += 64) {
        uint32_t w[16];
        uint32_t a = h[0], b = h[1], c = h[2], d = h[3], e = h[4];
        FIVE(CHOOSE, 0x5a827999u, FRESH, 0);
        FIVE(CHOOSE, 0x5a827999u, FRESH, 5);
        FIVE(CHOOSE, 0x5a827999u, FRESH, 10);
        STEP(a, b, c, d, e, CHOOSE, 0x5a827999u, FRESH(15));
        STEP(e, a, b, c, d, CHOOSE, 0x5a827999u, MIXED(16));
        STEP(d, e, a, b, c, CHOOSE, 0x5a827999u, MIXED(17));
        STEP(c, d, e, a, b, CHOOSE, 0x5a827999u, MIXED(18));
        STEP(b, c, d, e, a, CHOOSE, 0x5a827999u, MIXED(19));
        TWENTY(PARITY, 0x6ed9eba1u, 20);
        TWENTY(MAJORITY, 0x8f1bbcdcu, 40);
        TWENTY(PARITY, 0xca62c1d6u, 60);
        h[0] += a;
        h[1] += b;
        h[2] += c;
        h[3] += d;
        h[4] += e;
    }
}

void sha1_start(sha1_state *s)
{
    static const uint32_t start[5] = {0x67452301u, 0xefcdab89u, 0x98badcfeu, 0x10325476u, 0xc3d2e1f0u};
    memcpy(s->h, start, sizeof start);
    s->length = 0;
}

void sha1_take(sha1_state *s, const uint8_t *data, size_t length)
{
    size_t have = s->length % 64;
    s->length += length;
    if (have) {
        size_t part = 64 - have < length ? 64 - have : length;
        memcpy(s->block + have, data, part);
        data += part;
        length -= part;
        if (have + part < 64)
            return;
        blocks(s->h, s->block, 1);
    }
    blocks(s->h, data, length / 64);
    memcpy(s->block, data + length / 64 * 64, length % 64);
}

void sha1_end(sha1_state *s, uint8_t hash[20])
{
    size_t have = s->length % 64;
    s->block[have++] = 0x80;
    if (have > 56) {
        memset(s->block + have, 0, 64 - have);
        blocks(s->h, s->block, 1);
        have = 0;
    }
    memset(s->block + have, 0, 56 - have);
    store_big32(s->block + 56, (uint32_t)(s->length >> 29));
    store_big32(s->block + 60, (uint32_t)(s->length << 3));
    blocks(s->h, s->block, 1);
    for (int i = 0; i < 5; i++)
        store_big32(hash + 4 * i, s->h[i]);
}
