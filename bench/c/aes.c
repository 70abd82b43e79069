/* AES with four tables of 256 words: T0[b] is S(b) times the column (2, 1, 1, 3), the others are its rotations.
 * The counter has 64 bits here; a circuit ends long before block 2^64. */
#include "aes.h"
#include "words.h"

static uint8_t S[256];
static uint32_t T0[256], T1[256], T2[256], T3[256];

static uint8_t twice(uint8_t b)
{
    return (uint8_t)(b << 1 ^ (b >> 7) * 0x1b);
}

static uint8_t rotl8(uint8_t b, int n)
{
    return (uint8_t)(b << n | b >> (8 - n));
}

static uint32_t rotr32(uint32_t w, int n)
{
    return w >> n | w << (32 - n);
}

void aes_tables(void)
{
    /* p runs over the powers of 3 and q over those of its inverse 0xf6, so q is always the inverse of p. */
    uint8_t p = 1, q = 1;
    do {
        p = (uint8_t)(p ^ twice(p));
        q ^= (uint8_t)(q << 1);
        q ^= (uint8_t)(q << 2);
        q ^= (uint8_t)(q << 4);
        q ^= (uint8_t)((q >> 7) * 0x09);
        S[p] = (uint8_t)(q ^ rotl8(q, 1) ^ rotl8(q, 2) ^ rotl8(q, 3) ^ rotl8(q, 4) ^ 0x63);
    } while (p != 1);
    S[0] = 0x63;
    for (int b = 0; b < 256; b++) {
        uint8_t s = S[b], d = twice(s);
        T0[b] = (uint32_t)d << 24 | (uint32_t)s << 16 | (uint32_t)s << 8 | (uint32_t)(d ^ s);
        T1[b] = rotr32(T0[b], 8);
        T2[b] = rotr32(T0[b], 16);
        T3[b] = rotr32(T0[b], 24);
    }
}

static uint32_t substitute(uint32_t w)
{
    return (uint32_t)S[w >> 24] << 24 | (uint32_t)S[w >> 16 & 255] << 16 | (uint32_t)S[w >> 8 & 255] << 8 | S[w & 255];
}

void aes_expand(aes_key *k, const uint8_t *key, int length)
{
    uint32_t *w = k->words;
    int nk = length / 4;
    uint8_t power = 1;
    k->rounds = nk + 6;
    for (int i = 0; i < nk; i++)
        w[i] = load_big32(key + 4 * i);
    for (int i = nk; i < 4 * (nk + 7); i += nk) {
        w[i] = w[i - nk] ^ substitute(rotr32(w[i - 1], 24)) ^ (uint32_t)power << 24;
        power = twice(power);
        for (int j = i + 1; j < i + nk && j < 4 * (nk + 7); j++)
            w[j] = w[j - nk] ^ (nk == 8 && j % 8 == 4 ? substitute(w[j - 1]) : w[j - 1]);
    }
}

#define COLUMN(a, b, c, d, key) \
    (T0[(a) >> 24] ^ T1[(b) >> 16 & 255] ^ T2[(c) >> 8 & 255] ^ T3[(d) & 255] ^ (key))
#define LAST(a, b, c, d, key)                                                                       \
    (((uint32_t)S[(a) >> 24] << 24 | (uint32_t)S[(b) >> 16 & 255] << 16 | (uint32_t)S[(c) >> 8 & 255] << 8 | \
      S[(d) & 255]) ^                                                                               \
     (key))

#define ROUND(t, s, key)                                  \
    do {                                                  \
        t##0 = COLUMN(s##0, s##1, s##2, s##3, (key)[0]); \
        t##1 = COLUMN(s##1, s##2, s##3, s##0, (key)[1]); \
        t##2 = COLUMN(s##2, s##3, s##0, s##1, (key)[2]); \
        t##3 = COLUMN(s##3, s##0, s##1, s##2, (key)[3]); \
    } while (0)

/* Key-stream block c as four words. Rounds go by twos: the number of rounds is 10 or 14. */
static inline void counter_block(const aes_key *k, uint64_t c, uint32_t out[4])
{
    const uint32_t *w = k->words;
    uint32_t s0 = w[0], s1 = w[1], s2 = w[2] ^ (uint32_t)(c >> 32), s3 = w[3] ^ (uint32_t)c;
    uint32_t t0, t1, t2, t3;
    for (int pairs = k->rounds / 2 - 1; pairs > 0; pairs--, w += 8) {
        ROUND(t, s, w + 4);
        ROUND(s, t, w + 8);
    }
    ROUND(t, s, w + 4);
    out[0] = LAST(t0, t1, t2, t3, w[8]);
    out[1] = LAST(t1, t2, t3, t0, w[9]);
    out[2] = LAST(t2, t3, t0, t1, w[10]);
    out[3] = LAST(t3, t0, t1, t2, w[11]);
}

void aes_stream_start(aes_stream *s)
{
    s->next = 0;
    s->used = 16;
}

void aes_stream_xor(const aes_key *k, aes_stream *s, uint8_t *data, size_t length)
{
    uint32_t words[4];
    while (length && s->used < 16) {
        *data++ ^= s->block[s->used++];
        length--;
    }
    for (; length >= 16; data += 16, length -= 16) {
        counter_block(k, s->next++, words);
        for (int i = 0; i < 4; i++)
            store_big32(data + 4 * i, load_big32(data + 4 * i) ^ words[i]);
    }
    if (length) {
        counter_block(k, s->next++, words);
        for (int i = 0; i < 4; i++)
            store_big32(s->block + 4 * i, words[i]);
        for (s->used = 0; s->used < length; s->used++)
            data[s->used] ^= s->block[s->used];
    }
}
