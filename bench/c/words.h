/* Words in memory: big-endian for AES and SHA-1, little-endian for SHA3. */
#ifndef WORDS_H
#define WORDS_H

#include <stdint.h>
#include <string.h>

#if __BYTE_ORDER__ == __ORDER_LITTLE_ENDIAN__
#define BIG32(w) __builtin_bswap32(w)
#define LITTLE64(w) (w)
#else
#define BIG32(w) (w)
#define LITTLE64(w) __builtin_bswap64(w)
#endif

static inline uint32_t load_big32(const uint8_t *p)
{
    uint32_t w;
    memcpy(&w, p, 4);
    return BIG32(w);
}

static inline void store_big32(uint8_t *p, uint32_t w)
{
    w = BIG32(w);
    memcpy(p, &w, 4);
}

static inline uint64_t load_little64(const uint8_t *p)
{
    uint64_t w;
    memcpy(&w, p, 8);
    return LITTLE64(w);
}

static inline void store_little64(uint8_t *p, uint64_t w)
{
    w = LITTLE64(w);
    memcpy(p, &w, 8);
}

#endif
