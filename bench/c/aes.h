/* AES (FIPS 197), encryption only, and its counter mode from block 0. */
#ifndef AES_H
#define AES_H

#include <stddef.h>
#include <stdint.h>

typedef struct {
    uint32_t words[60];
    int rounds;
} aes_key;

/* A place in a key stream: the next block's number and what is left of the block before. */
typedef struct {
    uint64_t next;
    uint8_t block[16];
    unsigned used;
} aes_stream;

/* Fills the tables; once, before anything else. */
void aes_tables(void);

/* Expands a key of 16 or 32 bytes. */
void aes_expand(aes_key *k, const uint8_t *key, int length);

void aes_stream_start(aes_stream *s);

/* Adds the next key-stream bytes to the data. */
void aes_stream_xor(const aes_key *k, aes_stream *s, uint8_t *data, size_t length);

#endif
