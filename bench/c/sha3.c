/* SHA3-256 with its lanes in local variables and two rounds written out. Lane (x, y) is named by a letter for y
 * (b, g, k, m, s) and one for x (a, e, i, o, u). Six lanes are kept complemented during the rounds, which saves most
 * of the complements in step chi. */
#include "sha3.h"
#include "words.h"

#include <string.h>

static const uint64_t CONSTANTS[24] = {
    0x0000000000000001u, 0x0000000000008082u, 0x800000000000808au, 0x8000000080008000u, 0x000000000000808bu,
    0x0000000080000001u, 0x8000000080008081u, 0x8000000000008009u, 0x000000000000008au, 0x0000000000000088u,
    0x0000000080008009u, 0x000000008000000au, 0x000000008000808bu, 0x800000000000008bu, 0x8000000000008089u,
    0x8000000000008003u, 0x8000000000008002u, 0x8000000000000080u, 0x000000000000800au, 0x800000008000000au,
    0x8000000080008081u, 0x8000000000008080u, 0x0000000080000001u, 0x8000000080008008u,
};

static inline uint64_t rotl(uint64_t x, int n)
{
    return x << n | x >> (64 - n);
}

#define LANES(A)                                                                                      \
    uint64_t A##ba, A##be, A##bi, A##bo, A##bu, A##ga, A##ge, A##gi, A##go, A##gu, A##ka, A##ke, A##ki, A##ko, A##ku, \
        A##ma, A##me, A##mi, A##mo, A##mu, A##sa, A##se, A##si, A##so, A##su

/* One row of rho and pi: five lanes with theta's difference added, rotated. */
#define ROW(A, n0, d0, r0, n1, d1, r1, n2, d2, r2, n3, d3, r3, n4, d4, r4) \
    Ba = rotl(A##n0 ^ D##d0, r0);                                          \
    Be = rotl(A##n1 ^ D##d1, r1);                                          \
    Bi = rotl(A##n2 ^ D##d2, r2);                                          \
    Bo = rotl(A##n3 ^ D##d3, r3);                                          \
    Bu = rotl(A##n4 ^ D##d4, r4)

#define ROUND(A, E, constant)                                                  \
    do {                                                                       \
        uint64_t Ba, Be, Bi, Bo, Bu;                                           \
        uint64_t Ca = A##ba ^ A##ga ^ A##ka ^ A##ma ^ A##sa;                   \
        uint64_t Ce = A##be ^ A##ge ^ A##ke ^ A##me ^ A##se;                   \
        uint64_t Ci = A##bi ^ A##gi ^ A##ki ^ A##mi ^ A##si;                   \
        uint64_t Co = A##bo ^ A##go ^ A##ko ^ A##mo ^ A##so;                   \
        uint64_t Cu = A##bu ^ A##gu ^ A##ku ^ A##mu ^ A##su;                   \
        uint64_t Da = Cu ^ rotl(Ce, 1), De = Ca ^ rotl(Ci, 1);                 \
        uint64_t Di = Ce ^ rotl(Co, 1), Do = Ci ^ rotl(Cu, 1);                 \
        uint64_t Du = Co ^ rotl(Ca, 1);                                        \
        Ba = A##ba ^ Da;                                                       \
        Be = rotl(A##ge ^ De, 44);                                             \
        Bi = rotl(A##ki ^ Di, 43);                                             \
        Bo = rotl(A##mo ^ Do, 21);                                             \
        Bu = rotl(A##su ^ Du, 14);                                             \
        E##ba = Ba ^ (Be | Bi) ^ (constant);                                   \
        E##be = Be ^ (~Bi | Bo);                                               \
        E##bi = Bi ^ (Bo & Bu);                                                \
        E##bo = Bo ^ (Bu | Ba);                                                \
        E##bu = Bu ^ (Ba & Be);                                                \
        ROW(A, bo, o, 28, gu, u, 20, ka, a, 3, me, e, 45, si, i, 61);          \
        E##ga = Ba ^ (Be | Bi);                                                \
        E##ge = Be ^ (Bi & Bo);                                                \
        E##gi = Bi ^ (Bo | ~Bu);                                               \
        E##go = Bo ^ (Bu | Ba);                                                \
        E##gu = Bu ^ (Ba & Be);                                                \
        ROW(A, be, e, 1, gi, i, 6, ko, o, 25, mu, u, 8, sa, a, 18);            \
        E##ka = Ba ^ (Be | Bi);                                                \
        E##ke = Be ^ (Bi & Bo);                                                \
        E##ki = Bi ^ (~Bo & Bu);                                               \
        E##ko = ~Bo ^ (Bu | Ba);                                               \
        E##ku = Bu ^ (Ba & Be);                                                \
        ROW(A, bu, u, 27, ga, a, 36, ke, e, 10, mi, i, 15, so, o, 56);         \
        E##ma = Ba ^ (Be & Bi);                                                \
        E##me = Be ^ (Bi | Bo);                                                \
        E##mi = Bi ^ (~Bo | Bu);                                               \
        E##mo = ~Bo ^ (Bu & Ba);                                               \
        E##mu = Bu ^ (Ba | Be);                                                \
        ROW(A, bi, i, 62, go, o, 55, ku, u, 39, ma, a, 41, se, e, 2);          \
        E##sa = Ba ^ (~Be & Bi);                                               \
        E##se = ~Be ^ (Bi | Bo);                                               \
        E##si = Bi ^ (Bo & Bu);                                                \
        E##so = Bo ^ (Bu | Ba);                                                \
        E##su = Bu ^ (Ba & Be);                                                \
    } while (0)

static void keccak(uint64_t s[25])
{
    LANES(A);
    LANES(E);
    Aba = s[0], Abe = ~s[1], Abi = ~s[2], Abo = s[3], Abu = s[4];
    Aga = s[5], Age = s[6], Agi = s[7], Ago = ~s[8], Agu = s[9];
    Aka = s[10], Ake = s[11], Aki = ~s[12], Ako = s[13], Aku = s[14];
    Ama = s[15], Ame = s[16], Ami = ~s[17], Amo = s[18], Amu = s[19];
    Asa = ~s[20], Ase = s[21], Asi = s[22], Aso = s[23], Asu = s[24];
    for (int i = 0; i < 24; i += 2) {
        ROUND(A, E, CONSTANTS[i]);
        ROUND(E, A, CONSTANTS[i + 1]);
    }
    s[0] = Aba, s[1] = ~Abe, s[2] = ~Abi, s[3] = Abo, s[4] = Abu;
    s[5] = Aga, s[6] = Age, s[7] = Agi, s[8] = ~Ago, s[9] = Agu;
    s[10] = Aka, s[11] = Ake, s[12] = ~Aki, s[13] = Ako, s[14] = Aku;
    s[15] = Ama, s[16] = Ame, s[17] = ~Ami, s[18] = Amo, s[19] = Amu;
    s[20] = ~Asa, s[21] = Ase, s[22] = Asi, s[23] = Aso, s[24] = Asu;
}

static void absorb(uint64_t lanes[25], const uint8_t *block)
{
    for (int i = 0; i < SHA3_BLOCK / 8; i++)
        lanes[i] ^= load_little64(block + 8 * i);
    keccak(lanes);
}

void sha3_start(sha3_state *s)
{
    memset(s->lanes, 0, sizeof s->lanes);
    s->have = 0;
}

void sha3_take(sha3_state *s, const uint8_t *data, size_t length)
{
    if (s->have) {
        size_t room = SHA3_BLOCK - s->have, part = room < length ? room : length;
        memcpy(s->block + s->have, data, part);
        s->have += part;
        data += part;
        length -= part;
        if (s->have < SHA3_BLOCK)
            return;
        absorb(s->lanes, s->block);
    }
    for (; length >= SHA3_BLOCK; data += SHA3_BLOCK, length -= SHA3_BLOCK)
        absorb(s->lanes, data);
    memcpy(s->block, data, length);
    s->have = length;
}

void sha3_end(sha3_state *s, uint8_t hash[32])
{
    memset(s->block + s->have, 0, SHA3_BLOCK - s->have);
    s->block[s->have] = 0x06;
    s->block[SHA3_BLOCK - 1] ^= 0x80;
    absorb(s->lanes, s->block);
    for (int i = 0; i < 4; i++)
        store_little64(hash + 8 * i, s->lanes[i]);
}
