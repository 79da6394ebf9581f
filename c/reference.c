#include "reference.h"

#include <string.h>

/* the S-box, filled from its rule at the first use */
static uint8_t sbox[256];
static int filled;

static uint8_t times(uint8_t a, uint8_t b)
{
    uint8_t product = 0;
    for (; b; b >>= 1) {
        if (b & 1)
            product ^= a;
        a = (uint8_t)(a << 1) ^ (a & 0x80 ? 0x1b : 0);
    }
    return product;
}

static void fill(void)
{
    for (int a = 0; a < 256; a++) {
        uint8_t inverse = 0;
        for (int b = 1; b < 256; b++)
            if (times((uint8_t)a, (uint8_t)b) == 1)
                inverse = (uint8_t)b;
        uint8_t entry = 0x63;
        for (int turn = 0; turn < 5; turn++)
            entry ^= (uint8_t)(inverse << turn | inverse >> (8 - turn));
        sbox[a] = entry;
    }
    filled = 1;
}

void reference_expand(struct reference_key *schedule, const uint8_t key[16])
{
    uint8_t *w = &schedule->round[0][0], constant = 1;
    if (!filled)
        fill();
    memcpy(w, key, 16);
    for (int i = 16; i < 176; i += 4) {
        uint8_t t[4] = {w[i - 4], w[i - 3], w[i - 2], w[i - 1]};
        if (i % 16 == 0) {
            uint8_t first = t[0];
            t[0] = sbox[t[1]] ^ constant;
            t[1] = sbox[t[2]];
            t[2] = sbox[t[3]];
            t[3] = sbox[first];
            constant = times(constant, 2);
        }
        for (int j = 0; j < 4; j++)
            w[i + j] = w[i - 16 + j] ^ t[j];
    }
}

static uint8_t twice(uint8_t a)
{
    return (uint8_t)(a << 1) ^ (a & 0x80 ? 0x1b : 0);
}

void reference_encipher(const struct reference_key *schedule, const uint8_t in[16], uint8_t out[16])
{
    uint8_t s[16], t[16];
    for (int i = 0; i < 16; i++)
        s[i] = in[i] ^ schedule->round[0][i];
    for (int round = 1; round <= 10; round++) {
        for (int c = 0; c < 4; c++)
            for (int r = 0; r < 4; r++)
                t[4 * c + r] = sbox[s[4 * ((c + r) % 4) + r]];
        for (int c = 0; c < 4 && round < 10; c++) {
            uint8_t *x = t + 4 * c, all = x[0] ^ x[1] ^ x[2] ^ x[3], first = x[0];
            x[0] ^= all ^ twice(x[0] ^ x[1]);
            x[1] ^= all ^ twice(x[1] ^ x[2]);
            x[2] ^= all ^ twice(x[2] ^ x[3]);
            x[3] ^= all ^ twice(x[3] ^ first);
        }
        for (int i = 0; i < 16; i++)
            s[i] = t[i] ^ schedule->round[round][i];
    }
    memcpy(out, s, 16);
}

void reference_tag(const uint8_t key[16], const uint8_t *data, size_t length, uint8_t tag[12])
{
    struct reference_key schedule;
    uint8_t derived[3][16], chain[16] = {0};
    reference_expand(&schedule, key);
    for (int i = 0; i < 3; i++) {
        uint8_t constant[16];
        memset(constant, i + 1, 16);
        reference_encipher(&schedule, constant, derived[i]);
    }
    reference_expand(&schedule, derived[0]);
    while (length > 16) {
        for (int i = 0; i < 16; i++)
            chain[i] ^= data[i];
        reference_encipher(&schedule, chain, chain);
        data += 16;
        length -= 16;
    }
    uint8_t last[16] = {0};
    if (length)
        memcpy(last, data, length);
    if (length < 16)
        last[length] = 0x80;
    for (int i = 0; i < 16; i++)
        chain[i] ^= last[i] ^ derived[length == 16 ? 1 : 2][i];
    reference_encipher(&schedule, chain, chain);
    memcpy(tag, chain, 12);
}

void reference_keystream(const uint8_t key[16], const uint8_t counter[16], const uint8_t *data, size_t length,
                         uint8_t *output)
{
    struct reference_key schedule;
    uint8_t block[16], stream[16];
    reference_expand(&schedule, key);
    memcpy(block, counter, 16);
    for (size_t i = 0; i < length; i++) {
        if (i % 16 == 0) {
            reference_encipher(&schedule, block, stream);
            for (int j = 15; j >= 0 && ++block[j] == 0; j--)
                ;
        }
        output[i] = data[i] ^ stream[i % 16];
    }
}
