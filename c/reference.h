/* A plain C implementation of AES-128, AES-XCBC and the counter mode, written for comparison. */
#ifndef REFERENCE_H
#define REFERENCE_H

#include <stddef.h>
#include <stdint.h>

struct reference_key {
    uint8_t round[11][16];
};

void reference_expand(struct reference_key *schedule, const uint8_t key[16]);
void reference_encipher(const struct reference_key *schedule, const uint8_t in[16], uint8_t out[16]);
void reference_tag(const uint8_t key[16], const uint8_t *data, size_t length, uint8_t tag[12]);
void reference_keystream(const uint8_t key[16], const uint8_t counter[16], const uint8_t *data, size_t length,
                         uint8_t *output);

#endif
