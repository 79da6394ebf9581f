/* Compares tag and keystream with a plain C implementation on random inputs, accepted and refused. */
#include <stdio.h>
#include <string.h>

#include "mulgawo.h"
#include "reference.h"

enum { ROUNDS = 10000, MOST = 4096, ROOM = 300, MARGIN = 40 };

static uint64_t state = 0x9e3779b97f4a7c15u;

static uint32_t draw(void)
{
    state ^= state << 13;
    state ^= state >> 7;
    state ^= state << 17;
    return (uint32_t)(state >> 32);
}

static void scribble(uint8_t *octets, size_t length)
{
    for (size_t i = 0; i < length; i++)
        octets[i] = (uint8_t)draw();
}

/* mostly the right size, now and then another */
static size_t size_near(size_t right, size_t most)
{
    return draw() % 8 ? right : draw() % (most + 1);
}

static uint8_t key[32], counter[32], data[MOST], before[MOST + MARGIN], output[MOST + MARGIN], wanted[MOST + MARGIN];
static uint8_t workspace[ROOM], space_before[ROOM];

/* whether the workspace is cleared as far as it may be, and the rest as it was */
static int cleared(size_t length)
{
    static const uint8_t zeros[256];
    if (length < 256)
        return memcmp(workspace, space_before, ROOM) == 0;
    return memcmp(workspace, zeros, 256) == 0 && memcmp(workspace + 256, space_before + 256, ROOM - 256) == 0;
}

static void prepare_buffers(void)
{
    scribble(key, sizeof key);
    scribble(counter, sizeof counter);
    if (draw() % 2)
        memset(counter, 0xff, 15); /* near 2^128: the last octet and a few blocks decide where it wraps */
    scribble(before, sizeof before);
    memcpy(output, before, sizeof before);
    scribble(space_before, ROOM);
    memcpy(workspace, space_before, ROOM);
}

int main(void)
{
    size_t wrong = 0, accepted = 0;
    for (int round = 0; round < ROUNDS; round++) {
        size_t length = draw() % 4 ? draw() % 80 : draw() % (MOST + 1);
        size_t key_len = size_near(16, 32), counter_len = size_near(16, 32);
        size_t space = size_near(256 + draw() % (ROOM - 255), ROOM);
        scribble(data, length);

        prepare_buffers();
        size_t room = size_near(12 + draw() % MARGIN, 24);
        int good = key_len == 16 && space >= 256 && room >= 12;
        memcpy(wanted, before, sizeof before);
        if (good)
            reference_tag(key, data, length, wanted);
        uint32_t got = mulgawo_tag(key, key_len, data, length, workspace, space, output, room);
        if (got != (good ? MULGAWO_OK : MULGAWO_WRONG_SIZE) || memcmp(output, wanted, sizeof before) != 0 || !cleared(space)) {
            printf("tag, round %d: differs\n", round);
            wrong++;
        }
        accepted += good;

        prepare_buffers();
        room = draw() % 8 ? length + draw() % MARGIN : draw() % (length + 1);
        good = key_len == 16 && counter_len == 16 && space >= 256 && room >= length;
        memcpy(wanted, before, sizeof before);
        if (good)
            reference_keystream(key, counter, data, length, wanted);
        got = mulgawo_keystream(key, key_len, counter, counter_len, data, length, workspace, space, output, room);
        if (got != (good ? MULGAWO_OK : MULGAWO_WRONG_SIZE) || memcmp(output, wanted, sizeof before) != 0 || !cleared(space)) {
            printf("keystream, round %d: differs\n", round);
            wrong++;
        }
        accepted += good;
    }
    printf("tag and keystream from C: %d random calls, %s accepted and some refused, %zu wrong\n", 2 * ROUNDS,
           accepted > ROUNDS ? "most" : "FEW", wrong);
    return wrong != 0 || accepted <= ROUNDS || accepted == 2 * ROUNDS;
}
