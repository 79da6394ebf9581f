/* Passes COUNT packets of SIZE octets back and forth in plain C, as `pass COUNT SIZE` of a script does. Run by c/bench. */
#include <stdio.h>
#include <stdlib.h>
#include <string.h>

#include "reference.h"

enum { LONGEST = 4096 };

struct end {
    uint8_t encryption[16], integrity[16], counter[16];
    uint32_t number;
};

static void three(uint8_t *out, uint32_t n)
{
    out[0] = (uint8_t)(n >> 16);
    out[1] = (uint8_t)(n >> 8);
    out[2] = (uint8_t)n;
}

static uint32_t number_at(const uint8_t *in)
{
    return (uint32_t)in[0] << 16 | (uint32_t)in[1] << 8 | in[2];
}

/* number plus 1, counter plus one for each begun block */
static void advance(struct end *end, size_t length)
{
    end->number++;
    for (size_t blocks = (length + 15) / 16; blocks > 0; blocks--)
        for (int i = 15; i >= 0 && ++end->counter[i] == 0; i--)
            ;
}

static size_t seal(struct end *end, const uint8_t *payload, size_t length, uint8_t *packet)
{
    packet[0] = 5;
    packet[1] = 1;
    packet[2] = 28;
    three(packet + 3, end->number + 1);
    three(packet + 6, (uint32_t)length);
    reference_keystream(end->encryption, end->counter, payload, length, packet + 9);
    reference_tag(end->integrity, packet + 3, 6 + length, packet + 9 + length);
    advance(end, length);
    return 21 + length;
}

static int unseal(struct end *end, const uint8_t *packet, size_t length, uint8_t *output)
{
    uint8_t tag[12];
    if (length < 21 || packet[0] != 5 || packet[1] != 1 || packet[2] != 28 || number_at(packet + 6) + 21 != length)
        return 0;
    if (number_at(packet + 3) != end->number + 1)
        return 0;
    size_t n = length - 21;
    reference_tag(end->integrity, packet + 3, 6 + n, tag);
    if (memcmp(tag, packet + 9 + n, 12) != 0)
        return 0;
    reference_keystream(end->encryption, end->counter, packet + 9, n, output);
    advance(end, n);
    return 1;
}

int main(int argc, char **argv)
{
    static uint8_t payload[LONGEST], packet[LONGEST + 21], output[LONGEST];
    struct end ends[2] = {{{1}, {2}, {3}, 0}, {{1}, {2}, {3}, 0}};
    if (argc != 3)
        return 2;
    long count = strtol(argv[1], NULL, 10), size = strtol(argv[2], NULL, 10);
    if (size < 0 || size > LONGEST)
        return 2;
    for (long i = 0; i < size; i++)
        payload[i] = (uint8_t)i;
    for (long i = 0; i < count; i++) {
        size_t n = seal(&ends[i % 2], payload, (size_t)size, packet);
        if (!unseal(&ends[1 - i % 2], packet, n, output) || memcmp(output, payload, (size_t)size) != 0) {
            printf("packet %ld did not come through\n", i + 1);
            return 1;
        }
    }
    printf("%ld packets of %ld octets came through\n", count, size);
    return 0;
}
