/* Compares the message check with a table of messages, good and damaged. */
#include <stdio.h>
#include <string.h>

#include "mulgawo.h"

/* one message: its first octets, how long it is in all (the rest is filled with 0xA5), and what is expected of it */
struct row {
    const char *name;
    uint32_t awaited, pid;
    uint8_t start[9];
    size_t length;
    uint32_t number;
    size_t place;
};

static const struct row rows[] = {
    {"an ACT_REQ", 1, 1, {1, 1, 3}, 40, 0, 0},
    {"an ACT_RES", 2, 241, {2, 241, 3}, 40, 0, 0},
    {"a VFY_REQ", 3, 1, {3, 1, 16}, 15, 0, 0},
    {"a VFY_RES", 4, 1, {4, 1, 16}, 15, 0, 0},
    {"an ENC without data", 5, 1, {5, 1, 28, 0, 0, 1, 0, 0, 0}, 21, 0, 0},
    {"an ENC with one octet", 5, 1, {5, 1, 28, 0, 0, 1, 0, 0, 1}, 22, 0, 0},
    {"an ENC with the most data", 5, 1, {5, 1, 28, 255, 255, 255, 0, 16, 0}, 4117, 0, 0},
    {"no octets", 1, 1, {0}, 0, 6, 0},
    {"two octets", 1, 1, {1, 1}, 2, 6, 2},
    {"two octets where no kind is awaited", 9, 1, {1, 1}, 2, 6, 2},
    {"three octets", 1, 1, {1, 1, 3}, 3, 6, 3},
    {"another kind", 1, 1, {2, 1, 3}, 40, 7, 0},
    {"kind 0 awaited and sent", 0, 1, {0, 1, 3}, 40, 7, 0},
    {"kind 6 awaited and sent", 6, 1, {6, 1, 28}, 40, 7, 0},
    {"kind 257 awaited, 1 sent", 257, 1, {1, 1, 3}, 40, 7, 0},
    {"the largest awaited kind", 4294967295u, 1, {255, 1, 3}, 40, 7, 0},
    {"another kind before another protocol identifier", 1, 1, {2, 2, 4}, 39, 7, 0},
    {"another protocol identifier", 1, 1, {1, 241, 3}, 40, 8, 1},
    {"protocol identifier 257 awaited, 1 sent", 1, 257, {1, 1, 3}, 40, 8, 1},
    {"the largest protocol identifier", 1, 4294967295u, {1, 255, 3}, 40, 8, 1},
    {"another protocol identifier before a wrong map", 1, 1, {1, 2, 4}, 39, 8, 1},
    {"the map of a tag in an ACT_REQ", 1, 1, {1, 1, 16}, 40, 9, 2},
    {"a label without a nonce", 1, 1, {1, 1, 1}, 28, 9, 2},
    {"a high bit in the map of a VFY_REQ", 3, 1, {3, 1, 48}, 15, 9, 2},
    {"an ENC without the bit of its tag", 5, 1, {5, 1, 12, 0, 0, 1, 0, 0, 0}, 9, 9, 2},
    {"a wrong map before a wrong length", 1, 1, {1, 1, 7}, 39, 9, 2},
    {"an ACT_REQ of 39 octets", 1, 1, {1, 1, 3}, 39, 6, 39},
    {"an ACT_REQ of 41 octets", 1, 1, {1, 1, 3}, 41, 6, 41},
    {"a VFY_RES of 14 octets", 4, 1, {4, 1, 16}, 14, 6, 14},
    {"a VFY_RES of 16 octets", 4, 1, {4, 1, 16}, 16, 6, 16},
    {"an ENC of 8 octets", 5, 1, {5, 1, 28, 0, 0, 1, 0, 0}, 8, 6, 8},
    {"an ENC of 9 octets", 5, 1, {5, 1, 28, 0, 0, 1, 0, 0, 0}, 9, 6, 9},
    {"an ENC whose tag is short", 5, 1, {5, 1, 28, 0, 0, 1, 0, 0, 0}, 20, 6, 20},
    {"an ENC with an octet more", 5, 1, {5, 1, 28, 0, 0, 1, 0, 0, 0}, 22, 6, 22},
    {"a data length of 4,097", 5, 1, {5, 1, 28, 0, 0, 1, 0, 16, 1}, 4118, 10, 6},
    {"the largest data length, and no data", 5, 1, {5, 1, 28, 0, 0, 1, 255, 255, 255}, 9, 10, 6},
    {"a data length of 65,536", 5, 1, {5, 1, 28, 0, 0, 1, 1, 0, 0}, 21, 10, 6},
    {"an ENC of 4,096 whose last octet is missing", 5, 1, {5, 1, 28, 0, 0, 1, 0, 16, 0}, 4116, 6, 4116},
};

int main(void)
{
    static uint8_t octets[5000];
    size_t count = sizeof rows / sizeof rows[0], wrong = 0;

    for (size_t i = 0; i < count; i++) {
        const struct row *row = &rows[i];
        memset(octets, 0xA5, sizeof octets);
        memcpy(octets, row->start, row->length < 9 ? row->length : 9);
        struct mulgawo_verdict got = mulgawo_check(row->awaited, row->pid, octets, row->length);
        if (got.number != row->number || got.place != row->place) {
            printf("%s: expected %u at %zu, got %u at %zu\n", row->name, (unsigned)row->number, row->place,
                   (unsigned)got.number, got.place);
            wrong++;
        }
    }
    struct mulgawo_verdict none = mulgawo_check(1, 1, NULL, 0);
    if (none.number != MULGAWO_WRONG_LENGTH || none.place != 0) {
        printf("a null pointer with length 0: got %u at %zu\n", (unsigned)none.number, none.place);
        wrong++;
    }
    printf("message check from C: %zu messages, %zu wrong\n", count + 1, wrong);
    return wrong != 0;
}
