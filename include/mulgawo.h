/*
 * The calls of the secure channel that C firmware makes directly.
 *
 * Link target/staticlib/libfirmware.a, made by `c/library`. The code behind these calls is proved:
 * every call ends, on any octets, and answers what docs/PROTOCOL.md and docs/REFUSALS.md define.
 *
 * What no proof covers is the caller's debt:
 *  - a pointer and its length describe memory that the call may read (const) or write;
 *  - the buffers of one call do not overlap;
 *  - a null pointer comes only with length 0.
 * No call keeps a pointer, allocates, or prints. Calls on different buffers may run at the same time.
 */
#ifndef MULGAWO_H
#define MULGAWO_H

#include <stddef.h>
#include <stdint.h>

#ifdef __cplusplus
extern "C" {
#endif

/* sizes in octets */
#define MULGAWO_KEY 16
#define MULGAWO_COUNTER 16
#define MULGAWO_WORKSPACE 256    /* at least; a larger one is used only so far */
#define MULGAWO_LABEL 25
#define MULGAWO_NONCE 12
#define MULGAWO_TAG 12
#define MULGAWO_PAYLOAD 4096     /* the longest payload */
#define MULGAWO_ACT_MESSAGE 40   /* ACT_REQ and ACT_RES */
#define MULGAWO_VFY_MESSAGE 15   /* VFY_REQ and VFY_RES */
#define MULGAWO_ENC_OVERHEAD 21  /* an ENC has this many octets more than its data */
#define MULGAWO_ENC_MESSAGE (MULGAWO_ENC_OVERHEAD + MULGAWO_PAYLOAD)

/* kinds of messages */
#define MULGAWO_ACT_REQ 1
#define MULGAWO_ACT_RES 2
#define MULGAWO_VFY_REQ 3
#define MULGAWO_VFY_RES 4
#define MULGAWO_ENC 5

/* protocol identifiers */
#define MULGAWO_PID_AES 1
#define MULGAWO_PID_SPECK 241

/* numbers of refusals; 0 is accepted */
#define MULGAWO_OK 0
#define MULGAWO_WRONG_SIZE 1     /* of a key, a counter, a workspace or an output */
#define MULGAWO_WRONG_LENGTH 6
#define MULGAWO_OTHER_KIND 7
#define MULGAWO_OTHER_PID 8
#define MULGAWO_WRONG_MAP 9
#define MULGAWO_DATA_TOO_LONG 10

/* 0 and 0, or the number and the place of the refusal */
struct mulgawo_verdict {
    uint32_t number;
    size_t place;
};

/*
 * Whether the octets are a message of the awaited kind under this protocol identifier. Looked at in this order:
 * under 3 octets (6, place the length), another kind or an awaited kind outside 1 to 5 (7, place 0), another protocol
 * identifier (8, place 1), wrong map (9, place 2), wrong fixed length or an ENC under 9 octets (6, place the length),
 * data length over 4,096 (10, place 6), wrong full length (6, place the length).
 */
struct mulgawo_verdict mulgawo_check(uint32_t awaited, uint32_t pid, const uint8_t *octets, size_t octets_len);

/*
 * The tag of the data under AES-128: the first 12 octets of its AES-XCBC result, as in RFC 3566, written at the start of the
 * output. Answers 0, or 1 where the key has not 16 octets, the workspace is under 256 or the output under 12.
 *
 * The first 256 octets of the workspace are zero afterwards, accepted or refused; a shorter workspace is untouched. What stands
 * after them, and in the output after the tag, stays; a refused call leaves the whole output as it was.
 */
uint32_t mulgawo_tag(const uint8_t *key, size_t key_len, const uint8_t *data, size_t data_len, uint8_t *workspace,
                     size_t workspace_len, uint8_t *output, size_t output_len);

/*
 * The data XORed with the keystream of AES-128 in counter mode, from the counter of 16 octets on (highest octet first, modulo
 * 2^128), written at the start of the output; the counter is only read. A next call goes on from the counter plus one for each
 * begun 16 octets. Answers 0, or 1 where key or counter has not 16 octets, the workspace is under 256 or the output under the
 * data. Workspace and output as above.
 */
uint32_t mulgawo_keystream(const uint8_t *key, size_t key_len, const uint8_t *counter, size_t counter_len,
                           const uint8_t *data, size_t data_len, uint8_t *workspace, size_t workspace_len,
                           uint8_t *output, size_t output_len);

#ifdef __cplusplus
}
#endif

#endif
