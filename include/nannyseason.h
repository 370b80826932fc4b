/*
 * Nannyseason for firmware: the two key wraps, and the player of a scanner.
 *
 * What holds of every call
 *
 *   A call answers with the number of a refusal, or with 0 if it was done, and with the values that are reported with
 *   that refusal (0 where there are fewer than two).
 *
 *   A refused call leaves the player, the ring, and every buffer as they were, but for the working bytes.
 *   Where a call gets 512 working bytes or more, all of them hold zeros when it ends, whatever it answers. Where it gets
 *   fewer, they are left as they were.
 *
 *   Nothing is allocated, nothing is kept from call to call, and no call waits. A call takes less than 8 KiB of stack, as
 *   measured on x86-64.
 *
 * What the caller owes, since a library cannot test it
 *
 *   A pointer points to as many bytes as the length that follows it says, and is not NULL, also where that length is 0.
 *   What a call may write (a parameter without `const`) overlaps nothing else that the same call is given.
 *   The ring of a player is written by the player's calls alone, and is handed in with that player.
 */
#ifndef NANNYSEASON_H
#define NANNYSEASON_H

#include <stddef.h>
#include <stdint.h>

#ifdef __cplusplus
extern "C" {
#endif

/* How many bytes there are of each. */
#define NANNYSEASON_KEY_BYTES 32
#define NANNYSEASON_NAME_BYTES 10
#define NANNYSEASON_CARD_BYTES 39
#define NANNYSEASON_RING_BYTES 288
#define NANNYSEASON_WORKING_BYTES 512 /* at least */

/* The kinds of key wraps, and how many bytes a sealing by each writes. */
#define NANNYSEASON_RFC3394 1
#define NANNYSEASON_RFC5297 2
#define NANNYSEASON_RFC3394_SEALED_BYTES 40
#define NANNYSEASON_RFC5297_SEALED_BYTES 48

/* The refusals, and the values reported with each. */
#define NANNYSEASON_SHORT_WORKING 9  /* under 512 working bytes */
#define NANNYSEASON_SHORT_BUFFER 12  /* the sealed bytes do not fit; first: how many bytes are needed */
#define NANNYSEASON_BAD_CARD 13      /* no card; first: the place of the first fault */
#define NANNYSEASON_NOT_A_RING 14    /* the ring is not 288 bytes */
#define NANNYSEASON_BAD_FILE 15      /* no rekey file for this kind of wrap; first: the place of the first fault */
#define NANNYSEASON_TOO_LOW 16       /* the file's epoch is too low; first: the epoch wanted */
#define NANNYSEASON_TOO_HIGH 17      /* the file's epoch is too high; first: the epoch wanted */
#define NANNYSEASON_DOES_NOT_OPEN 18 /* the sealed bytes do not open; of a file, first: the wrap's index from 0, second: the file's epoch */
#define NANNYSEASON_SHUT_OUT 19      /* no key in hand opens a listed node; first: the node */
#define NANNYSEASON_MISUSE 64        /* the library's own: what no caller should hand in, said at each function */

/* What a call answers. */
typedef struct {
    uint8_t refusal; /* 0: done */
    uint64_t first;
    uint64_t second;
} nannyseason_answer;

/* The states of a player. */
#define NANNYSEASON_WAITING 1 /* it has read no file; epoch: that of its first file */
#define NANNYSEASON_SEATED 2  /* its ring has a group key; epoch: that of the group key */
#define NANNYSEASON_WIPED 3   /* its ring was wiped; only the serial is left, leaf and epoch are 0 */

/*
 * A player: its state, and its plain numbers. The calls write it; a scanner that loses power may store it, with its ring,
 * and hand both in again. Numbers that no player has are these: a state other than 1 to 3, and, of a waiting or seated
 * player, a serial that is not 1 to 9,999, a leaf below 128, or an epoch that is not 1 to 1,000,000.
 */
typedef struct {
    uint8_t state;
    uint8_t leaf;
    uint16_t serial;
    uint32_t epoch;
} nannyseason_player;

/*
 * Seals 32 bytes of content under a 32-byte key and a 10-byte name, by the wrap of that kind. The name has no part in
 * kind 1, but has to be handed in.
 *
 * Writes: the first 40 (kind 1) or 48 (kind 2) bytes of `sealed`, and `work`.
 * Refuses: 64 where the kind is neither 1 nor 2, or where key, name or content is not 32, 10 and 32 bytes; then 9, 12.
 */
nannyseason_answer nannyseason_seal(uint8_t kind,
                                    const uint8_t *key, size_t key_bytes,
                                    const uint8_t *name, size_t name_bytes,
                                    const uint8_t *content, size_t content_bytes,
                                    uint8_t *sealed, size_t sealed_bytes,
                                    uint8_t *work, size_t work_bytes);

/*
 * Opens sealed bytes: `content`, a place of 32 bytes, gets what was sealed under this key and name.
 *
 * Writes: `content`, and `work`.
 * Refuses: 64 where the kind is neither 1 nor 2, or where key, name or content is not 32, 10 and 32 bytes; then 9; then 18,
 * also where `sealed` is not 40 (kind 1) or 48 (kind 2) bytes.
 */
nannyseason_answer nannyseason_open(uint8_t kind,
                                    const uint8_t *key, size_t key_bytes,
                                    const uint8_t *name, size_t name_bytes,
                                    const uint8_t *sealed, size_t sealed_bytes,
                                    uint8_t *content, size_t content_bytes,
                                    uint8_t *work, size_t work_bytes);

/*
 * Enrols the player that a card is for. What `player` held before does not matter.
 *
 * Writes: `player`, which is then waiting, and `ring`.
 * Refuses: 14, 13.
 */
nannyseason_answer nannyseason_enrol(const uint8_t *card, size_t card_bytes,
                                     nannyseason_player *player,
                                     uint8_t *ring, size_t ring_bytes);

/*
 * Reads a rekey file whose wraps are of that kind. A waiting player reads the file of its epoch, a seated one that of the
 * next, and is then seated in that epoch.
 *
 * Writes: `player`, `ring`, and `work`.
 * Refuses: 64 where the kind is neither 1 nor 2, where no player has these numbers, or where the player is wiped; then 9,
 * 14, 15, 16, 17; then 18 or 19 on the way up.
 */
nannyseason_answer nannyseason_read(uint8_t kind,
                                    const uint8_t *file, size_t file_bytes,
                                    nannyseason_player *player,
                                    uint8_t *ring, size_t ring_bytes,
                                    uint8_t *work, size_t work_bytes);

/*
 * Shows the group key of a seated player: `key`, a place of 32 bytes, gets it.
 *
 * Writes: `key`.
 * Refuses: 64 where no player has these numbers, where the player is waiting or wiped, or where key is not 32 bytes; then 14.
 */
nannyseason_answer nannyseason_show(const nannyseason_player *player,
                                    const uint8_t *ring, size_t ring_bytes,
                                    uint8_t *key, size_t key_bytes);

/*
 * Wipes a waiting or seated player: the ring becomes zeros, and only the serial is left of the player.
 *
 * Writes: `player`, and `ring`.
 * Refuses: 64 where no player has these numbers, or where the player is wiped; then 14.
 */
nannyseason_answer nannyseason_wipe(nannyseason_player *player,
                                    uint8_t *ring, size_t ring_bytes);

#ifdef __cplusplus
}
#endif

#endif
