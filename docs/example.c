/*
 * A scanner's first day: it is enrolled with a card, reads a rekey file, shows the group key and is wiped. Prints a line for each step;
 * the exit status is 0 if all was as expected.
 *
 * build: gcc -std=c11 -I include docs/example.c crates/nannyseason/out/libnannyseason.a -o example
 */
#include "example_data.h"
#include "nannyseason.h"

#include <inttypes.h>
#include <stdbool.h>
#include <stdio.h>
#include <string.h>

/* A firmware keeps these two in its storage, side by side. */
static nannyseason_player player;
static uint8_t ring[NANNYSEASON_RING_BYTES];

/* Lent to each read; it holds zeros again afterwards. */
static uint8_t work[NANNYSEASON_WORKING_BYTES];

/* Whether the call was done; a refusal is printed with its number and values. */
static bool done(const char *step, nannyseason_answer answer)
{
    if (answer.refusal == 0)
        return true;
    printf("%s: refused with %u, values %" PRIu64 " and %" PRIu64 "\n", step, (unsigned)answer.refusal, answer.first, answer.second);
    return false;
}

static void tell(const char *step)
{
    printf("%s: state %u serial %u leaf %u epoch %" PRIu32 "\n", step, (unsigned)player.state, (unsigned)player.serial,
           (unsigned)player.leaf, player.epoch);
}

static bool enrol(void)
{
    if (!done("enrol", nannyseason_enrol(example_card, sizeof example_card, &player, ring, sizeof ring)))
        return false;
    tell("enrol");
    return player.state == NANNYSEASON_WAITING;
}

static bool read_file(void)
{
    if (!done("read", nannyseason_read(NANNYSEASON_RFC3394, example_file, sizeof example_file, &player, ring, sizeof ring, work,
                                       sizeof work)))
        return false;
    tell("read");
    return player.state == NANNYSEASON_SEATED;
}

static bool show_key(void)
{
    uint8_t key[NANNYSEASON_KEY_BYTES];
    if (!done("show", nannyseason_show(&player, ring, sizeof ring, key, sizeof key)))
        return false;
    printf("show: group key ");
    for (size_t i = 0; i < sizeof key; i++)
        printf("%02x", (unsigned)key[i]);
    bool same = memcmp(key, example_group_key, sizeof key) == 0;
    printf(same ? ", as expected\n" : ", not the one expected\n");
    return same;
}

/* A file is read once: the next one has to be that of the next epoch. */
static bool read_again(void)
{
    nannyseason_answer answer = nannyseason_read(NANNYSEASON_RFC3394, example_file, sizeof example_file, &player, ring, sizeof ring,
                                                 work, sizeof work);
    return !done("read again", answer) && answer.refusal == NANNYSEASON_TOO_LOW;
}

static bool wipe(void)
{
    static const uint8_t zeros[NANNYSEASON_RING_BYTES];
    if (!done("wipe", nannyseason_wipe(&player, ring, sizeof ring)))
        return false;
    tell("wipe");
    return player.state == NANNYSEASON_WIPED && memcmp(ring, zeros, sizeof ring) == 0;
}

int main(void)
{
    bool good = enrol() && read_file() && show_key() && read_again() && wipe();
    printf(good ? "example: all as expected\n" : "example: not as expected\n");
    return good ? 0 : 1;
}
