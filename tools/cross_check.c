/*
 * Compares the library with OpenSSL, and with nettle unless NO_NETTLE is defined, over random cases; and checks what each call refuses,
 * leaves and clears. It stops at the first disagreement, with all inputs; else its last line has the counts.
 *
 * usage: cross_check [CASES [SEED]]: so many cases for each kind of wrap, and for the player a tenth of that for each kind
 */
#define _XOPEN_SOURCE 700

#include "nannyseason.h"
#include "peers.h"

#include <errno.h>
#include <inttypes.h>
#include <stdio.h>
#include <stdlib.h>
#include <ucontext.h>

/* ---- random numbers: xoshiro256**, seeded by splitmix64 ---- */

static uint64_t state[4];

static uint64_t mixed(uint64_t *seed)
{
    uint64_t z = *seed += 0x9e3779b97f4a7c15;
    z = (z ^ z >> 30) * 0xbf58476d1ce4e5b9;
    z = (z ^ z >> 27) * 0x94d049bb133111eb;
    return z ^ z >> 31;
}

static uint64_t turned(uint64_t x, int by)
{
    return x << by | x >> (64 - by);
}

static uint64_t next(void)
{
    uint64_t answer = turned(state[1] * 5, 7) * 9, t = state[1] << 17;
    state[2] ^= state[0];
    state[3] ^= state[1];
    state[1] ^= state[2];
    state[0] ^= state[3];
    state[2] ^= t;
    state[3] = turned(state[3], 45);
    return answer;
}

/* From low to high, both included. */
static uint64_t between(uint64_t low, uint64_t high)
{
    return low + next() % (high - low + 1);
}

static bool one_in(uint64_t n)
{
    return next() % n == 0;
}

static void random_bytes(uint8_t *to, size_t n)
{
    for (; n >= 8; n -= 8, to += 8) {
        uint64_t x = next();
        memcpy(to, &x, 8);
    }
    uint64_t x = next();
    memcpy(to, &x, n);
}

/* ---- places that are lent to a call ---- */

enum { FENCE = 16, ROOM = 1536 };

/* Bytes that are lent, with a fence on both sides, and what was there before the call. */
typedef struct {
    const char *what;
    size_t length;
    uint8_t all[FENCE + ROOM + FENCE];
    uint8_t before[FENCE + ROOM + FENCE];
} place;

static place key = {.what = "key"}, name = {.what = "name"}, content = {.what = "content"}, sealed = {.what = "sealed"},
             work = {.what = "work"}, card = {.what = "card"}, file = {.what = "file"}, ring = {.what = "ring"};
static place *const places[] = {&key, &name, &content, &sealed, &work, &card, &file, &ring};
enum { PLACES = sizeof places / sizeof *places };

static uint8_t *at(place *p)
{
    return p->all + FENCE;
}

/* The place as it is now is how it was before the next call. */
static void settle(place *p)
{
    memcpy(p->before, p->all, FENCE + p->length + FENCE);
}

/* Random bytes in a place of that length, and round it. */
static void fill(place *p, size_t length)
{
    p->length = length;
    random_bytes(p->all, FENCE + length + FENCE);
    settle(p);
}

/* These bytes in a place of that length, and random ones behind them and round it. */
static void put(place *p, const void *bytes, size_t n, size_t length)
{
    fill(p, length);
    memcpy(at(p), bytes, n < length ? n : length);
    settle(p);
}

/* ---- a disagreement ---- */

static uint64_t seed, case_number;
static uint8_t kind;
static const char *call;
static nannyseason_answer told;
static nannyseason_player player, player_before;
static bool of_player;

static void show_bytes(const char *what, size_t length, const uint8_t *bytes)
{
    printf("  %s (%zu):", what, length);
    for (size_t i = 0; i < length; i++)
        printf("%s%02x", i ? "" : " ", bytes[i]);
    printf("\n");
}

static void show_player(const char *when, const nannyseason_player *p)
{
    printf("  player %s: state %u leaf %u serial %u epoch %" PRIu32 "\n", when, p->state, p->leaf, p->serial, p->epoch);
}

static _Noreturn void disagree(const char *what)
{
    printf("DISAGREEMENT: %s: %s\n", call, what);
    printf("  seed %" PRIu64 " case %" PRIu64 " kind %u\n", seed, case_number, kind);
    printf("  answer: %u %" PRIu64 " %" PRIu64 "\n", told.refusal, told.first, told.second);
    if (of_player) {
        show_player("before", &player_before);
        show_player("after", &player);
    }
    for (int i = 0; i < PLACES; i++) {
        place *p = places[i];
        show_bytes(p->what, p->length, p->before + FENCE);
        if (memcmp(p->all, p->before, FENCE + p->length + FENCE) != 0)
            show_bytes("  it is now, with 16 bytes on both sides", FENCE + p->length + FENCE, p->all);
    }
    exit(1);
}

static void expect(bool holds, const char *what)
{
    if (!holds)
        disagree(what);
}

/* ---- what holds of every call ---- */

static void answered(uint8_t refusal, uint64_t first, uint64_t second)
{
    if (told.refusal != refusal || told.first != first || told.second != second) {
        char what[96];
        snprintf(what, sizeof what, "the answer should be %u %" PRIu64 " %" PRIu64, refusal, first, second);
        disagree(what);
    }
}

/* All but bytes `from` to `to` of the place, and its fence, are as before. */
static void kept_but(place *p, size_t from, size_t to)
{
    size_t a = FENCE + from, b = FENCE + to, end = FENCE + p->length + FENCE;
    if (memcmp(p->all, p->before, a) != 0 || memcmp(p->all + b, p->before + b, end - b) != 0) {
        char what[96];
        snprintf(what, sizeof what, "%s was written where it should be kept", p->what);
        disagree(what);
    }
}

static void kept(place *p)
{
    kept_but(p, 0, 0);
}

/* Zeros in 512 working bytes or more; fewer are kept. */
static void work_cleared(void)
{
    static const uint8_t zeros[ROOM];
    if (work.length < NANNYSEASON_WORKING_BYTES) {
        kept(&work);
    } else {
        kept_but(&work, 0, work.length);
        expect(memcmp(at(&work), zeros, work.length) == 0, "the working bytes are not all zeros");
    }
}

/* Every place but the working bytes and `written` is as it was. */
static void others_kept(const place *written)
{
    for (int i = 0; i < PLACES; i++)
        if (places[i] != &work && places[i] != written)
            kept(places[i]);
}

static void enough_work(void)
{
    fill(&work, one_in(4) ? between(NANNYSEASON_WORKING_BYTES, ROOM) : NANNYSEASON_WORKING_BYTES);
}

static void too_little_work(void)
{
    fill(&work, one_in(2) ? NANNYSEASON_WORKING_BYTES - 1 : between(0, NANNYSEASON_WORKING_BYTES - 1));
}

static void any_work(void)
{
    if (one_in(4))
        too_little_work();
    else
        enough_work();
}

static uint8_t no_kind(void)
{
    static const uint8_t edges[] = {0, 3, 255};
    return one_in(2) ? edges[between(0, 2)] : (uint8_t)between(3, 255);
}

/* A length that is not the one wanted. */
static size_t not_length(size_t wanted)
{
    size_t n = one_in(2) ? wanted - 1 + 2 * between(0, 1) : between(0, 2 * wanted + 8);
    return n == wanted ? wanted + 1 : n;
}

/* ---- the wraps ---- */

typedef struct {
    uint64_t sealed, opened, flipped, renamed, rekeyed, wrong_length, short_working, short_buffer, misuse;
} wrap_counts;

static EVP_CIPHER_CTX *openssl;

static size_t sealed_bytes(void)
{
    return kind == 1 ? NANNYSEASON_RFC3394_SEALED_BYTES : NANNYSEASON_RFC5297_SEALED_BYTES;
}

/* Seals and opens with the places as they are. */
static void try_seal(const char *what)
{
    call = what;
    told = nannyseason_seal(kind, at(&key), key.length, at(&name), name.length, at(&content), content.length, at(&sealed),
                            sealed.length, at(&work), work.length);
    work_cleared();
}

static void try_open(const char *what)
{
    call = what;
    told = nannyseason_open(kind, at(&key), key.length, at(&name), name.length, at(&sealed), sealed.length, at(&content),
                            content.length, at(&work), work.length);
    work_cleared();
}

static void refused(uint8_t refusal, uint64_t first)
{
    answered(refusal, first, 0);
    others_kept(NULL);
}

static void does_not_open(const char *what)
{
    fill(&content, 32);
    enough_work();
    try_open(what);
    refused(NANNYSEASON_DOES_NOT_OPEN, 0);
}

static bool openssl_opens(uint8_t got[32])
{
    return openssl_open(openssl, kind, at(&key), at(&name), at(&sealed), got);
}

/* Both sides seal the same bytes, and each opens what the other sealed. */
static void check_sealing(const uint8_t text[32], uint8_t theirs[48], wrap_counts *counts)
{
    size_t wanted = sealed_bytes();
    uint8_t got[48];
    put(&content, text, 32, 32);
    fill(&sealed, one_in(2) ? wanted : between(wanted, wanted + 64));
    enough_work();
    expect(openssl_seal(openssl, kind, at(&key), at(&name), text, theirs), "OpenSSL does not seal");
    try_seal("seal");
    answered(0, 0, 0);
    others_kept(&sealed);
    kept_but(&sealed, 0, wanted);
    expect(memcmp(at(&sealed), theirs, wanted) == 0, "OpenSSL seals to other bytes");
#ifndef NO_NETTLE
    nettle_seal(kind, at(&key), at(&name), text, got);
    expect(memcmp(at(&sealed), got, wanted) == 0, "nettle seals to other bytes");
    expect(nettle_open(kind, at(&key), at(&name), at(&sealed), got), "nettle does not open our bytes");
    expect(memcmp(got, text, 32) == 0, "nettle opens our bytes to another content");
#endif
    expect(openssl_opens(got), "OpenSSL does not open our bytes");
    expect(memcmp(got, text, 32) == 0, "OpenSSL opens our bytes to another content");
    counts->sealed++;
}

static void opens(const uint8_t text[32], const uint8_t theirs[48])
{
    put(&sealed, theirs, sealed_bytes(), sealed_bytes());
    fill(&content, 32);
    enough_work();
    try_open("open");
    answered(0, 0, 0);
    others_kept(&content);
    kept_but(&content, 0, 32);
    expect(memcmp(at(&content), text, 32) == 0, "it opens to another content");
}

static void flip(place *p, size_t from, size_t to)
{
    at(p)[between(from, to - 1)] ^= (uint8_t)(1u << between(0, 7));
    settle(p);
}

static void check_spoilt(const uint8_t text[32], const uint8_t theirs[48], wrap_counts *counts)
{
    size_t wanted = sealed_bytes();
    uint8_t got[48], right[32];

    put(&sealed, theirs, wanted, wanted);
    flip(&sealed, 0, wanted);
    does_not_open("open with a flipped bit");
    expect(!openssl_opens(got), "OpenSSL opens what we do not");
    counts->flipped++;

    put(&sealed, theirs, wanted, wanted);
    memcpy(right, at(&name), 10);
    flip(&name, 0, 10);
    if (kind == 1)
        opens(text, theirs);
    else
        does_not_open("open with another name");
    expect(openssl_opens(got) == (kind == 1), "OpenSSL does otherwise with another name");
    put(&name, right, 10, 10);
    counts->renamed++;

    memcpy(right, at(&key), 32);
    if (one_in(2))
        flip(&key, 0, 32);
    else
        fill(&key, 32);
    does_not_open("open with another key");
    expect(!openssl_opens(got), "OpenSSL opens under another key");
    put(&key, right, 32, 32);
    counts->rekeyed++;

    size_t lengths[] = {between(0, wanted - 1), between(wanted + 1, wanted + 64), wanted - 1, wanted + 1, wanted - 8, wanted + 8, 0};
    for (size_t i = 0; i < sizeof lengths / sizeof *lengths; i++) {
        put(&sealed, theirs, wanted, lengths[i]);
        does_not_open("open with a wrong length");
        counts->wrong_length++;
    }
}

static void check_short(const uint8_t text[32], const uint8_t theirs[48], wrap_counts *counts)
{
    size_t wanted = sealed_bytes();

    put(&content, text, 32, 32);
    fill(&sealed, between(0, wanted + 8));
    too_little_work();
    try_seal("seal with too few working bytes");
    refused(NANNYSEASON_SHORT_WORKING, 0);
    put(&sealed, theirs, wanted, one_in(4) ? between(0, wanted + 8) : wanted);
    fill(&content, 32);
    too_little_work();
    try_open("open with too few working bytes");
    refused(NANNYSEASON_SHORT_WORKING, 0);
    counts->short_working += 2;

    put(&content, text, 32, 32);
    fill(&sealed, one_in(2) ? wanted - 1 : between(0, wanted - 1));
    enough_work();
    try_seal("seal with a short buffer");
    refused(NANNYSEASON_SHORT_BUFFER, wanted);
    counts->short_buffer++;
}

/* One or more of kind, key, name and content is wrong; the other faults do not come first. */
static void check_misuse(const uint8_t text[32], const uint8_t theirs[48], wrap_counts *counts)
{
    uint8_t right_key[32], right_name[10], right_kind = kind;
    size_t wanted = sealed_bytes();
    memcpy(right_key, at(&key), 32);
    memcpy(right_name, at(&name), 10);
    for (int opening = 0; opening < 2; opening++) {
        uint64_t wrong = between(1, 15);
        if (one_in(2))
            wrong = UINT64_C(1) << between(0, 3);
        put(&key, right_key, 32, wrong & 2 ? not_length(32) : 32);
        put(&name, right_name, 10, wrong & 4 ? not_length(10) : 10);
        put(&content, text, 32, wrong & 8 ? not_length(32) : 32);
        put(&sealed, theirs, wanted, one_in(4) ? not_length(wanted) : wanted);
        any_work();
        kind = wrong & 1 ? no_kind() : right_kind;
        if (opening)
            try_open("open with a misuse");
        else
            try_seal("seal with a misuse");
        refused(NANNYSEASON_MISUSE, 0);
        kind = right_kind;
        counts->misuse++;
    }
}

static void check_wraps(uint64_t cases, wrap_counts *counts)
{
    for (case_number = 0; case_number < cases; case_number++) {
        uint8_t text[32], theirs[48];
        for (int i = 0; i < PLACES; i++)
            fill(places[i], 0);
        fill(&key, 32);
        fill(&name, 10);
        random_bytes(text, 32);
        check_sealing(text, theirs, counts);
        opens(text, theirs);
        counts->opened++;
        check_spoilt(text, theirs, counts);
        check_short(text, theirs, counts);
        check_misuse(text, theirs, counts);
    }
}

/* ---- the player ---- */

typedef struct {
    uint64_t enrolled, read, shown, wiped, refused, misuse;
} player_counts;

static player_counts played;

/* A scanner's way up the tree: its nodes from the leaf to the root, and a key for each. */
static struct {
    uint16_t serial;
    uint32_t epoch;
    uint8_t node[8], key[8][32];
} way;

static uint8_t *put4(uint8_t *to, uint32_t x)
{
    for (int shift = 24; shift >= 0; shift -= 8)
        *to++ = (uint8_t)(x >> shift);
    return to;
}

/*
 * A file of the epoch that lists all nodes of the way above the leaf, each with one wrap. The opener is the child (a chain) or the
 * leaf (a star), and both are of the epoch `opener_epoch`.
 */
static void put_file(uint32_t epoch, bool chain, uint32_t opener_epoch)
{
    uint8_t bytes[ROOM], *to = bytes;
    call = "making a file";
    *to++ = 0x4b;
    *to++ = 1;
    *to++ = kind;
    to = put4(to, epoch);
    *to++ = 7;
    for (int k = 1; k < 8; k++)
        *to++ = way.node[k];
    *to++ = 0;
    *to++ = 7;
    for (int k = 1; k < 8; k++) {
        int opener = chain ? k - 1 : 0;
        uint8_t names[10], *end = names;
        *end++ = way.node[opener];
        end = put4(end, opener_epoch);
        *end++ = way.node[k];
        put4(end, epoch);
        memcpy(to, names, 6);
        expect(openssl_seal(openssl, kind, way.key[opener], names, way.key[k], to + 6), "OpenSSL does not seal");
        to += 6 + sealed_bytes();
    }
    put(&file, bytes, (size_t)(to - bytes), (size_t)(to - bytes));
}

static void settle_player(void)
{
    player_before = player;
}

static void player_is(uint8_t state_wanted, uint8_t leaf, uint16_t serial, uint32_t epoch)
{
    expect(player.state == state_wanted && player.leaf == leaf && player.serial == serial && player.epoch == epoch,
           "the player is another one");
}

static void player_kept(void)
{
    player_is(player_before.state, player_before.leaf, player_before.serial, player_before.epoch);
}

static void try_enrol(const char *what)
{
    call = what;
    settle_player();
    told = nannyseason_enrol(at(&card), card.length, &player, at(&ring), ring.length);
}

static void try_read(const char *what)
{
    call = what;
    settle_player();
    told = nannyseason_read(kind, at(&file), file.length, &player, at(&ring), ring.length, at(&work), work.length);
    work_cleared();
}

static void try_show(const char *what)
{
    call = what;
    settle_player();
    told = nannyseason_show(&player, at(&ring), ring.length, at(&key), key.length);
    player_kept();
}

static void try_wipe(const char *what)
{
    call = what;
    settle_player();
    told = nannyseason_wipe(&player, at(&ring), ring.length);
}

static void player_refused(uint8_t refusal, uint64_t first, uint64_t second)
{
    answered(refusal, first, second);
    others_kept(NULL);
    kept(&work);
    player_kept();
    if (refusal == NANNYSEASON_MISUSE)
        played.misuse++;
    else
        played.refused++;
}

static void read_refused(const char *what, uint8_t refusal, uint64_t first, uint64_t second)
{
    try_read(what);
    settle(&work);
    player_refused(refusal, first, second);
}

static void ring_is(const uint8_t wanted[NANNYSEASON_RING_BYTES])
{
    kept_but(&ring, 0, NANNYSEASON_RING_BYTES);
    expect(memcmp(at(&ring), wanted, NANNYSEASON_RING_BYTES) == 0, "the ring holds other bytes");
    settle(&ring);
}

/* All that may stand in a player of whom no call is done. */
static void misuse_all(const char *what)
{
    uint8_t right_kind = kind;
    any_work();
    if (one_in(4))
        kind = no_kind();
    read_refused(what, NANNYSEASON_MISUSE, 0, 0);
    kind = right_kind;
    fill(&key, one_in(4) ? not_length(32) : 32);
    try_show(what);
    player_refused(NANNYSEASON_MISUSE, 0, 0);
    try_wipe(what);
    player_refused(NANNYSEASON_MISUSE, 0, 0);
}

/* Numbers that no player has, made from those of a waiting or seated one. */
static void check_no_player(void)
{
    nannyseason_player right = player;
    switch (between(0, 4)) {
    case 0:
        player.state = one_in(4) ? 0 : (uint8_t)between(4, 255);
        break;
    case 1:
        player.serial = one_in(2) ? 0 : (uint16_t)(one_in(2) ? 10000 : between(10000, 65535));
        break;
    case 2:
        player.leaf = (uint8_t)(one_in(2) ? 127 : between(0, 127));
        break;
    case 3:
        player.epoch = 0;
        break;
    default:
        player.epoch = (uint32_t)(one_in(2) ? 1000001 : between(1000001, UINT32_MAX));
    }
    misuse_all("numbers that no player has");
    player = right;
}

/* What a waiting or seated player refuses, with the file that it wants at hand; `wanted` is its epoch. */
static void check_read_refusals(uint32_t wanted, uint32_t opener_epoch)
{
    uint8_t right[ROOM], right_kind = kind, right_ring[NANNYSEASON_RING_BYTES];
    size_t length = file.length, size = 6 + sealed_bytes();
    uint64_t number = between(0, 6), cut = between(0, length - 1);
    memcpy(right, at(&file), length);
    memcpy(right_ring, at(&ring), sizeof right_ring);

    any_work();
    kind = no_kind();
    read_refused("read with no kind", NANNYSEASON_MISUSE, 0, 0);
    kind = right_kind;
    too_little_work();
    read_refused("read with too few working bytes", NANNYSEASON_SHORT_WORKING, 0, 0);
    put(&ring, right_ring, sizeof right_ring, not_length(sizeof right_ring));
    enough_work();
    read_refused("read with a ring of a wrong length", NANNYSEASON_NOT_A_RING, 0, 0);
    try_wipe("wipe of a ring of a wrong length");
    player_refused(NANNYSEASON_NOT_A_RING, 0, 0);
    put(&ring, right_ring, sizeof right_ring, sizeof right_ring);

    kind = right_kind == 1 ? 2 : 1;
    enough_work();
    read_refused("read with the other kind", NANNYSEASON_BAD_FILE, 2, 0);
    kind = right_kind;
    put(&file, right, length, cut);
    enough_work();
    read_refused("read of a file that was cut", NANNYSEASON_BAD_FILE, cut, 0);
    put(&file, right, length, length + between(1, 40));
    enough_work();
    read_refused("read of a file with bytes behind it", NANNYSEASON_BAD_FILE, length, 0);

    put(&file, right, length, length);
    put4(at(&file) + 3, 1000000);
    settle(&file);
    enough_work();
    if (wanted < 1000000)
        read_refused("read of a file of a later epoch", NANNYSEASON_TOO_HIGH, wanted, 0);
    put(&file, right, length, length);
    size_t start = 17 + (size_t)number * size;
    flip(&file, start + 6, start + size);
    enough_work();
    read_refused("read of a file with a flipped bit in a wrap", NANNYSEASON_DOES_NOT_OPEN, number, wanted);

    /* Its opener is of another epoch than the ring's key, so it is none. */
    if (opener_epoch > 1) {
        put(&file, right, length, length);
        put4(at(&file) + start + 1, opener_epoch - 1);
        settle(&file);
        enough_work();
        read_refused("read of a file without an opener", NANNYSEASON_SHUT_OUT, way.node[number + 1], 0);
    }
    put(&file, right, length, length);
}

/* The card of the way's scanner. */
static void put_card(void)
{
    uint8_t bytes[NANNYSEASON_CARD_BYTES] = {(uint8_t)(way.serial >> 8), (uint8_t)way.serial, way.node[0]};
    put4(bytes + 3, way.epoch);
    memcpy(bytes + 7, way.key[0], 32);
    put(&card, bytes, sizeof bytes, sizeof bytes);
}

static void check_enrolling(void)
{
    uint8_t bytes[NANNYSEASON_CARD_BYTES], wanted[NANNYSEASON_RING_BYTES] = {0};
    put_card();
    memcpy(bytes, at(&card), sizeof bytes);
    memcpy(wanted, bytes + 3, 36);
    random_bytes((uint8_t *)&player, sizeof player);

    size_t length = not_length(NANNYSEASON_CARD_BYTES);
    put(&card, bytes, sizeof bytes, length);
    fill(&ring, NANNYSEASON_RING_BYTES);
    try_enrol("enrol with a card of a wrong length");
    player_refused(NANNYSEASON_BAD_CARD, length < sizeof bytes ? length : sizeof bytes, 0);
    put(&card, bytes, sizeof bytes, sizeof bytes);
    uint8_t place_told = 0;
    switch (between(0, 3)) {
    case 0:
        at(&card)[0] = (uint8_t)between(40, 255); /* from 10,240 on */
        break;
    case 1:
        at(&card)[0] = at(&card)[1] = 0;
        break;
    case 2:
        at(&card)[2] = (uint8_t)between(0, 127);
        place_told = 2;
        break;
    default:
        put4(at(&card) + 3, one_in(2) ? 0 : (uint32_t)between(1000001, UINT32_MAX));
        place_told = 3;
    }
    settle(&card);
    try_enrol("enrol with a bad card");
    player_refused(NANNYSEASON_BAD_CARD, place_told, 0);
    fill(&ring, not_length(NANNYSEASON_RING_BYTES));
    try_enrol("enrol with a ring of a wrong length");
    player_refused(NANNYSEASON_NOT_A_RING, 0, 0);

    put(&card, bytes, sizeof bytes, sizeof bytes);
    fill(&ring, NANNYSEASON_RING_BYTES);
    try_enrol("enrol");
    answered(0, 0, 0);
    others_kept(&ring);
    player_is(NANNYSEASON_WAITING, way.node[0], way.serial, way.epoch);
    ring_is(wanted);
    played.enrolled++;
}

/* Reads the file at hand, of that epoch. */
static void check_reading(uint32_t epoch)
{
    uint8_t wanted[NANNYSEASON_RING_BYTES];
    put4(wanted, way.epoch);
    memcpy(wanted + 4, way.key[0], 32);
    for (int k = 1; k < 8; k++) {
        put4(wanted + 36 * k, epoch);
        memcpy(wanted + 36 * k + 4, way.key[k], 32);
    }
    enough_work();
    try_read("read");
    answered(0, 0, 0);
    others_kept(&ring);
    player_is(NANNYSEASON_SEATED, way.node[0], way.serial, epoch);
    ring_is(wanted);
    settle(&work);
    played.read++;
}

static void check_showing(void)
{
    fill(&key, not_length(32));
    try_show("show into a place of a wrong length");
    player_refused(NANNYSEASON_MISUSE, 0, 0);
    uint8_t right[NANNYSEASON_RING_BYTES];
    memcpy(right, at(&ring), sizeof right);
    put(&ring, right, sizeof right, not_length(sizeof right));
    fill(&key, 32);
    try_show("show from a ring of a wrong length");
    player_refused(NANNYSEASON_NOT_A_RING, 0, 0);
    put(&ring, right, sizeof right, sizeof right);
    try_show("show");
    answered(0, 0, 0);
    others_kept(&key);
    kept_but(&key, 0, 32);
    expect(memcmp(at(&key), way.key[7], 32) == 0, "it shows another key");
    settle(&key);
    played.shown++;
}

static void check_wiping(void)
{
    static const uint8_t zeros[NANNYSEASON_RING_BYTES];
    try_wipe("wipe");
    answered(0, 0, 0);
    others_kept(&ring);
    player_is(NANNYSEASON_WIPED, 0, way.serial, 0);
    ring_is(zeros);
    played.wiped++;
    misuse_all("a wiped player");
}

static void show_while_waiting(void)
{
    fill(&key, one_in(4) ? not_length(32) : 32);
    try_show("show of a waiting player");
    player_refused(NANNYSEASON_MISUSE, 0, 0);
}

static void new_keys(void)
{
    for (int k = 1; k < 8; k++)
        random_bytes(way.key[k], 32);
}

static void new_way(void)
{
    way.serial = (uint16_t)between(1, 9999);
    way.epoch = (uint32_t)(one_in(8) ? one_in(2) ? 1 : 1000000 : between(1, 1000000));
    way.node[0] = (uint8_t)between(128, 255);
    for (int k = 1; k < 8; k++)
        way.node[k] = way.node[k - 1] / 2;
    random_bytes(way.key[0], 32);
    new_keys();
}

static void check_players(uint64_t cases)
{
    of_player = true;
    for (case_number = 0; case_number < cases; case_number++) {
        for (int i = 0; i < PLACES; i++)
            fill(places[i], 0);
        new_way();
        put_file(way.epoch, true, way.epoch);
        check_enrolling();
        show_while_waiting();
        check_no_player();
        check_read_refusals(way.epoch, way.epoch);
        if (one_in(8)) {
            check_wiping();
            continue;
        }
        check_reading(way.epoch);
        check_showing();
        check_no_player();
        enough_work();
        read_refused("read of the same file again", NANNYSEASON_TOO_LOW, (uint64_t)way.epoch + 1, 0);
        if (way.epoch < 1000000) {
            new_keys();
            put_file(way.epoch + 1, false, way.epoch);
            check_read_refusals(way.epoch + 1, way.epoch);
            check_reading(way.epoch + 1);
            check_showing();
        }
        check_wiping();
    }
}

/* ---- the stack ---- */

enum { STACK = 65536, STACK_PROMISED = 8192, PAINT = 0xa5 };

static uint8_t stack[STACK];
static ucontext_t here, there;
static size_t deepest;

/* The most keys of a way that one read left there, by kinds. */
typedef struct {
    unsigned whole;
    unsigned halves;
} left_keys;

static left_keys most_left[2];

/* How much of the paint is gone. */
static size_t stack_used(void)
{
    size_t untouched = 0;
    while (untouched < STACK && stack[untouched] == PAINT)
        untouched++;
    return STACK - untouched;
}

/* Runs it on a painted stack of its own. What it took counts the frames of this file too. */
static void on_stack(void (*run)(void))
{
    memset(stack, PAINT, STACK);
    expect(getcontext(&there) == 0, "no stack can be made");
    there.uc_stack.ss_sp = stack;
    there.uc_stack.ss_size = STACK;
    there.uc_link = &here;
    makecontext(&there, run, 0);
    expect(swapcontext(&here, &there) == 0, "no stack can be entered");
    answered(0, 0, 0);
    if (stack_used() > deepest)
        deepest = stack_used();
    expect(deepest < STACK_PROMISED, "it took 8 KiB of stack or more");
}

static bool is_on_stack(const uint8_t *bytes, size_t count)
{
    for (size_t i = 0; i + count <= STACK; i++)
        if (memcmp(stack + i, bytes, count) == 0)
            return true;
    return false;
}

/* Counts the keys of the way that stand on the painted stack: those of the ring, among them all that the file's wraps opened to. */
static void count_keys_left(left_keys *most)
{
    left_keys left = {0};
    for (int k = 0; k < 8; k++) {
        left.whole += is_on_stack(way.key[k], 32);
        left.halves += is_on_stack(way.key[k], 16) + is_on_stack(way.key[k] + 16, 16);
    }
    if (left.whole > most->whole)
        most->whole = left.whole;
    if (left.halves > most->halves)
        most->halves = left.halves;
}

static void seal_there(void)
{
    try_seal("seal on a stack of its own");
}

static void open_there(void)
{
    try_open("open on a stack of its own");
}

static void enrol_there(void)
{
    try_enrol("enrol on a stack of its own");
}

static void read_there(void)
{
    try_read("read on a stack of its own");
}

static void show_there(void)
{
    try_show("show on a stack of its own");
}

static void wipe_there(void)
{
    try_wipe("wipe on a stack of its own");
}

static void check_stack(void)
{
    new_way();
    put_file(way.epoch, true, way.epoch);
    put_card();
    fill(&key, 32);
    fill(&name, 10);
    fill(&content, 32);
    fill(&sealed, sealed_bytes());
    fill(&ring, NANNYSEASON_RING_BYTES);
    enough_work();
    on_stack(seal_there);
    on_stack(open_there);
    on_stack(enrol_there);
    settle(&ring);
    on_stack(read_there);
    count_keys_left(&most_left[kind - 1]);
    settle(&ring);
    on_stack(show_there);
    on_stack(wipe_there);
}

/* ---- the command ---- */

static uint64_t number_of(const char *word)
{
    char *end;
    errno = 0;
    uint64_t n = strtoull(word, &end, 0);
    if (errno != 0 || end == word || *end != '\0' || *word == '-') {
        fprintf(stderr, "cross_check: '%s' is no number\n", word);
        exit(2);
    }
    return n;
}

static void show_left(unsigned k, const left_keys *left)
{
    printf("kind %u: a read left %u of the ring's 8 keys on its stack, and %u of their 16 halves\n", k, left->whole, left->halves);
}

static void show_wraps(unsigned k, const wrap_counts *c)
{
    printf("kind %u: sealed %" PRIu64 ", opened %" PRIu64 ", bit flipped %" PRIu64 ", other name %" PRIu64 ", other key %" PRIu64
           ", wrong length %" PRIu64 ", short working %" PRIu64 ", short buffer %" PRIu64 ", misuse %" PRIu64 "; ",
           k, c->sealed, c->opened, c->flipped, c->renamed, c->rekeyed, c->wrong_length, c->short_working, c->short_buffer,
           c->misuse);
}

int main(int count, char **words)
{
#ifdef NO_NETTLE
    const char *peers = ", nettle not asked";
#else
    const char *peers = "";
#endif
    uint64_t cases = count > 1 ? number_of(words[1]) : 100000;
    seed = count > 2 ? number_of(words[2]) : 20261127;
    if (count > 3 || cases == 0) {
        fprintf(stderr, "usage: cross_check [CASES [SEED]], at least one case\n");
        return 2;
    }
    printf("cross_check: %" PRIu64 " cases for each kind, seed %" PRIu64 "\n", cases, seed);
    fflush(stdout);
    uint64_t from = seed;
    for (int i = 0; i < 4; i++)
        state[i] = mixed(&from);
    openssl = openssl_context();
    if (openssl == NULL || !openssl_start()) {
        fprintf(stderr, "cross_check: this OpenSSL lacks AES-256-WRAP or AES-128-SIV\n");
        return 2;
    }
    wrap_counts counts[2] = {0};
    for (kind = 1; kind <= 2; kind++)
        check_wraps(cases, &counts[kind - 1]);
    for (kind = 1; kind <= 2; kind++)
        check_players((cases + 9) / 10);
    for (kind = 1; kind <= 2; kind++)
        for (case_number = 0; case_number < 100; case_number++)
            check_stack();
    for (unsigned k = 1; k <= 2; k++)
        show_left(k, &most_left[k - 1]);
    show_wraps(1, &counts[0]);
    show_wraps(2, &counts[1]);
    printf("player: enrolled %" PRIu64 ", read %" PRIu64 ", shown %" PRIu64 ", wiped %" PRIu64 ", refused %" PRIu64 ", misuse %" PRIu64
           "; deepest stack %zu bytes; all agreed%s\n",
           played.enrolled, played.read, played.shown, played.wiped, played.refused, played.misuse, deepest,
           peers);
    return 0;
}
