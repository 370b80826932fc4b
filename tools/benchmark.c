/*
 * Measures one sealing and one opening of each kind: by the library, by nettle with and without the processor's AES instructions, and
 * by OpenSSL. All take the same inputs, and each call sets up its key. In turn, each is called 100 times in a round, and the best
 * round of many counts, so that other load drops out. Prints tables in Markdown; the status is not 0 if any bytes differ.
 *
 * usage: benchmark [ROUNDS]
 */
#define _POSIX_C_SOURCE 200809L

#include "nannyseason.h"
#include "peers.h"

#include <stdio.h>
#include <stdlib.h>
#include <time.h>

enum { CASES = 100, OPERATIONS = 4 };

/* The four rows: seal and open, of kind 1 and of kind 2. */
static const char *const row_names[OPERATIONS] = {"seal, kind 1", "open, kind 1", "seal, kind 2", "open, kind 2"};

typedef struct {
    uint8_t key[32], name[10], content[32], sealed[2][48], two_strings[48];
} input;

static input inputs[CASES];

static uint8_t kind_of(int row)
{
    return row < 2 ? 1 : 2;
}

static bool opens(int row)
{
    return row % 2 == 1;
}

/* One call: it gets an input and its row, writes into `out`, and answers whether it was done. */
typedef bool call(const input *in, int row, uint8_t *out);

static bool by_library(const input *in, int row, uint8_t *out)
{
    static uint8_t work[NANNYSEASON_WORKING_BYTES];
    uint8_t kind = kind_of(row);
    size_t length = kind == 1 ? NANNYSEASON_RFC3394_SEALED_BYTES : NANNYSEASON_RFC5297_SEALED_BYTES;
    nannyseason_answer answer = opens(row)
        ? nannyseason_open(kind, in->key, 32, in->name, 10, in->sealed[kind - 1], length, out, 32, work, sizeof work)
        : nannyseason_seal(kind, in->key, 32, in->name, 10, in->content, 32, out, length, work, sizeof work);
    return answer.refusal == 0;
}

static bool by_nettle(const input *in, int row, uint8_t *out)
{
    uint8_t kind = kind_of(row);
    if (opens(row))
        return nettle_open(kind, in->key, in->name, in->sealed[kind - 1], out);
    nettle_seal(kind, in->key, in->name, in->content, out);
    return true;
}

/* Only for kind 2; its sealed bytes are others. */
static bool by_nettle_siv(const input *in, int row, uint8_t *out)
{
    if (opens(row))
        return nettle_open_two_strings(in->key, in->name, in->two_strings, out);
    nettle_seal_two_strings(in->key, in->name, in->content, out);
    return true;
}

static bool openssl_call(EVP_CIPHER_CTX *context, const input *in, int row, uint8_t *out)
{
    uint8_t kind = kind_of(row);
    return opens(row) ? openssl_open(context, kind, in->key, in->name, in->sealed[kind - 1], out)
                      : openssl_seal(context, kind, in->key, in->name, in->content, out);
}

/* A context for each row, kept from call to call. */
static EVP_CIPHER_CTX *contexts[OPERATIONS];

static bool by_openssl_kept(const input *in, int row, uint8_t *out)
{
    return openssl_call(contexts[row], in, row, out);
}

static bool by_openssl_new(const input *in, int row, uint8_t *out)
{
    EVP_CIPHER_CTX *context = openssl_context();
    bool done = openssl_call(context, in, row, out);
    EVP_CIPHER_CTX_free(context);
    return done;
}

enum { LIBRARY, NETTLE, NETTLE_SIV, OPENSSL_KEPT, OPENSSL_NEW, CALLS };

static call *const calls[CALLS] = {by_library, by_nettle, by_nettle_siv, by_openssl_kept, by_openssl_new};

typedef double times[CALLS][OPERATIONS];

static _Noreturn void fail(const char *what)
{
    fprintf(stderr, "benchmark: %s\n", what);
    exit(1);
}

static bool measured(int c, int row)
{
    return c != NETTLE_SIV || kind_of(row) == 2;
}

static void make_inputs(void)
{
    uint32_t x = 20261127;
    for (int i = 0; i < CASES; i++) {
        uint8_t *bytes = (uint8_t *)&inputs[i];
        for (size_t b = 0; b < sizeof inputs[i]; b++) {
            x = x * 1664525 + 1013904223;
            bytes[b] = (uint8_t)(x >> 24);
        }
        for (uint8_t kind = 1; kind <= 2; kind++)
            if (!openssl_seal(contexts[0], kind, inputs[i].key, inputs[i].name, inputs[i].content, inputs[i].sealed[kind - 1]))
                fail("OpenSSL does not seal");
        nettle_seal_two_strings(inputs[i].key, inputs[i].name, inputs[i].content, inputs[i].two_strings);
    }
}

/* All seal to the same bytes, and open them to the content. */
static void compare(void)
{
    for (int c = 0; c < CALLS; c++)
        for (int row = 0; row < OPERATIONS; row++)
            for (int i = 0; measured(c, row) && i < CASES; i++) {
                uint8_t out[48];
                const input *in = &inputs[i];
                const uint8_t *sealed = c == NETTLE_SIV ? in->two_strings : in->sealed[kind_of(row) - 1];
                size_t length = opens(row) ? 32 : kind_of(row) == 1 ? 40 : 48;
                if (!calls[c](in, row, out) || memcmp(out, opens(row) ? in->content : sealed, length) != 0)
                    fail("the bytes differ");
            }
}

static double now(void)
{
    struct timespec t;
    clock_gettime(CLOCK_MONOTONIC, &t);
    return (double)t.tv_sec * 1e9 + (double)t.tv_nsec;
}

/* Nanoseconds for a call, in one round. */
static double round_of(call *f, int row)
{
    uint8_t out[48];
    bool done = true;
    double start = now();
    for (int i = 0; i < CASES; i++)
        done &= f(&inputs[i], row, out);
    double time = (now() - start) / CASES;
    if (!done)
        fail("a call was refused");
    return time;
}

static void measure(int rounds, bool nettle_alone, times best)
{
    for (int round = 0; round < rounds; round++)
        for (int row = 0; row < OPERATIONS; row++)
            for (int c = 0; c < CALLS; c++) {
                if (!measured(c, row) || (nettle_alone && c != NETTLE && c != NETTLE_SIV))
                    continue;
                double time = round_of(calls[c], row);
                if (round == 0 || time < best[c][row])
                    best[c][row] = time;
            }
}

/* Nettle chooses its code when it is loaded, so the one without AES instructions is measured by this program in another process. */
static void measure_plain(const char *self, int rounds, times best)
{
    char command[4096];
    setenv("NETTLE_FAT_OVERRIDE", "none", 1);
    snprintf(command, sizeof command, "'%s' %d nettle", self, rounds);
    FILE *from = popen(command, "r");
    if (from == NULL)
        fail("cannot start itself");
    for (int row = 0; row < OPERATIONS; row++)
        if (fscanf(from, "%lf %lf", &best[NETTLE][row], &best[NETTLE_SIV][row]) != 2)
            fail("no answer from itself");
    if (pclose(from) != 0)
        fail("it failed by itself");
    unsetenv("NETTLE_FAT_OVERRIDE");
}

static double smaller(double a, double b)
{
    return a < b ? a : b;
}

static void show(times best, times plain)
{
    printf("| ns | library | nettle, no AES instructions | nettle, default | OpenSSL | library / nettle, no AES instructions "
           "| library / nettle, default | library / OpenSSL |\n");
    printf("|---|---|---|---|---|---|---|---|\n");
    for (int row = 0; row < OPERATIONS; row++) {
        double ours = best[LIBRARY][row], openssl = smaller(best[OPENSSL_KEPT][row], best[OPENSSL_NEW][row]);
        printf("| %s | %.0f | %.0f | %.0f | %.0f | %.2f | %.2f | %.2f |\n", row_names[row], ours, plain[NETTLE][row],
               best[NETTLE][row], openssl, ours / plain[NETTLE][row], ours / best[NETTLE][row], ours / openssl);
    }
    printf("\n| ns | nettle's own AES-SIV, no AES instructions | nettle's own AES-SIV, default | OpenSSL, context kept "
           "| OpenSSL, context new |\n");
    printf("|---|---|---|---|---|\n");
    for (int row = 0; row < OPERATIONS; row++) {
        printf("| %s ", row_names[row]);
        if (measured(NETTLE_SIV, row))
            printf("| %.0f | %.0f ", plain[NETTLE_SIV][row], best[NETTLE_SIV][row]);
        else
            printf("| | ");
        printf("| %.0f | %.0f |\n", best[OPENSSL_KEPT][row], best[OPENSSL_NEW][row]);
    }
}

int main(int count, char **words)
{
    int rounds = count > 1 ? atoi(words[1]) : 300;
    bool nettle_alone = count > 2;
    static times best, plain;
    if (rounds < 1) {
        fprintf(stderr, "usage: benchmark [ROUNDS], at least one round\n");
        return 2;
    }
    for (int row = 0; row < OPERATIONS; row++)
        contexts[row] = openssl_context();
    if (contexts[OPERATIONS - 1] == NULL || !openssl_start())
        fail("this OpenSSL lacks AES-256-WRAP or AES-128-SIV");
    make_inputs();
    compare();
    measure(rounds, nettle_alone, best);
    if (nettle_alone) {
        for (int row = 0; row < OPERATIONS; row++)
            printf("%f %f\n", best[NETTLE][row], best[NETTLE_SIV][row]);
        return 0;
    }
    measure_plain(words[0], rounds, plain);
    printf("Best of %d rounds of %d calls.\n\n", rounds, CASES);
    show(best, plain);
    return 0;
}
