// Measures the library against the plain C and prints one table. `bench/run` builds and runs it.
//
// BUILDS lists the builds of plain.c. With an argument, nothing is timed: each operation is run a fixed number of times for callgrind to count
// its instructions, which writes them to a file of its own for each line printed.
#define _POSIX_C_SOURCE 200809L
#include "check.h"
#include "inputs.h"
#include <lemonludo.h>
#include <stdio.h>
#include <stdlib.h>
#include <string.h>
#include <time.h>
#ifdef CALLGRIND
#include <valgrind/callgrind.h>
#endif

#define BUILD(name) extern const struct plain plain_##name;
BUILDS
#undef BUILD
#define BUILD(name) &plain_##name,
static const struct plain *const builds[] = {BUILDS};
#undef BUILD
enum { BUILD_COUNT = sizeof builds / sizeof builds[0] };

// ---- inputs

// Many blocks with one key, from the archive of the crate many_blocks.
void many_encrypt(const uint8_t *key, size_t key_len, const uint8_t *blocks, size_t blocks_len, uint8_t *out, size_t out_len);
void many_decrypt(const uint8_t *key, size_t key_len, const uint8_t *blocks, size_t blocks_len, uint8_t *out, size_t out_len);

// The arguments of the operation that is measured. The sharings are taken in turns: a call reads nothing that was written just before it.
enum { TURNS = 16, BLOCKS = 1024 };
static struct {
    unsigned width, bits;
    size_t s;
    struct sizes z;
    size_t turn;
    uint8_t a[TURNS][SHARES];
    uint8_t record[RECORD_6], inverse[RECORD_4], table[ELEMENTS_6], work[WORK_6_4];
    uint8_t key[16 * SHARES], block[16 * SHARES], random[400 * SHARES * (SHARES - 1)];
    uint8_t blocks[8 * BLOCKS], out[8 * BLOCKS];
} in;

static void prepare(unsigned width, unsigned bits, size_t s)
{
    memset(&in, 0, sizeof in);
    number = FIRST_NUMBER;
    in.width = width;
    in.bits = bits;
    in.s = s;
    in.z = sizes_of(width, bits);
    if (width == 4) {
        for (uint8_t v = 0; v < ELEMENTS_4; v++)
            in.table[present_sbox[v]] = v;
        builds[0]->fit(4, 4, in.table, ELEMENTS_4, house_basis, in.z.basis, in.work, in.z.work, in.inverse, in.z.record);
        memcpy(in.table, present_sbox, ELEMENTS_4);
        builds[0]->fit(4, 4, in.table, ELEMENTS_4, house_basis, in.z.basis, in.work, in.z.work, in.record, in.z.record);
    } else if (width == 6)
        fill_record_6(builds[0], bits, in.record, in.table);
    for (size_t i = 0; i < TURNS; i++)
        fill_below(1u << width, in.a[i], s);
    fill_below(256, in.key, 16 * s);
    fill_below(256, in.block, 16 * s);
    fill_below(random_bound(width), in.random, sizeof in.random);
    fill_below(256, in.blocks, sizeof in.blocks);
}

static size_t next_turn(void)
{
    size_t turn = in.turn;
    in.turn = (turn + 1) % TURNS;
    return turn;
}

// ---- the operations, by the library where `by` is a null pointer, else by that build of the plain C

static void run_sbox(const struct plain *by)
{
    const uint8_t *x = in.a[next_turn()];
    size_t n = random_bytes(in.width, in.z.products * pairs(in.s));
    uint64_t answer[4];
    if (by == NULL)
        ll_sbox(in.record, in.z.record, (uint32_t)in.s, x, in.s, in.random, n, in.out, in.s, answer);
    else
        by->sbox(in.record, in.z.record, in.s, x, in.s, in.random, n, in.out, in.s);
}

static void run_block(const struct plain *by)
{
    size_t n = random_bytes(4, 527 * in.s * (in.s - 1));
    uint64_t answer[4];
    if (by == NULL)
        ll_block(in.record, in.z.record, (uint32_t)in.s, in.key, 10 * in.s, in.block, 8 * in.s, in.random, n, in.out, 8 * in.s, answer);
    else
        by->block(in.record, in.z.record, in.s, in.key, 10 * in.s, in.block, 8 * in.s, in.random, n, in.out, 8 * in.s);
}

static void run_open(const struct plain *by)
{
    size_t n = random_bytes(4, 558 * in.s * (in.s - 1));
    uint64_t answer[4];
    if (by == NULL)
        ll_open(in.record, in.z.record, in.inverse, in.z.record, (uint32_t)in.s, in.key, 10 * in.s, in.block, 8 * in.s, in.random, n, in.out,
            8 * in.s, answer);
    else
        by->open(in.record, in.z.record, in.inverse, in.z.record, in.s, in.key, 10 * in.s, in.block, 8 * in.s, in.random, n, in.out, 8 * in.s);
}

static void run_aes_block(const struct plain *by)
{
    size_t n = 400 * in.s * (in.s - 1);
    uint64_t answer[4];
    if (by == NULL)
        ll_aes_block((uint32_t)in.s, in.key, 16 * in.s, in.block, 16 * in.s, in.random, n, in.out, 16 * in.s, answer);
    else
        by->aes_block(in.s, in.key, 16 * in.s, in.block, 16 * in.s, in.random, n, in.out, 16 * in.s);
}

static void run_fit(const struct plain *by)
{
    uint64_t answer[4];
    if (by == NULL)
        ll_fit(in.width, in.bits, in.table, in.z.elements, in.record + HEAD, in.z.basis, in.work, in.z.work, in.out, in.z.record, answer);
    else
        by->fit(in.width, in.bits, in.table, in.z.elements, in.record + HEAD, in.z.basis, in.work, in.z.work, in.out, in.z.record);
}

static void run_house_fit(const struct plain *by)
{
    uint64_t answer[4];
    if (by == NULL)
        ll_house_fit(in.table, in.z.elements, in.work, in.z.work, in.out, in.z.record, answer);
    else
        by->fit(4, 4, in.table, in.z.elements, house_basis, in.z.basis, in.work, in.z.work, in.out, in.z.record);
}

// A block that is read is one that was not written just before it.
static void run_encrypt(const struct plain *by)
{
    const uint8_t *block = in.blocks + 8 * next_turn();
    uint64_t answer[4];
    if (by == NULL)
        ll_encrypt(in.key, 10, block, 8, in.out, 8, answer);
    else
        by->encrypt(in.key, 10, block, 8, in.out, 8);
}

static void run_decrypt(const struct plain *by)
{
    const uint8_t *block = in.blocks + 8 * next_turn();
    uint64_t answer[4];
    if (by == NULL)
        ll_decrypt(in.key, 10, block, 8, in.out, 8, answer);
    else
        by->decrypt(in.key, 10, block, 8, in.out, 8);
}

// Encrypt beside C that goes nibble by nibble.
static void run_encrypt_nibbles(const struct plain *by)
{
    const uint8_t *block = in.blocks + 8 * next_turn();
    uint64_t answer[4];
    if (by == NULL)
        ll_encrypt(in.key, 10, block, 8, in.out, 8, answer);
    else
        by->present(in.key, block, in.out);
}

// Encrypt beside C that sends each bit to its place.
static void run_encrypt_bits(const struct plain *by)
{
    const uint8_t *block = in.blocks + 8 * next_turn();
    uint64_t answer[4];
    if (by == NULL)
        ll_encrypt(in.key, 10, block, 8, in.out, 8, answer);
    else
        by->standard(in.key, block, in.out);
}

static void run_encrypt_blocks(const struct plain *by)
{
    if (by == NULL)
        many_encrypt(in.key, 10, in.blocks, sizeof in.blocks, in.out, sizeof in.out);
    else
        by->encrypt_blocks(in.key, BLOCKS, in.blocks, in.out);
}

static void run_encrypt_blocks_nibbles(const struct plain *by)
{
    if (by == NULL)
        many_encrypt(in.key, 10, in.blocks, sizeof in.blocks, in.out, sizeof in.out);
    else
        by->present_blocks(in.key, BLOCKS, in.blocks, in.out);
}

static void run_decrypt_blocks(const struct plain *by)
{
    if (by == NULL)
        many_decrypt(in.key, 10, in.blocks, sizeof in.blocks, in.out, sizeof in.out);
    else
        by->decrypt_blocks(in.key, BLOCKS, in.blocks, in.out);
}

static void run_present(const struct plain *by)
{
    by->present(in.key, in.block, in.out);
}

static void run_aes(const struct plain *by)
{
    by->aes(in.key, in.block, in.out);
}

struct operation {
    const char *name;
    void (*run)(const struct plain *);
    unsigned width, bits;
    size_t s;
    // the ratio that the library is to stay under; 0 where there is only plain C
    double target;
};

// One call of Encrypt or Decrypt writes its table out first, so it has another target.
#define TABLE_WRITTEN 6

static const struct operation operations[] = {
    {"masked S-box", run_sbox, 4, 4, 1, 1.2},
    {"masked S-box", run_sbox, 4, 4, 3, 1.2},
    {"masked S-box", run_sbox, 4, 4, 5, 1.2},
    {"masked S-box", run_sbox, 4, 4, 7, 1.2},
    {"masked S-box", run_sbox, 4, 4, 9, 1.2},
    {"masked S-box", run_sbox, 6, 6, 1, 1.2},
    {"masked S-box", run_sbox, 6, 6, 3, 1.2},
    {"masked S-box", run_sbox, 6, 6, 5, 1.2},
    {"masked S-box", run_sbox, 6, 6, 7, 1.2},
    {"masked S-box", run_sbox, 6, 6, 9, 1.2},
    {"masked S-box", run_sbox, 6, 4, 1, 1.2},
    {"masked S-box", run_sbox, 6, 4, 3, 1.2},
    {"masked S-box", run_sbox, 6, 4, 5, 1.2},
    {"masked S-box", run_sbox, 6, 4, 7, 1.2},
    {"masked S-box", run_sbox, 6, 4, 9, 1.2},
    {"Fit", run_fit, 4, 4, 1, 1.5},
    {"Fit", run_fit, 6, 6, 1, 1.5},
    {"Fit", run_fit, 6, 4, 1, 1.5},
    {"House fit", run_house_fit, 4, 4, 1, 1.5},
    {"masked PRESENT-80", run_block, 4, 4, 1, 1.2},
    {"masked PRESENT-80", run_block, 4, 4, 3, 1.2},
    {"masked PRESENT-80", run_block, 4, 4, 5, 1.2},
    {"masked PRESENT-80", run_block, 4, 4, 9, 1.2},
    {"masked opening", run_open, 4, 4, 1, 1.2},
    {"masked opening", run_open, 4, 4, 3, 1.2},
    {"masked opening", run_open, 4, 4, 5, 1.2},
    {"masked opening", run_open, 4, 4, 9, 1.2},
    {"masked AES-128", run_aes_block, 8, 8, 1, 1.2},
    {"masked AES-128", run_aes_block, 8, 8, 3, 1.2},
    {"masked AES-128", run_aes_block, 8, 8, 5, 1.2},
    {"masked AES-128", run_aes_block, 8, 8, 9, 1.2},
    // without masking
    {"Encrypt", run_encrypt, 4, 4, 1, TABLE_WRITTEN},
    {"Decrypt", run_decrypt, 4, 4, 1, TABLE_WRITTEN},
    {"Encrypt blocks", run_encrypt_blocks, 4, 4, 1, 1.1},
    {"Decrypt blocks", run_decrypt_blocks, 4, 4, 1, 1.1},
    {"Encrypt (nibbles)", run_encrypt_nibbles, 4, 4, 1, 2},
    {"Encrypt (bits)", run_encrypt_bits, 4, 4, 1, 1},
    {"blocks (nibbles)", run_encrypt_blocks_nibbles, 4, 4, 1, 1},
    // without masking, in plain C only
    {"PRESENT-80", run_present, 4, 4, 1, 0},
    {"AES-128", run_aes, 8, 8, 1, 0},
};
enum { OPERATION_COUNT = sizeof operations / sizeof operations[0] };

static void fail(const char *what, const char *of)
{
    fprintf(stderr, "bench: %s: %s\n", of, what);
    exit(1);
}

// The library and the plain C give the same output, share by share.
static void compare(const struct operation *o)
{
    uint8_t expected[sizeof in.out];
    prepare(o->width, o->bits, o->s);
    for (size_t turn = 0; turn < TURNS && o->target > 0; turn++) {
        o->run(NULL);
        memcpy(expected, in.out, sizeof expected);
        in.turn = turn;
        o->run(builds[0]);
        if (memcmp(in.out, expected, sizeof expected) != 0)
            fail("the library and the plain C differ", o->name);
    }
}

// ---- time

static double seconds(void)
{
    struct timespec t;
    clock_gettime(CLOCK_MONOTONIC, &t);
    return (double)t.tv_sec + 1e-9 * (double)t.tv_nsec;
}

static double batch(const struct operation *o, const struct plain *by, unsigned calls)
{
    double start = seconds();
    for (unsigned i = 0; i < calls; i++)
        o->run(by);
    return seconds() - start;
}

// The best times of a call so far, in seconds.
struct times {
    unsigned calls;
    double library, plain[BUILD_COUNT];
};

static void keep_best(double *best, double t)
{
    if (*best == 0 || t < *best)
        *best = t;
}

// Some batches of half a millisecond, the library and the builds in turns.
static void measure(const struct operation *o, struct times *best)
{
    prepare(o->width, o->bits, o->s);
    if (best->calls == 0)
        for (best->calls = 1; batch(o, builds[0], best->calls) < 5e-4;)
            best->calls *= 2;
    for (unsigned round = 0; round < 20; round++) {
        if (o->target > 0)
            keep_best(&best->library, batch(o, NULL, best->calls) / best->calls);
        for (size_t k = 0; k < BUILD_COUNT; k++)
            keep_best(&best->plain[k], batch(o, builds[k], best->calls) / best->calls);
    }
}

static void print_time(double t)
{
    if (t < 1e-5)
        printf(" %9.1f ns", t * 1e9);
    else
        printf(" %9.2f us", t * 1e6);
}

static void print_line(const struct operation *o, const struct times *t, double present, double aes)
{
    printf("%-18s %5u %4u %6zu", o->name, o->width, o->bits, o->s);
    if (o->target > 0)
        print_time(t->library);
    else
        printf(" %12s", "");
    for (size_t k = 0; k < BUILD_COUNT; k++) {
        double ratio = t->library / t->plain[k];
        print_time(t->plain[k]);
        if (o->target > 0)
            printf(" %5.2f%c", ratio, k == 0 && ratio > o->target ? '*' : ' ');
        else
            printf(" %6s", "");
    }
    if (o->run == run_block)
        printf(" %8.1f", t->library / present);
    if (o->run == run_aes_block)
        printf(" %8.1f", t->library / aes);
    printf("\n");
}

// Each operation is measured in several passes over all of them, so that a busy moment of the machine spoils none.
static void print_table(void)
{
    static struct times best[OPERATION_COUNT];
    for (unsigned pass = 0; pass < 6; pass++)
        for (size_t i = 0; i < OPERATION_COUNT; i++)
            measure(operations + i, best + i);
    printf("%-18s %5s %4s %6s %12s", "operation", "width", "bits", "shares", "library");
    for (size_t k = 0; k < BUILD_COUNT; k++)
        printf(" %12s %6s", builds[k]->name, "ratio");
    printf(" %8s\n", "penalty");
    for (size_t i = 0; i < OPERATION_COUNT; i++)
        print_line(operations + i, best + i, best[OPERATION_COUNT - 2].plain[0], best[OPERATION_COUNT - 1].plain[0]);
    printf("* above its target: 1.2, for Fit 1.5, for many blocks 1.1, for one call of Encrypt or Decrypt %d; beside C nibble by nibble 2, for many\n"
           "blocks 1, bit by bit 1. Penalty: the library's time over that of the cipher without masking, by its S-box's table, by %s\n",
        TABLE_WRITTEN, builds[0]->name);
}

// ---- instructions

#ifdef CALLGRIND
static void count_instructions(void)
{
    enum { CALLS = 20 };
    for (size_t i = 0; i < OPERATION_COUNT; i++) {
        const struct operation *o = operations + i;
        for (size_t k = 0; k <= BUILD_COUNT; k++) {
            const struct plain *by = k == 0 ? NULL : builds[k - 1];
            if (by == NULL && o->target == 0)
                continue;
            prepare(o->width, o->bits, o->s);
            CALLGRIND_ZERO_STATS;
            for (unsigned c = 0; c < CALLS; c++)
                o->run(by);
            CALLGRIND_DUMP_STATS;
            printf("%s,%u,%u,%zu,%s,%d\n", o->name, o->width, o->bits, o->s, by == NULL ? "library" : by->name, CALLS);
        }
    }
}
#endif

int main(int argc, char **argv)
{
    (void)argv;
    for (size_t k = 0; k < BUILD_COUNT; k++) {
        const char *wrong = check_plain(builds[k]);
        if (wrong != NULL)
            fail(wrong, builds[k]->name);
    }
    for (size_t i = 0; i < OPERATION_COUNT; i++)
        compare(operations + i);
#ifdef CALLGRIND
    if (argc > 1) {
        count_instructions();
        return 0;
    }
#else
    (void)argc;
#endif
    print_table();
    return 0;
}
