// Calls every function of lemonludo.h and compares the answer, and every byte lent, with what is expected.
//
// The archive is no C and has no sanitizer's checks in it. So each slice of a call lies in memory of its own between two pages that cannot
// be touched, and each call is made twice: with every slice right after the lower page, and right before the upper one. A read or a write
// past an end then stops the program, and what lies around a slice is compared too.
#define _DEFAULT_SOURCE // for MAP_ANONYMOUS
#include "lemonludo.h"
#include <inttypes.h>
#include <stdio.h>
#include <string.h>
#include <sys/mman.h>

enum { PAGE = 4096, ROOM = 10 * PAGE, SLICES = 7, FILL = 0xee };

struct slice {
    const void *entries; // NULL, or what it holds before the call
    size_t len;
    size_t size; // bytes of an entry
};

struct answer {
    uint64_t words[4];
};

struct operation {
    const char *name;
    unsigned slices;  // how many it takes
    unsigned written; // how many of these, the last ones, are lent for writing
    void (*call)(uint32_t number, void *const *at, const size_t *len, uint64_t *answer);
};

static unsigned calls, failures;

// ---- what the calls are given

static const uint8_t zeros[11009], house_basis[10] = {0, 1, 1, 0, 0, 0, 0, 1, 0};
static const uint8_t present_table[17] = {12, 5, 6, 11, 9, 0, 10, 13, 3, 14, 15, 8, 4, 7, 1, 2};

// The records of the zero table and of PRESENT's over the house basis, and of the identity over zero bases, at width 6 also of its low four
// bits. They are of version 2, and a byte longer, as are the other buffers here, so that a slice can be lent that is too long.
static const uint8_t zero_record[35] = {'D', 'C', 'P', 0, 2, 4, 4, 0, 1, 1, 0, 0, 0, 0, 1, 0};
static const uint8_t present_record[35] = {'D', 'C', 'P', 0, 2, 4, 4, 0, 1, 1, 0, 0, 0, 0, 1, 0, //
    12, 3, 3, 13, 7, 0, 4, 14, 14, 12, 1, 8, 13, 3, 3, 15, 0, 0};
static const uint8_t identity_record_4[35] = {'D', 'C', 'P', 0, 2, 4, 4, [26] = 1};
static const uint8_t identity_record_6[141] = {'D', 'C', 'P', 0, 2, 6, 6, [122] = 1};
static const uint8_t low_record[103] = {'D', 'C', 'P', 0, 2, 6, 4, [84] = 1};

// Two of them in version 1, which has no byte for the output bits.
static const uint8_t inverse_record[35] = {'D', 'C', 'P', 0, 2, 4, 4, 0, 1, 1, 0, 0, 0, 0, 1, 0, //
    10, 12, 2, 5, 12, 0, 9, 15, 9, 5, 10, 12, 0, 9, 10, 12, 0, 0};
static const uint8_t present_record_1[34] = {'D', 'C', 'P', 0, 1, 4, 0, 1, 1, 0, 0, 0, 0, 1, 0, //
    12, 3, 3, 13, 7, 0, 4, 14, 14, 12, 1, 8, 13, 3, 3, 15, 0, 0};
static const uint8_t identity_record_6_1[140] = {'D', 'C', 'P', 0, 1, 6, [121] = 1};

static uint8_t identity_table[65], low_table[65], fill[11009], nibbles[20089], random_bytes[28801], key_masks[128], block_masks[128];

static void set_up(void)
{
    memset(fill, FILL, sizeof fill);
    for (size_t i = 0; i < sizeof identity_table; i++)
        identity_table[i] = (uint8_t)i, low_table[i] = i % 16;
    for (size_t i = 0; i < sizeof nibbles; i++)
        nibbles[i] = (uint8_t)((14 * i + 3) % 16 * 16 + (14 * i + 10) % 16); // element k is 7 k + 3 modulo 16
    for (size_t i = 0; i < sizeof random_bytes; i++)
        random_bytes[i] = (uint8_t)(59 * i + i / 251 + 7);
    for (size_t i = 0; i < sizeof key_masks; i++)
        key_masks[i] = (uint8_t)(37 * i + 11);
    for (size_t i = 0; i < sizeof block_masks; i++)
        block_masks[i] = (uint8_t)(73 * i + 5);
}

static struct slice bytes(const void *entries, size_t len)
{
    return (struct slice){entries, len, 1};
}

static struct slice numbers(const uint32_t *entries, size_t len)
{
    return (struct slice){entries, len, sizeof(uint32_t)};
}

static struct slice space(size_t len)
{
    return bytes(fill, len);
}

static struct slice null(void)
{
    return bytes(NULL, 0);
}

static struct answer done(uint64_t first, uint64_t second, uint64_t third)
{
    return (struct answer){{LL_DONE, first, second, third}};
}

static struct answer refused(uint64_t number, uint64_t place)
{
    return (struct answer){{number, place, 0, 0}};
}

// ---- one call

static uint8_t *room[SLICES + 1]; // for the slices and the answer
static int before_upper_page;
static uint8_t result[ROOM];       // what the last call wrote to its last slice, where `any` was expected
static const uint8_t any[1] = {0}; // stands for an output that the caller of `expect` compares

static int make_rooms(void)
{
    for (unsigned k = 0; k <= SLICES; k++) {
        uint8_t *pages = mmap(NULL, ROOM + 2 * PAGE, PROT_NONE, MAP_PRIVATE | MAP_ANONYMOUS, -1, 0);
        if (pages == MAP_FAILED || mprotect(pages + PAGE, ROOM, PROT_READ | PROT_WRITE) != 0)
            return 0;
        room[k] = pages + PAGE;
    }
    return 1;
}

static uint8_t *place_of(unsigned k, struct slice s)
{
    return room[k] + (before_upper_page ? ROOM - s.len * s.size : 0);
}

static void *lend(unsigned k, struct slice s)
{
    if (s.entries == NULL)
        return NULL;
    memset(room[k], FILL, ROOM);
    return memcpy(place_of(k, s), s.entries, s.len * s.size);
}

// Whether the slice in room k holds `after`, and what lies around it is as it was.
static int holds(unsigned k, struct slice s, const void *after)
{
    static uint8_t expected[ROOM];
    if (s.entries == NULL)
        return 1;
    if (after == any)
        after = memcpy(result, place_of(k, s), s.len);
    memset(expected, FILL, ROOM);
    memcpy(expected + (place_of(k, s) - room[k]), after, s.len * s.size);
    return memcmp(room[k], expected, ROOM) == 0;
}

static void failed(const struct operation *op, const char *what, const char *why)
{
    failures++;
    printf("  FAILED %s, %s: %s\n", op->name, what, why);
}

// The call with these slices answers `answer`. If it is done, the last slice then holds `after`. If it is done or refused with 4, a work
// area, which stands before the last slice, is zero. Everything else is as before.
static void expect(const struct operation *op, const char *what, uint32_t number, const struct slice *slices, struct answer answer,
    const void *after)
{
    for (before_upper_page = 0; before_upper_page < 2; before_upper_page++) {
        void *at[SLICES];
        size_t len[SLICES];
        for (unsigned k = 0; k < op->slices; k++) {
            at[k] = lend(k, slices[k]);
            len[k] = slices[k].len;
        }
        const struct slice four = space(sizeof answer);
        uint64_t *words = lend(SLICES, four);
        op->call(number, at, len, words);
        calls++;

        if (!holds(SLICES, four, answer.words)) {
            char why[200];
            snprintf(why, sizeof why, "answer %" PRIu64 " %" PRIu64 " %" PRIu64 " %" PRIu64 ", expected %" PRIu64 " %" PRIu64 " %" PRIu64
                " %" PRIu64, words[0], words[1], words[2], words[3], answer.words[0], answer.words[1], answer.words[2], answer.words[3]);
            failed(op, what, why);
        }
        for (unsigned k = 0; k < op->slices; k++) {
            const void *expected = slices[k].entries;
            if (op->written == 2 && k == op->slices - 2 && (answer.words[0] == LL_DONE || answer.words[0] == LL_NO_FIT))
                expected = zeros;
            if (op->written > 0 && k == op->slices - 1 && answer.words[0] == LL_DONE)
                expected = after;
            if (!holds(k, slices[k], expected)) {
                char why[60];
                snprintf(why, sizeof why, "slice %u is not as expected after the call", k);
                failed(op, what, why);
            }
        }
    }
}

// As `expect`, for a call that is done and writes `value` in s shares.
static void expect_shared(const struct operation *op, const char *what, uint32_t s, const struct slice *slices, struct answer answer,
    const uint8_t *value)
{
    const size_t size = slices[op->slices - 1].len / s;
    expect(op, what, s, slices, answer, any);
    for (size_t i = 0; i < size; i++) {
        uint8_t sum = 0;
        for (size_t share = 0; share < s; share++)
            sum ^= result[share * size + i];
        if (sum != value[i]) {
            failed(op, what, "the shares written join to another value");
            return;
        }
    }
}

// ---- refusals that several functions have. Each starts from slices that are accepted.

// Each slice in turn one entry short, one entry long, empty, and NULL.
static void wrong_lengths(const struct operation *op, uint32_t number, const struct slice *accepted)
{
    for (unsigned k = 0; k < op->slices; k++)
        for (unsigned change = 0; change < 4; change++) {
            struct slice slices[SLICES];
            memcpy(slices, accepted, op->slices * sizeof *slices);
            slices[k].len = change == 0 ? slices[k].len - 1 : change == 1 ? slices[k].len + 1 : 0;
            if (change == 3)
                slices[k].entries = NULL;
            char what[60];
            snprintf(what, sizeof what, "slice %u %s", k, ((const char *[]){"one short", "one long", "empty", "NULL"})[change]);
            expect(op, what, number, slices, refused(LL_LENGTH, 0), NULL);
        }
}

// Slice 0 is a record of version 2 and width 4, and in it one byte is changed, or two.
static void wrong_records(const struct operation *op, uint32_t number, const struct slice *accepted)
{
    uint8_t record[34];
    struct slice slices[SLICES];
    memcpy(slices, accepted, op->slices * sizeof *slices);

    slices[0] = bytes(accepted[0].entries, 5);
    expect(op, "record of 5 bytes", number, slices, refused(LL_LENGTH, 0), NULL);
    slices[0] = bytes(accepted[0].entries, 6);
    expect(op, "record of 6 bytes", number, slices, refused(LL_LENGTH, 0), NULL);
    slices[0] = bytes(record, sizeof record);
    for (unsigned k = 0; k < 5; k++) {
        memcpy(record, accepted[0].entries, sizeof record);
        record[k] ^= 2;
        expect(op, "wrong mark or version", number, slices, refused(LL_MARK, 0), NULL);
    }
    memcpy(record, accepted[0].entries, sizeof record);
    record[4] = 3;
    expect(op, "version 3", number, slices, refused(LL_MARK, 0), NULL);
    record[4] = 2;
    record[5] = 5;
    expect(op, "width 5", number, slices, refused(LL_WIDTH, 0), NULL);
    record[6] = 5;
    expect(op, "width 5, output bits 5", number, slices, refused(LL_WIDTH, 0), NULL);
    slices[0].len = 6;
    expect(op, "record of 6 bytes, width 5", number, slices, refused(LL_WIDTH, 0), NULL);
    record[5] = 4;
    slices[0].len = 7;
    expect(op, "record of 7 bytes, output bits 5", number, slices, refused(LL_BITS, 0), NULL);
    slices[0].len = sizeof record;
    expect(op, "output bits 5", number, slices, refused(LL_BITS, 0), NULL);
    record[6] = 6;
    expect(op, "width 4, output bits 6", number, slices, refused(LL_BITS, 0), NULL);
    record[6] = 4;
    record[33] = 255;
    expect(op, "coefficient 255", number, slices, refused(LL_TOO_LARGE, 33), NULL);
    record[20] = 16;
    expect(op, "coefficients 16 and 255", number, slices, refused(LL_TOO_LARGE, 20), NULL);
}

// No slice has the length that goes with these, yet the share count is tested first.
static void wrong_share_counts(const struct operation *op, const struct slice *accepted)
{
    expect(op, "0 shares", 0, accepted, refused(LL_SHARE_COUNT, 0), NULL);
    expect(op, "10 shares", 10, accepted, refused(LL_SHARE_COUNT, 0), NULL);
    expect(op, "259 shares", 259, accepted, refused(LL_SHARE_COUNT, 0), NULL);
    expect(op, "2^32 - 1 shares", UINT32_MAX, accepted, refused(LL_SHARE_COUNT, 0), NULL);
}

// ---- Read and Check

static void call_read(uint32_t number, void *const *at, const size_t *len, uint64_t *answer)
{
    (void)number;
    ll_read(at[0], len[0], answer);
}

static void test_read(void)
{
    static const struct operation op = {"ll_read", 1, 0, call_read};
    const struct slice slices[] = {bytes(zero_record, 34)};
    expect(&op, "a record of width 4", 0, slices, done(4, 0, 0), NULL);
    wrong_lengths(&op, 0, slices);
    wrong_records(&op, 0, slices);
    static const struct {
        const uint8_t *record;
        size_t len;
        uint64_t width;
    } others[] = {{identity_record_6, 140, 6}, {low_record, 102, 6}, {present_record_1, 33, 4}, {identity_record_6_1, 139, 6}};
    for (unsigned k = 0; k < 4; k++) {
        const struct slice other = bytes(others[k].record, others[k].len);
        expect(&op, "a record of another pair or version", 0, &other, done(others[k].width, 0, 0), NULL);
        wrong_lengths(&op, 0, &other);
    }

    uint8_t record[34];
    memcpy(record, zero_record, sizeof record);
    record[20] = 15;
    expect(&op, "coefficient 15", 0, &(struct slice){record, 34, 1}, done(4, 0, 0), NULL);
    record[20] = 16;
    expect(&op, "coefficient 16", 0, &(struct slice){record, 34, 1}, refused(LL_TOO_LARGE, 20), NULL);
}

static void call_check(uint32_t number, void *const *at, const size_t *len, uint64_t *answer)
{
    (void)number;
    ll_check(at[0], len[0], at[1], len[1], answer);
}

static void test_check(void)
{
    static const struct operation op = {"ll_check", 2, 0, call_check};
    const struct slice slices[] = {bytes(present_record, 34), bytes(present_table, 16)};
    expect(&op, "PRESENT's table", 0, slices, done(0, 0, 0), NULL);
    expect(&op, "PRESENT's table, version 1", 0, (struct slice[]){bytes(present_record_1, 33), slices[1]}, done(0, 0, 0), NULL);
    expect(&op, "zero table", 0, (struct slice[]){bytes(zero_record, 34), bytes(zeros, 16)}, done(0, 0, 0), NULL);
    const struct slice wide[] = {bytes(identity_record_6, 140), bytes(identity_table, 64)};
    expect(&op, "identity of width 6", 0, wide, done(0, 0, 0), NULL);
    const struct slice low[] = {bytes(low_record, 102), bytes(low_table, 64)};
    expect(&op, "its low four bits", 0, low, done(0, 0, 0), NULL);
    expect(&op, "entry 16, four output bits", 0, (struct slice[]){low[0], wide[1]}, refused(LL_TOO_LARGE, 16), NULL);
    expect(&op, "low bits, six output bits", 0, (struct slice[]){wide[0], low[1]}, refused(LL_OTHER_TABLE, 16), NULL);
    wrong_records(&op, 0, slices);
    wrong_lengths(&op, 0, slices);
    wrong_lengths(&op, 0, wide);
    wrong_lengths(&op, 0, low);

    uint8_t table[16];
    const struct slice changed[] = {slices[0], bytes(table, 16)};
    memcpy(table, present_table, 16);
    table[15] ^= 1;
    expect(&op, "last entry differs", 0, changed, refused(LL_OTHER_TABLE, 15), NULL);
    table[0] ^= 1;
    expect(&op, "first and last entry differ", 0, changed, refused(LL_OTHER_TABLE, 0), NULL);
    table[7] = 16;
    expect(&op, "entry 16", 0, changed, refused(LL_TOO_LARGE, 7), NULL);
}

// ---- Fit and House fit

static uint32_t output_bits; // of the calls of ll_fit, whose width is the number

static void call_fit(uint32_t number, void *const *at, const size_t *len, uint64_t *answer)
{
    ll_fit(number, output_bits, at[0], len[0], at[1], len[1], at[2], len[2], at[3], len[3], answer);
}

// Width 6 with four output bits.
static void fit_low_bits(const struct operation *op)
{
    struct slice low[] = {bytes(low_table, 64), bytes(zeros, 38), space(11008), space(102)};
    output_bits = 4;
    expect(op, "low bits of the identity over a zero basis", 6, low, done(0, 0, 0), low_record);
    wrong_lengths(op, 6, low);
    const uint8_t unit[64] = {1};
    low[0] = bytes(unit, 64);
    expect(op, "1, 0 .. 0 over a zero basis, four output bits", 6, low, refused(LL_NO_FIT, 0), NULL);
    low[0] = bytes(identity_table, 64);
    expect(op, "entry 16, four output bits", 6, low, refused(LL_TOO_LARGE, 16), NULL);
    uint8_t basis[38] = {[36] = 63, [37] = 64};
    low[0] = bytes(low_table, 64), low[1] = bytes(basis, 38);
    expect(op, "entry 64 in the basis, four output bits", 6, low, refused(LL_TOO_LARGE, 64 + 37), NULL);
}

static void test_fit(void)
{
    static const struct operation op = {"ll_fit", 4, 2, call_fit};
    struct slice slices[] = {bytes(present_table, 16), bytes(house_basis, 9), space(304), space(34)};
    output_bits = 4;
    expect(&op, "PRESENT's table", 4, slices, done(0, 0, 0), present_record);
    wrong_lengths(&op, 4, slices);
    expect(&op, "width 0", 0, slices, refused(LL_WIDTH, 0), NULL);
    expect(&op, "width 5", 5, slices, refused(LL_WIDTH, 0), NULL);
    expect(&op, "width 260", 260, slices, refused(LL_WIDTH, 0), NULL);
    expect(&op, "width 6, lengths of 4", 6, slices, refused(LL_LENGTH, 0), NULL);
    const uint32_t unpaired[] = {0, 5, 6, 260, UINT32_MAX};
    for (unsigned k = 0; k < 5; k++) {
        output_bits = unpaired[k];
        expect(&op, "output bits that do not pair with 4", 4, slices, refused(LL_BITS, 0), NULL);
    }
    expect(&op, "width 5, output bits 2^32 - 1", 5, slices, refused(LL_WIDTH, 0), NULL);
    expect(&op, "output bits 2^32 - 1, all slices NULL", 6, (struct slice[]){null(), null(), null(), null()}, refused(LL_BITS, 0), NULL);
    output_bits = 4;

    uint8_t table[16], basis[9];
    memcpy(table, present_table, 16);
    memcpy(basis, house_basis, 9);
    slices[0] = bytes(table, 16);
    slices[1] = bytes(basis, 9);
    basis[4] = 16;
    expect(&op, "entry 16 in the basis", 4, slices, refused(LL_TOO_LARGE, 20), NULL);
    table[3] = 255;
    expect(&op, "entry 255 in the table, 16 in the basis", 4, slices, refused(LL_TOO_LARGE, 3), NULL);

    const uint8_t unit[16] = {1};
    slices[1] = bytes(zeros, 9);
    slices[0] = bytes(unit, 16);
    expect(&op, "1, 0 .. 0 over a zero basis", 4, slices, refused(LL_NO_FIT, 0), NULL);
    slices[0] = bytes(identity_table, 16);
    expect(&op, "identity over a zero basis", 4, slices, done(0, 0, 0), identity_record_4);

    struct slice wide[] = {bytes(identity_table, 64), bytes(zeros, 57), space(4928), space(140)};
    expect(&op, "lengths of six output bits", 6, wide, refused(LL_LENGTH, 0), NULL);
    output_bits = 6;
    expect(&op, "identity of width 6 over a zero basis", 6, wide, done(0, 0, 0), identity_record_6);
    wrong_lengths(&op, 6, wide);
    wide[2] = space(6144);
    expect(&op, "room for the powers of all inputs", 6, wide, refused(LL_LENGTH, 0), NULL);
    wide[2] = space(4928);
    wide[0] = bytes(identity_table + 1, 64);
    expect(&op, "entry 64 at width 6", 6, wide, refused(LL_TOO_LARGE, 63), NULL);
    fit_low_bits(&op);
}

static void call_house_fit(uint32_t number, void *const *at, const size_t *len, uint64_t *answer)
{
    (void)number;
    ll_house_fit(at[0], len[0], at[1], len[1], at[2], len[2], answer);
}

// There is no 4 here: the house basis decomposes every table.
static void test_house_fit(void)
{
    static const struct operation op = {"ll_house_fit", 3, 2, call_house_fit};
    struct slice slices[] = {bytes(present_table, 16), space(304), space(34)};
    expect(&op, "PRESENT's table", 0, slices, done(0, 0, 0), present_record);
    wrong_lengths(&op, 0, slices);
    slices[0] = bytes(zeros, 16);
    expect(&op, "zero table", 0, slices, done(0, 0, 0), zero_record);
    slices[0] = bytes(identity_table + 1, 16);
    expect(&op, "entry 16", 0, slices, refused(LL_TOO_LARGE, 15), NULL);
    slices[1] = space(448);
    expect(&op, "room for the powers of all inputs", 0, slices, refused(LL_LENGTH, 0), NULL);
}

// ---- S-box and its watch

enum { SBOX_PRODUCTS = 2, SBOX_RANDOM = 3, SBOX_STEPS = 213 }; // at width 4 with three shares

// An element in three shares, random elements, and the shares that the S-box gives.
static const uint8_t sbox_shares[4] = {2, 9, 15}, sbox_random[4] = {0x12, 0x34, 0x56}, sbox_out[3] = {14, 5, 2};

// The squares of the shares, as steps 0 to 2; the random elements, at the first step of each pair of the two masked products; the result.
static const uint32_t sbox_list[14] = {0, 1, 2, 12, 19, 26, 189, 196, 203, 212, 211, 210, 0};
static const uint8_t sbox_values[13] = {4, 13, 10, 1, 2, 3, 4, 5, 6, 2, 5, 14, 4};

// Refusals that S-box and its watch have in common: a record, share count, length or element that is wrong.
static void sbox_refusals(const struct operation *op, const struct slice *accepted)
{
    wrong_records(op, 3, accepted);
    wrong_share_counts(op, accepted);
    wrong_lengths(op, 3, accepted);

    uint8_t shares[3], random[15];
    struct slice slices[SLICES];
    memcpy(slices, accepted, op->slices * sizeof *slices);
    slices[1] = bytes(shares, 3);
    memcpy(shares, sbox_shares, 3);
    shares[1] = 16;
    expect(op, "share 16", 3, slices, refused(LL_TOO_LARGE, 1), NULL);
    slices[0] = bytes(identity_record_6, 140);
    slices[2] = bytes(random, 15);
    memset(random, 63, 15);
    random[5] = 64;
    expect(op, "width 6, random element 64", 3, slices, refused(LL_TOO_LARGE, 8), NULL);
    shares[2] = 255;
    expect(op, "width 6, share 255, random element 64", 3, slices, refused(LL_TOO_LARGE, 2), NULL);
    slices[0] = bytes(low_record, 102);
    expect(op, "four output bits, random elements of six", 3, slices, refused(LL_LENGTH, 0), NULL);
    slices[2] = bytes(random, 12);
    shares[1] = shares[2] = 63;
    expect(op, "four output bits, random element 64", 3, slices, refused(LL_TOO_LARGE, 8), NULL);
}

static void call_sbox(uint32_t number, void *const *at, const size_t *len, uint64_t *answer)
{
    ll_sbox(at[0], len[0], number, at[1], len[1], at[2], len[2], at[3], len[3], answer);
}

static void test_sbox(void)
{
    static const struct operation op = {"ll_sbox", 4, 1, call_sbox};
    const struct slice slices[] = {bytes(present_record, 34), bytes(sbox_shares, 3), bytes(sbox_random, SBOX_RANDOM), space(3)};
    expect(&op, "three shares", 3, slices, done(SBOX_PRODUCTS, SBOX_RANDOM, SBOX_STEPS), sbox_out);
    const struct slice old[] = {bytes(present_record_1, 33), slices[1], slices[2], slices[3]};
    expect(&op, "version 1", 3, old, done(SBOX_PRODUCTS, SBOX_RANDOM, SBOX_STEPS), sbox_out);
    sbox_refusals(&op, slices);

    for (unsigned x = 0; x < 16; x++) {
        const uint8_t shares[] = {(uint8_t)(x ^ 9 ^ 15), 9, 15}, one[] = {(uint8_t)x};
        const struct slice of_x[] = {slices[0], bytes(shares, 3), slices[2], slices[3]};
        expect_shared(&op, "PRESENT's table in three shares", 3, of_x, done(SBOX_PRODUCTS, SBOX_RANDOM, SBOX_STEPS), present_table + x);
        const struct slice alone[] = {slices[0], bytes(one, 1), space(0), space(1)};
        expect(&op, "one share, random empty", 1, alone, done(2, 0, 57), present_table + x);
        const struct slice alone_null[] = {slices[0], bytes(one, 1), null(), space(1)};
        expect(&op, "one share, random NULL", 1, alone_null, done(2, 0, 57), present_table + x);
    }
    static const uint8_t ones[SBOX_RANDOM] = {255, 255, 255};
    const struct slice largest[] = {slices[0], slices[1], bytes(ones, SBOX_RANDOM), space(3)};
    expect_shared(&op, "random bytes 255", 3, largest, done(SBOX_PRODUCTS, SBOX_RANDOM, SBOX_STEPS), present_table + (2 ^ 9 ^ 15));
    const struct slice nine[] = {slices[0], bytes(identity_table, 9), bytes(nibbles, 36), space(9)};
    expect_shared(&op, "nine shares", 9, nine, done(2, 36, 1017), present_table + (0 ^ 1 ^ 2 ^ 3 ^ 4 ^ 5 ^ 6 ^ 7 ^ 8));
    const struct slice wide[] = {bytes(identity_record_6, 140), bytes(identity_table + 61, 3), bytes(identity_table, 15), space(3)};
    const uint8_t value[] = {61 ^ 62 ^ 63};
    expect_shared(&op, "width 6", 3, wide, done(5, 15, 930), value);
    // The upper two bits are those of the form.
    const struct slice low[] = {bytes(low_record, 102), wide[1], bytes(identity_table, 12), space(3)};
    expect_shared(&op, "width 6, four output bits", 3, low, done(4, 12, 687), value);
    const struct slice low_nine[] = {low[0], bytes(identity_table + 55, 9), bytes(zeros, 144), space(9)};
    const uint8_t nine_value[] = {55 ^ 56 ^ 57 ^ 58 ^ 59 ^ 60 ^ 61 ^ 62 ^ 63};
    expect_shared(&op, "nine shares, four output bits", 9, low_nine, done(4, 144, 2817), nine_value);
}

static void call_sbox_watch(uint32_t number, void *const *at, const size_t *len, uint64_t *answer)
{
    ll_sbox_watch(at[0], len[0], number, at[1], len[1], at[2], len[2], at[3], len[3], at[4], len[4], answer);
}

// Width 6 with four output bits: the random elements of the first masked product, the last step, and one past it.
static void watch_low_bits(const struct operation *op)
{
    const uint32_t list[] = {18, 25, 32, 686, 687};
    const uint8_t shares[] = {0, 0, 60}, random[12] = {1, 2, 3}, values[] = {1, 2, 3, 60};
    struct slice slices[] = {bytes(low_record, 102), bytes(shares, 3), bytes(random, 12), numbers(list, 4), space(4)};
    expect(op, "four output bits", 3, slices, done(4, 12, 687), values);
    slices[3] = numbers(list, 5), slices[4] = space(5);
    expect(op, "four output bits, step 687", 3, slices, refused(LL_NO_STEP, 4), NULL);
}

static void test_sbox_watch(void)
{
    static const struct operation op = {"ll_sbox_watch", 5, 1, call_sbox_watch};
    const struct answer counts = done(SBOX_PRODUCTS, SBOX_RANDOM, SBOX_STEPS);
    struct slice slices[] = {bytes(present_record, 34), bytes(sbox_shares, 3), bytes(sbox_random, SBOX_RANDOM), numbers(sbox_list, 13), space(13)};
    expect(&op, "thirteen steps", 3, slices, counts, sbox_values);
    sbox_refusals(&op, slices);
    watch_low_bits(&op);

    const uint32_t step_0[65] = {0}, past[] = {212, 213, UINT32_MAX};
    uint8_t first_square[64];
    memset(first_square, sbox_values[0], sizeof first_square);
    slices[3] = numbers(step_0, 64), slices[4] = space(64);
    expect(&op, "64 times step 0", 3, slices, counts, first_square);
    slices[3] = numbers(step_0, 65), slices[4] = space(65);
    expect(&op, "65 times step 0", 3, slices, refused(LL_LENGTH, 0), NULL);
    slices[3] = numbers(past, 3), slices[4] = space(3);
    expect(&op, "step 213", 3, slices, refused(LL_NO_STEP, 1), NULL);
    slices[3] = numbers(past + 2, 1), slices[4] = space(1);
    expect(&op, "step 2^32 - 1", 3, slices, refused(LL_NO_STEP, 0), NULL);
    slices[3] = numbers(past, 0), slices[4] = space(0);
    expect(&op, "empty list", 3, slices, counts, fill);
    slices[3] = slices[4] = null();
    expect(&op, "NULL list", 3, slices, counts, NULL);
}

// ---- Block and its watch

enum { BLOCK_PRODUCTS = 1054, BLOCK_RANDOM = 1581, BLOCK_STEPS = 117197 }; // with three shares

// The published vectors: key, block, ciphertext.
static const struct {
    uint8_t key, block; // each byte
    uint8_t ciphertext[8];
} vectors[] = {
    {0x00, 0x00, {0x55, 0x79, 0xc1, 0x38, 0x7b, 0x22, 0x84, 0x45}},
    {0xff, 0x00, {0xe7, 0x2c, 0x46, 0xc0, 0xf5, 0x94, 0x50, 0x49}},
    {0x00, 0xff, {0xa1, 0x12, 0xff, 0xc7, 0x2f, 0x68, 0x41, 0x7b}},
    {0xff, 0xff, {0x33, 0x33, 0xdc, 0xd3, 0x21, 0x32, 0x10, 0xd2}},
};

// The shares that the second of them gives, with the masks and random elements set up above.
static const uint8_t block_out[24] = {0x1e, 0xbb, 0xc4, 0x7c, 0x82, 0x8c, 0xf3, 0x3e, //
    0xd5, 0xd5, 0xaa, 0x28, 0xd4, 0x1e, 0x16, 0xb1, 0x2c, 0x42, 0x28, 0x94, 0xa3, 0x06, 0xb5, 0xc6};

// A value of n bytes in s shares: share 0 is the value plus the masks.
static void share_value(const uint8_t *value, size_t n, size_t s, const uint8_t *masks, uint8_t *shares)
{
    memcpy(shares, value, n);
    for (size_t i = 0; i < n * (s - 1); i++) {
        shares[n + i] = masks[i];
        shares[i % n] ^= masks[i];
    }
}

// The same for up to 16 equal bytes.
static void share(uint8_t byte, size_t n, size_t s, const uint8_t *masks, uint8_t *shares)
{
    uint8_t value[16];
    memset(value, byte, sizeof value);
    share_value(value, n, s, masks, shares);
}

static uint8_t nibble(const uint8_t *eight, unsigned k)
{
    return eight[7 - k / 2] >> 4 * (k % 2) & 15;
}

static void block_refusals(const struct operation *op, const struct slice *accepted)
{
    wrong_records(op, 3, accepted);
    wrong_share_counts(op, accepted);
    wrong_lengths(op, 3, accepted);

    struct slice slices[SLICES];
    memcpy(slices, accepted, op->slices * sizeof *slices);
    slices[0] = bytes(identity_record_6, 140);
    expect(op, "width 6", 3, slices, refused(LL_WIDTH, 0), NULL);
    slices[0] = bytes(low_record, 102);
    expect(op, "width 6, four output bits", 3, slices, refused(LL_WIDTH, 0), NULL);
    uint8_t record[34];
    memcpy(record, present_record, sizeof record);
    record[26] ^= 1; // its table differs from PRESENT's, though not at 0
    slices[0] = bytes(record, sizeof record);
    expect(op, "another table", 3, slices, refused(LL_OTHER_TABLE, 0), NULL);
}

static void call_block(uint32_t number, void *const *at, const size_t *len, uint64_t *answer)
{
    ll_block(at[0], len[0], number, at[1], len[1], at[2], len[2], at[3], len[3], at[4], len[4], answer);
}

static void test_block(void)
{
    static const struct operation op = {"ll_block", 5, 1, call_block};
    const struct answer counts = done(BLOCK_PRODUCTS, BLOCK_RANDOM, BLOCK_STEPS);
    uint8_t key[91] = {0}, block[73] = {0};
    struct slice slices[] = {bytes(present_record, 34), bytes(key, 30), bytes(block, 24), bytes(nibbles, BLOCK_RANDOM), space(24)};
    share(0xff, 10, 3, key_masks, key);
    share(0x00, 8, 3, block_masks, block);
    expect(&op, "three shares", 3, slices, counts, block_out);
    const struct slice old[] = {bytes(present_record_1, 33), slices[1], slices[2], slices[3], slices[4]};
    expect(&op, "version 1", 3, old, counts, block_out);
    block_refusals(&op, slices);

    for (unsigned v = 0; v < 4; v++) {
        share(vectors[v].key, 10, 3, key_masks, key);
        share(vectors[v].block, 8, 3, block_masks, block);
        expect_shared(&op, "published vector in three shares", 3, slices, counts, vectors[v].ciphertext);
    }
    share(0xff, 10, 9, key_masks, key);
    share(0xff, 8, 9, block_masks, block);
    const struct slice nine[] = {slices[0], bytes(key, 90), bytes(block, 72), bytes(nibbles, 18972), space(72)};
    expect_shared(&op, "nine shares", 9, nine, done(1054, 18972, 550673), vectors[3].ciphertext);
    struct slice one[] = {slices[0], bytes(zeros, 10), bytes(zeros, 8), space(0), space(8)};
    expect(&op, "one share, random empty", 1, one, done(1054, 0, 31729), vectors[0].ciphertext);
    one[3] = null();
    expect(&op, "one share, random NULL", 1, one, done(1054, 0, 31729), vectors[0].ciphertext);
}

static void call_block_watch(uint32_t number, void *const *at, const size_t *len, uint64_t *answer)
{
    ll_block_watch(at[0], len[0], number, at[1], len[1], at[2], len[2], at[3], len[3], at[4], len[4], at[5], len[5], answer);
}

static void test_block_watch(void)
{
    static const struct operation op = {"ll_block_watch", 6, 1, call_block_watch};
    const struct answer counts = done(BLOCK_PRODUCTS, BLOCK_RANDOM, BLOCK_STEPS);
    uint8_t key[31] = {0}, block[25] = {0}, values[64];
    share(0xff, 10, 3, key_masks, key);
    share(0x00, 8, 3, block_masks, block);

    // The last 48 steps are the nibbles of the result; the first 16 those of share 0 of the block plus the key's first 64 bits.
    uint32_t list[65];
    for (unsigned k = 0; k < 48; k++) {
        list[k] = BLOCK_STEPS - 48 + k;
        values[k] = nibble(block_out + k / 16 * 8, k % 16);
    }
    for (unsigned k = 0; k < 16; k++) {
        list[48 + k] = k;
        values[48 + k] = nibble(block, k) ^ nibble(key, k);
    }
    list[64] = 0;
    struct slice slices[] = {bytes(present_record, 34), bytes(key, 30), bytes(block, 24), bytes(nibbles, BLOCK_RANDOM), //
        numbers(list, 64), space(64)};
    expect(&op, "64 steps", 3, slices, counts, values);
    block_refusals(&op, slices);

    slices[4] = numbers(list, 65), slices[5] = space(65);
    expect(&op, "65 steps", 3, slices, refused(LL_LENGTH, 0), NULL);
    const uint32_t past[] = {117196, 117197, UINT32_MAX};
    slices[4] = numbers(past, 1), slices[5] = space(1);
    expect(&op, "the last step", 3, slices, counts, values + 47);
    slices[4] = numbers(past, 3), slices[5] = space(3);
    expect(&op, "step 117197", 3, slices, refused(LL_NO_STEP, 1), NULL);
    slices[4] = numbers(past + 2, 1), slices[5] = space(1);
    expect(&op, "step 2^32 - 1", 3, slices, refused(LL_NO_STEP, 0), NULL);
    slices[4] = numbers(past, 0), slices[5] = space(0);
    expect(&op, "empty list", 3, slices, counts, fill);
    slices[4] = slices[5] = null();
    expect(&op, "NULL list", 3, slices, counts, NULL);
}

// ---- Open

enum { OPEN_PRODUCTS = 1116, OPEN_RANDOM = 1674, OPEN_STEPS = 125722 }; // with three shares

static void open_refusals(const struct operation *op, const struct slice *accepted)
{
    wrong_records(op, 3, accepted);
    wrong_share_counts(op, accepted);
    wrong_lengths(op, 3, accepted);

    struct slice slices[SLICES];
    memcpy(slices, accepted, op->slices * sizeof *slices);
    slices[0] = bytes(identity_record_6, 140);
    expect(op, "width 6", 3, slices, refused(LL_WIDTH, 0), NULL);
    slices[0] = accepted[1], slices[1] = accepted[0];
    expect(op, "the two records exchanged", 3, slices, refused(LL_OTHER_TABLE, 0), NULL);
    slices[0] = accepted[0];
    expect(op, "the first record twice", 3, slices, refused(LL_OTHER_TABLE, 0), NULL);
    slices[1] = bytes(identity_record_6, 140);
    expect(op, "second record of width 6", 3, slices, refused(LL_WIDTH, 0), NULL);
}

static void call_open(uint32_t number, void *const *at, const size_t *len, uint64_t *answer)
{
    ll_open(at[0], len[0], at[1], len[1], number, at[2], len[2], at[3], len[3], at[4], len[4], at[5], len[5], answer);
}

static void test_open(void)
{
    static const struct operation op = {"ll_open", 6, 1, call_open};
    const struct answer counts = done(OPEN_PRODUCTS, OPEN_RANDOM, OPEN_STEPS);
    uint8_t key[31] = {0}, block[25] = {0}, plain[8];
    struct slice slices[] = {bytes(present_record, 34), bytes(inverse_record, 34), bytes(key, 30), bytes(block, 24), bytes(nibbles, OPEN_RANDOM), space(24)};
    for (unsigned v = 0; v < 4; v++) {
        share(vectors[v].key, 10, 3, key_masks, key);
        share(0, 8, 3, block_masks, block);
        for (unsigned i = 0; i < 8; i++)
            block[i] ^= vectors[v].ciphertext[i];
        memset(plain, vectors[v].block, 8);
        expect_shared(&op, "published vector in three shares", 3, slices, counts, plain);
    }
    open_refusals(&op, slices);
    struct slice one[] = {slices[0], slices[1], bytes(zeros, 10), bytes(vectors[0].ciphertext, 8), space(0), space(8)};
    expect(&op, "one share, random empty", 1, one, done(1116, 0, 34178), zeros);
    one[4] = null();
    expect(&op, "one share, random NULL", 1, one, done(1116, 0, 34178), zeros);
}

static void call_open_watch(uint32_t number, void *const *at, const size_t *len, uint64_t *answer)
{
    ll_open_watch(at[0], len[0], at[1], len[1], number, at[2], len[2], at[3], len[3], at[4], len[4], at[5], len[5], at[6], len[6], answer);
}

static void test_open_watch(void)
{
    static const struct operation op = {"ll_open_watch", 7, 1, call_open_watch};
    const struct answer counts = done(OPEN_PRODUCTS, OPEN_RANDOM, OPEN_STEPS);
    uint8_t key[31] = {0}, block[25] = {0}, values[64];
    share(0xff, 10, 3, key_masks, key);
    share(0x00, 8, 3, block_masks, block);
    // The first steps are the nibbles of share 0 of the key, rotated left by 61: nibble 0 is its bits 19 to 22.
    const uint32_t list[] = {0, OPEN_STEPS, 0};
    values[0] = (uint8_t)(key[7] >> 3 & 15);
    struct slice slices[] = {bytes(present_record, 34), bytes(inverse_record, 34), bytes(key, 30), bytes(block, 24), bytes(nibbles, OPEN_RANDOM), //
        numbers(list, 1), space(1)};
    expect(&op, "the first step", 3, slices, counts, values);
    open_refusals(&op, slices);
    slices[5] = numbers(list, 2), slices[6] = space(2);
    expect(&op, "step 125722", 3, slices, refused(LL_NO_STEP, 1), NULL);
    slices[5] = numbers(list, 0), slices[6] = space(0);
    expect(&op, "empty list", 3, slices, counts, fill);
}

// ---- Encrypt and Decrypt

static void call_encrypt(uint32_t number, void *const *at, const size_t *len, uint64_t *answer)
{
    (void)number;
    ll_encrypt(at[0], len[0], at[1], len[1], at[2], len[2], answer);
}

static void call_decrypt(uint32_t number, void *const *at, const size_t *len, uint64_t *answer)
{
    (void)number;
    ll_decrypt(at[0], len[0], at[1], len[1], at[2], len[2], answer);
}

// Two of the three lengths wrong at once, in every way by one entry.
static void two_wrong_lengths(const struct operation *op, const struct slice *accepted)
{
    for (unsigned way = 0; way < 12; way++) {
        struct slice slices[3];
        memcpy(slices, accepted, sizeof slices);
        for (unsigned k = 0; k < 2; k++)
            slices[(way / 4 + k) % 3].len += way >> k & 1 ? 1 : (size_t)-1;
        expect(op, "two lengths wrong", 0, slices, refused(LL_LENGTH, 0), NULL);
    }
}

// The published vectors, from the block to the ciphertext or back, and the lengths.
static void unshared_calls(const struct operation *op, int back)
{
    uint8_t key[11] = {0}, block[9] = {0}, ciphertext[9] = {0};
    const struct slice slices[] = {bytes(key, 10), bytes(back ? ciphertext : block, 8), space(8)};
    for (unsigned v = 0; v < 4; v++) {
        memset(key, vectors[v].key, 10);
        memset(block, vectors[v].block, 8);
        memcpy(ciphertext, vectors[v].ciphertext, 8);
        expect(op, "published vector", 0, slices, done(0, 0, 0), back ? block : ciphertext);
    }
    wrong_lengths(op, 0, slices);
    two_wrong_lengths(op, slices);
    expect(op, "key and block exchanged", 0, (struct slice[]){bytes(block, 8), bytes(key, 10), space(8)}, refused(LL_LENGTH, 0), NULL);
    expect(op, "all NULL", 0, (struct slice[]){null(), null(), null()}, refused(LL_LENGTH, 0), NULL);
}

static void test_encrypt(void)
{
    static const struct operation op = {"ll_encrypt", 3, 1, call_encrypt};
    unshared_calls(&op, 0);
}

static void test_decrypt(void)
{
    static const struct operation op = {"ll_decrypt", 3, 1, call_decrypt};
    unshared_calls(&op, 1);
}

// ---- AES block and its watch

enum { AES_PRODUCTS = 800, AES_RANDOM = 2400, AES_STEPS = 26050 }; // with three shares

// Key, block and ciphertext of FIPS 197, appendices B and C.1.
static const struct {
    uint8_t key[16], block[16], ciphertext[16];
} aes_vectors[] = {
    {{0x2b, 0x7e, 0x15, 0x16, 0x28, 0xae, 0xd2, 0xa6, 0xab, 0xf7, 0x15, 0x88, 0x09, 0xcf, 0x4f, 0x3c},
        {0x32, 0x43, 0xf6, 0xa8, 0x88, 0x5a, 0x30, 0x8d, 0x31, 0x31, 0x98, 0xa2, 0xe0, 0x37, 0x07, 0x34},
        {0x39, 0x25, 0x84, 0x1d, 0x02, 0xdc, 0x09, 0xfb, 0xdc, 0x11, 0x85, 0x97, 0x19, 0x6a, 0x0b, 0x32}},
    {{0x00, 0x01, 0x02, 0x03, 0x04, 0x05, 0x06, 0x07, 0x08, 0x09, 0x0a, 0x0b, 0x0c, 0x0d, 0x0e, 0x0f},
        {0x00, 0x11, 0x22, 0x33, 0x44, 0x55, 0x66, 0x77, 0x88, 0x99, 0xaa, 0xbb, 0xcc, 0xdd, 0xee, 0xff},
        {0x69, 0xc4, 0xe0, 0xd8, 0x6a, 0x7b, 0x04, 0x30, 0xd8, 0xcd, 0xb7, 0x80, 0x70, 0xb4, 0xc5, 0x5a}},
};

// The shares that the first of them gives in three shares, with the masks and random bytes set up above.
static const uint8_t aes_out[48] = {0x18, 0x8b, 0xe5, 0x39, 0x97, 0xdf, 0x28, 0x1a, 0xde, 0x55, 0x6c, 0xae, 0xaa, 0xe1, 0x27, 0x9b, //
    0xc5, 0x69, 0x39, 0x2b, 0x43, 0xeb, 0xb4, 0xc9, 0x6d, 0x7b, 0xb7, 0x08, 0xa1, 0xe1, 0x44, 0x3c, //
    0xe4, 0xc7, 0x58, 0x0f, 0xd6, 0xe8, 0x95, 0x28, 0x6f, 0x3f, 0x5e, 0x31, 0x12, 0x6a, 0x68, 0x95};

static void share_vector(unsigned v, size_t s, uint8_t *key, uint8_t *block)
{
    share_value(aes_vectors[v].key, 16, s, key_masks, key);
    share_value(aes_vectors[v].block, 16, s, block_masks, block);
}

static size_t aes_random(size_t s)
{
    return 400 * s * (s - 1);
}

static struct answer aes_counts(uint32_t s)
{
    return done(AES_PRODUCTS, aes_random(s), 3080 * s + 2800 * s * (s - 1) + 10);
}

static void call_aes_block(uint32_t number, void *const *at, const size_t *len, uint64_t *answer)
{
    ll_aes_block(number, at[0], len[0], at[1], len[1], at[2], len[2], at[3], len[3], answer);
}

// The vectors in 1 to 9 shares.
static void aes_block_vectors(const struct operation *op)
{
    uint8_t key[144], block[144];
    for (unsigned v = 0; v < 2; v++) {
        for (uint32_t s = 1; s <= 9; s++) {
            const struct slice slices[] = {bytes(key, 16 * s), bytes(block, 16 * s), bytes(random_bytes, aes_random(s)), space(16 * s)};
            share_vector(v, s, key, block);
            expect_shared(op, "published vector", s, slices, aes_counts(s), aes_vectors[v].ciphertext);
        }
        const struct slice one[] = {bytes(aes_vectors[v].key, 16), bytes(aes_vectors[v].block, 16), null(), space(16)};
        expect(op, "one share, random NULL", 1, one, done(AES_PRODUCTS, 0, 3090), aes_vectors[v].ciphertext);
    }
}

static void test_aes_block(void)
{
    static const struct operation op = {"ll_aes_block", 4, 1, call_aes_block};
    uint8_t key[49] = {0}, block[49] = {0};
    const struct slice slices[] = {bytes(key, 48), bytes(block, 48), bytes(random_bytes, AES_RANDOM), space(48)};
    share_vector(0, 3, key, block);
    expect(&op, "three shares", 3, slices, done(AES_PRODUCTS, AES_RANDOM, AES_STEPS), aes_out);
    wrong_share_counts(&op, slices);
    wrong_lengths(&op, 3, slices);
    const struct slice uneven[] = {bytes(key, 47), bytes(block, 49), slices[2], slices[3]};
    expect(&op, "key one short, block one long", 3, uneven, refused(LL_LENGTH, 0), NULL);
    const struct slice none[] = {null(), null(), null(), null()};
    expect(&op, "no shares, all slices NULL", 0, none, refused(LL_SHARE_COUNT, 0), NULL);
    aes_block_vectors(&op);
}

static void call_aes_block_watch(uint32_t number, void *const *at, const size_t *len, uint64_t *answer)
{
    ll_aes_block_watch(number, at[0], len[0], at[1], len[1], at[2], len[2], at[3], len[3], at[4], len[4], answer);
}

// In 1 to 9 shares the first seven bytes of the result, which in each share are the first of its last 16 steps.
static void aes_watch_vectors(const struct operation *op)
{
    uint8_t key[144], block[144];
    uint32_t list[63];
    for (uint32_t s = 1; s <= 9; s++) {
        const struct answer counts = aes_counts(s);
        for (uint32_t k = 0; k < 7 * s; k++)
            list[k] = (uint32_t)counts.words[3] - 16 * (s - k / 7) + k % 7;
        const struct slice slices[] = {bytes(key, 16 * s), bytes(block, 16 * s), bytes(random_bytes, aes_random(s)), //
            numbers(list, 7 * s), space(7 * s)};
        share_vector(1, s, key, block);
        expect_shared(op, "seven bytes of the result", s, slices, counts, aes_vectors[1].ciphertext);
    }
}

// 64 steps of the first vector in three shares, and their values: the last 48 are the bytes of the result, the first 12 those of RotWord, which
// come from the last word of the key; then the random bytes, at the first step of each pair of the first masked product; and a repeat.
static void aes_steps_shown(const uint8_t *key, uint32_t *list, uint8_t *values)
{
    for (unsigned k = 0; k < 48; k++) {
        list[k] = AES_STEPS - 48 + k;
        values[k] = aes_out[k];
    }
    for (unsigned k = 0; k < 12; k++) {
        list[48 + k] = k;
        values[48 + k] = key[k / 4 * 16 + 12 + (k + 1) % 4];
    }
    for (unsigned k = 0; k < 3; k++) {
        list[60 + k] = 27 + 7 * k;
        values[60 + k] = random_bytes[k];
    }
    list[63] = list[48];
    values[63] = values[48];
}

static void test_aes_block_watch(void)
{
    static const struct operation op = {"ll_aes_block_watch", 5, 1, call_aes_block_watch};
    const struct answer counts = done(AES_PRODUCTS, AES_RANDOM, AES_STEPS);
    uint8_t key[49] = {0}, block[49] = {0}, values[64];
    uint32_t list[65] = {0};
    share_vector(0, 3, key, block);
    aes_steps_shown(key, list, values);
    struct slice slices[] = {bytes(key, 48), bytes(block, 48), bytes(random_bytes, AES_RANDOM), numbers(list, 64), space(64)};
    expect(&op, "64 steps", 3, slices, counts, values);
    wrong_share_counts(&op, slices);
    wrong_lengths(&op, 3, slices);

    slices[3] = numbers(list, 65), slices[4] = space(65);
    expect(&op, "65 steps", 3, slices, refused(LL_LENGTH, 0), NULL);
    const uint32_t past[] = {26049, 26050, UINT32_MAX};
    slices[3] = numbers(past, 1), slices[4] = space(1);
    expect(&op, "the last step", 3, slices, counts, values + 47);
    slices[3] = numbers(past, 3), slices[4] = space(3);
    expect(&op, "step 26050", 3, slices, refused(LL_NO_STEP, 1), NULL);
    slices[4] = space(2);
    expect(&op, "step 26050, two values", 3, slices, refused(LL_LENGTH, 0), NULL);
    expect(&op, "step 26050, two values, no shares", 0, slices, refused(LL_SHARE_COUNT, 0), NULL);
    slices[3] = numbers(past + 2, 1), slices[4] = space(1);
    expect(&op, "step 2^32 - 1", 3, slices, refused(LL_NO_STEP, 0), NULL);
    slices[3] = numbers(past, 0), slices[4] = space(0);
    expect(&op, "empty list", 3, slices, counts, fill);
    slices[3] = slices[4] = null();
    expect(&op, "NULL list", 3, slices, counts, NULL);
    aes_watch_vectors(&op);
}

// ---- Split and Join

// Two bytes in three shares.
static const uint8_t value_2[3] = {0x12, 0x34}, masks_2[5] = {0xab, 0xcd, 0x0f, 0xf0}, shares_2[7] = {0xb6, 0x09, 0xab, 0xcd, 0x0f, 0xf0};

static void call_split(uint32_t number, void *const *at, const size_t *len, uint64_t *answer)
{
    ll_split(at[0], len[0], number, at[1], len[1], at[2], len[2], answer);
}

static void test_split(void)
{
    static const struct operation op = {"ll_split", 3, 1, call_split};
    const uint8_t seven[] = {7}, masks[] = {1, 2}, shares[] = {4, 1, 2};
    expect(&op, "7 with masks 1, 2", 3, (struct slice[]){bytes(seven, 1), bytes(masks, 2), space(3)}, done(0, 0, 0), shares);
    const struct slice slices[] = {bytes(value_2, 2), bytes(masks_2, 4), space(6)};
    expect(&op, "two bytes", 3, slices, done(0, 0, 0), shares_2);
    wrong_share_counts(&op, slices);
    wrong_lengths(&op, 3, slices);

    expect(&op, "one share, masks empty", 1, (struct slice[]){bytes(seven, 1), space(0), space(1)}, done(0, 0, 0), seven);
    expect(&op, "one share, masks NULL", 1, (struct slice[]){bytes(seven, 1), null(), space(1)}, done(0, 0, 0), seven);
    uint8_t long_shares[144];
    share(0x5a, 16, 9, random_bytes, long_shares);
    uint8_t value[16];
    memset(value, 0x5a, 16);
    const struct slice longest[] = {bytes(value, 16), bytes(random_bytes, 128), space(144)};
    expect(&op, "16 bytes in nine shares", 9, longest, done(0, 0, 0), long_shares);
    const struct slice too_long[] = {bytes(zeros, 17), bytes(zeros, 34), space(51)};
    expect(&op, "17 bytes", 3, too_long, refused(LL_LENGTH, 0), NULL);
    expect(&op, "no bytes", 3, (struct slice[]){null(), null(), null()}, refused(LL_LENGTH, 0), NULL);
    expect(&op, "no bytes, no shares", 0, (struct slice[]){null(), null(), null()}, refused(LL_SHARE_COUNT, 0), NULL);
}

static void call_join(uint32_t number, void *const *at, const size_t *len, uint64_t *answer)
{
    ll_join(at[0], len[0], number, at[1], len[1], answer);
}

static void test_join(void)
{
    static const struct operation op = {"ll_join", 2, 1, call_join};
    const uint8_t seven[] = {7}, shares[] = {4, 1, 2};
    expect(&op, "4, 1, 2", 3, (struct slice[]){bytes(shares, 3), space(1)}, done(0, 0, 0), seven);
    const struct slice slices[] = {bytes(shares_2, 6), space(2)};
    expect(&op, "two bytes", 3, slices, done(0, 0, 0), value_2);
    wrong_share_counts(&op, slices);
    wrong_lengths(&op, 3, slices);

    expect(&op, "one share", 1, (struct slice[]){bytes(seven, 1), space(1)}, done(0, 0, 0), seven);
    uint8_t value[16], long_shares[144];
    memset(value, 0x5a, 16);
    share(0x5a, 16, 9, random_bytes, long_shares);
    expect(&op, "16 bytes in nine shares", 9, (struct slice[]){bytes(long_shares, 144), space(16)}, done(0, 0, 0), value);
    expect(&op, "17 bytes", 3, (struct slice[]){bytes(zeros, 51), space(17)}, refused(LL_LENGTH, 0), NULL);
    expect(&op, "no bytes", 3, (struct slice[]){null(), null()}, refused(LL_LENGTH, 0), NULL);
    expect(&op, "no bytes, no shares", 0, (struct slice[]){null(), null()}, refused(LL_SHARE_COUNT, 0), NULL);
}

// ---- all of them

static void report(const char *name, void (*test)(void))
{
    const unsigned failures_before = failures;
    calls = 0;
    test();
    printf("  %-20s%3u calls %s\n", name, calls, failures == failures_before ? "as expected" : "NOT as expected");
    fflush(stdout);
}

int main(void)
{
    set_up();
    if (!make_rooms()) {
        printf("no memory for the slices\n");
        return 2;
    }
    report("ll_read", test_read);
    report("ll_check", test_check);
    report("ll_fit", test_fit);
    report("ll_house_fit", test_house_fit);
    report("ll_sbox", test_sbox);
    report("ll_sbox_watch", test_sbox_watch);
    report("ll_block", test_block);
    report("ll_block_watch", test_block_watch);
    report("ll_open", test_open);
    report("ll_open_watch", test_open_watch);
    report("ll_encrypt", test_encrypt);
    report("ll_decrypt", test_decrypt);
    report("ll_aes_block", test_aes_block);
    report("ll_aes_block_watch", test_aes_block_watch);
    report("ll_split", test_split);
    report("ll_join", test_join);
    return failures == 0 ? 0 : 1;
}
