// The C interface of Lemonludo: masked S-boxes and masked PRESENT-80 over decompositions, masked AES-128, and PRESENT-80 without masking.
// For x86-64 Linux, with libcapi.a (interface/README.md says how to build and link it; docs/FORMATS.md has the layout of records and
// sharings and the numbering of steps).
//
// Slices. A slice is a pointer and the number of its elements. What is lent for writing (not const) must overlap nothing else that is
// passed in the same call; slices that are only read may overlap each other. An empty slice may be NULL: nothing is read or written
// through its pointer. `answer` is never NULL.
//
// The answer. Each call writes all four words:
//   answer[0]  0 for done, else the number of the refusal
//   answer[1]  after a refusal its place, 0 unless one is named below; after done the width (ll_read),
//              or how many products were taken (ll_sbox, ll_block, ll_open, ll_aes_block and their watches)
//   answer[2]  after done how many random bytes were taken (the same eight)
//   answer[3]  after done how many steps were taken (the same eight)
// A word not in use is 0.
//
// Refusals. Each function lists its tests in the order in which they run; the first that fails is the answer, and nothing else is
// refused. A refusal leaves everything lent for writing but `answer` as it was, except that the work area of ll_fit is all zero after
// a 4. The place of a 3 outside a record is that of the first such entry, counted through the slices named.
//
// Shares. s is 1 to 9. A sharing lies share 0 first; the value is the sum (exclusive or) of its shares. Masks and random bytes come from
// the caller, fresh for each call and uniform: the library makes none.
//
// The functions keep nothing between calls, allocate nothing and call nothing but C's memory functions.
#ifndef LEMONLUDO_H
#define LEMONLUDO_H

#include <stddef.h>
#include <stdint.h>

#ifdef __cplusplus
extern "C" {
#endif

// What stands in answer[0].
enum {
    LL_DONE = 0,
    LL_WIDTH = 1,       // a width that is not 4 or 6; a record of width 6 for a block
    LL_LENGTH = 2,      // a length
    LL_TOO_LARGE = 3,   // an entry that is no element of the field
    LL_NO_FIT = 4,      // no decomposition over this basis meets the table (ll_fit alone)
    LL_MARK = 5,        // the mark or the version of a record
    LL_OTHER_TABLE = 6, // the record stands for another table
    LL_SHARE_COUNT = 7, // a share count that is not 1 to 9
    LL_NO_STEP = 8,     // a step number that is not below the number of steps
    LL_BITS = 9         // output bits that do not pair with the width
};

// Pairs. A table of width n takes n bits and gives m, the output bits: (n, m) is (4, 4), (6, 6) or (6, 4). The form of a record is over the
// field of 2^n elements; the table it stands for is its low m bits. A record of version 2 holds m and has 34, 140 or 102 bytes; one of
// version 1 means m = n and has 33 or 139. All functions that take a record take both.

// Read: tests a record and hands back its width n, 4 or 6.
// Refuses: 2 under 6 bytes; 5 wrong mark, or version not 1 or 2; 1 width not 4 or 6; in version 2, 2 just 6 bytes, else 9 output bits that
// do not pair with the width; 2 another length than the pair has in this version; 3 a coefficient not below 2^n (place: its offset in the
// record).
void ll_read(const uint8_t *record, size_t record_len, uint64_t answer[4]);

// Check: whether the low m bits of the record's form equal the table at all 2^n inputs.
// Refuses: as ll_read; 2 table not of 2^n bytes; 3 an entry not below 2^m (table); 6 form and table differ (place: the first input where).
void ll_check(const uint8_t *record, size_t record_len, const uint8_t *table, size_t table_len, uint64_t answer[4]);

// Fit: writes the record, of version 2, that decomposes the table over the basis q1 to q(t-1). By width and output bits:
//   4, 4   table 16 bytes, basis  9, work    304, record  34
//   6, 6   table 64 bytes, basis 57, work  4,928, record 140
//   6, 4   table 64 bytes, basis 38, work 11,008, record 102
// Refuses: 1 width not 4 or 6; 9 output bits that do not pair with it; 2 any length wrong; 3 an entry too large (table, not below 2^m; then
// basis, not below 2^n); 4 no p meets the table.
// Work may hold anything; it is all zero after done and after 4, untouched after 1, 9, 2 and 3.
void ll_fit(uint32_t width, uint32_t bits, const uint8_t *table, size_t table_len, const uint8_t *basis, size_t basis_len,
    uint8_t *work, size_t work_len, uint8_t *record, size_t record_len, uint64_t answer[4]);

// House fit: Fit with width and output bits 4 over the house basis q1 = x + x^2 + x^12, which decomposes every table.
// Refuses: 2, 3 as ll_fit, and nothing else.
// Work may hold anything; it is all zero after done, untouched after a refusal.
void ll_house_fit(const uint8_t *table, size_t table_len, uint8_t *work, size_t work_len,
    uint8_t *record, size_t record_len, uint64_t answer[4]);

// S-box: the masked S-box that the record stands for, on an element in s shares. Shares and out have s bytes; random has s(s-1)/2 bytes at
// width 4, two elements each, the high nibble drawn first, and at width 6, an element each, 5s(s-1)/2 with six output bits and 2s(s-1) with
// four. Out joins to the form, of which the table is the low m bits. Hands back products, random bytes and steps.
// Refuses: as ll_read; 7 s not 1 to 9; 2 any length wrong; 3 an entry not below 2^n (shares, then, at width 6, random).
void ll_sbox(const uint8_t *record, size_t record_len, uint32_t s, const uint8_t *shares, size_t shares_len,
    const uint8_t *random, size_t random_len, uint8_t *out, size_t out_len, uint64_t answer[4]);

// Watch S-box: as ll_sbox, but in place of the result it writes, for each step number of the list, what that step records.
// The list has at most 64 numbers, in any order, repeats allowed, and may be empty; values has as many bytes.
// Refuses: as ll_sbox, with 2 also for a list over 64 numbers or values of another length; last, 8 a step number that is not below the
// number of steps (place: the first in the list).
void ll_sbox_watch(const uint8_t *record, size_t record_len, uint32_t s, const uint8_t *shares, size_t shares_len,
    const uint8_t *random, size_t random_len, const uint32_t *list, size_t list_len,
    uint8_t *values, size_t values_len, uint64_t answer[4]);

// Block: masked PRESENT-80 of one block. Key shares have 10s bytes, block shares and out 8s, random 527s(s-1)/2, two elements each, the high
// nibble drawn first. Hands back products, random bytes and steps.
// Refuses: as ll_read; 1 width 6; 6 not PRESENT's table; 7 s not 1 to 9; 2 any length wrong.
void ll_block(const uint8_t *record, size_t record_len, uint32_t s, const uint8_t *key_shares, size_t key_shares_len,
    const uint8_t *block_shares, size_t block_shares_len, const uint8_t *random, size_t random_len,
    uint8_t *out, size_t out_len, uint64_t answer[4]);

// Watch block: as ll_block, with list and values as in ll_sbox_watch.
// Refuses: as ll_block, with 2 also for a list over 64 numbers or values of another length; last, 8 as in ll_sbox_watch.
void ll_block_watch(const uint8_t *record, size_t record_len, uint32_t s, const uint8_t *key_shares, size_t key_shares_len,
    const uint8_t *block_shares, size_t block_shares_len, const uint8_t *random, size_t random_len,
    const uint32_t *list, size_t list_len, uint8_t *values, size_t values_len, uint64_t answer[4]);

// Open: masked decryption of PRESENT-80, of one block. The second record is of the inverse table. Key shares have 10s bytes, block shares
// and out 8s, random 279s(s-1), two elements each, the high nibble drawn first. Hands back products, random bytes and steps.
// Refuses: the first record as ll_block; then the second by the same rules, 6 not the inverse table (a refusal does not say which record);
// 7 s not 1 to 9; 2 any length wrong.
void ll_open(const uint8_t *record, size_t record_len, const uint8_t *inverse_record, size_t inverse_record_len, uint32_t s,
    const uint8_t *key_shares, size_t key_shares_len, const uint8_t *block_shares, size_t block_shares_len,
    const uint8_t *random, size_t random_len, uint8_t *out, size_t out_len, uint64_t answer[4]);

// Watch open: as ll_open, with list and values as in ll_sbox_watch.
// Refuses: as ll_open, with 2 also for a list over 64 numbers or values of another length; last, 8 as in ll_sbox_watch.
void ll_open_watch(const uint8_t *record, size_t record_len, const uint8_t *inverse_record, size_t inverse_record_len, uint32_t s,
    const uint8_t *key_shares, size_t key_shares_len, const uint8_t *block_shares, size_t block_shares_len,
    const uint8_t *random, size_t random_len, const uint32_t *list, size_t list_len,
    uint8_t *values, size_t values_len, uint64_t answer[4]);

// Encrypt: PRESENT-80 of one block, by tables. The key has 10 bytes, block and out 8, high byte first. Hands nothing back.
// ll_encrypt and ll_decrypt are not masked: they are for a place where nobody measures.
// Refuses: 2 any length wrong.
void ll_encrypt(const uint8_t *key, size_t key_len, const uint8_t *block, size_t block_len,
    uint8_t *out, size_t out_len, uint64_t answer[4]);

// Decrypt: writes the block of which this one is the ciphertext; as ll_encrypt in all else.
// Refuses: 2 any length wrong.
void ll_decrypt(const uint8_t *key, size_t key_len, const uint8_t *block, size_t block_len,
    uint8_t *out, size_t out_len, uint64_t answer[4]);

// AES block: masked AES-128 (FIPS 197) of one block. Key shares, block shares and out have 16s bytes, random 400s(s-1), each byte an
// element. Hands back products, random bytes and steps.
// Refuses: 7 s not 1 to 9; 2 any length wrong.
void ll_aes_block(uint32_t s, const uint8_t *key_shares, size_t key_shares_len,
    const uint8_t *block_shares, size_t block_shares_len, const uint8_t *random, size_t random_len,
    uint8_t *out, size_t out_len, uint64_t answer[4]);

// Watch AES block: as ll_aes_block, with list and values as in ll_sbox_watch.
// Refuses: as ll_aes_block, with 2 also for a list over 64 numbers or values of another length; last, 8 as in ll_sbox_watch.
void ll_aes_block_watch(uint32_t s, const uint8_t *key_shares, size_t key_shares_len,
    const uint8_t *block_shares, size_t block_shares_len, const uint8_t *random, size_t random_len,
    const uint32_t *list, size_t list_len, uint8_t *values, size_t values_len, uint64_t answer[4]);

// Split: writes a value of 1 to 16 bytes in s shares. Share 0 is the value plus all masks, the rest are the masks: with a value of n
// bytes masks has n(s-1) bytes and out ns.
// Refuses: 7 s not 1 to 9; 2 value not of 1 to 16 bytes, or another length wrong.
void ll_split(const uint8_t *value, size_t value_len, uint32_t s, const uint8_t *masks, size_t masks_len,
    uint8_t *out, size_t out_len, uint64_t answer[4]);

// Join: writes the sum of s shares. Out has the value's length n, 1 to 16 bytes; shares has ns.
// Refuses: 7 s not 1 to 9; 2 out not of 1 to 16 bytes, or shares of another length.
void ll_join(const uint8_t *shares, size_t shares_len, uint32_t s, uint8_t *out, size_t out_len, uint64_t answer[4]);

#ifdef __cplusplus
}
#endif

#endif
