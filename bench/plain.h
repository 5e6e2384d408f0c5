// The library's operations in plain C, to measure the library against: see plain.c.
#ifndef PLAIN_H
#define PLAIN_H
#include <stddef.h>
#include <stdint.h>

// The most shares.
enum { SHARES = 9 };

// What goes with a width and, at width 6, with the output bits: coefficients of a polynomial, elements of the field; terms of the form, bytes of a
// record of version 2 and of Fit's work. Such a record has its coefficients from byte HEAD on.
enum { HEAD = 7 };
enum { COEFFICIENTS_4 = 9, ELEMENTS_4 = 16, TERMS_4 = 2, RECORD_4 = 34, WORK_4 = 304 };
enum { COEFFICIENTS_6 = 19, ELEMENTS_6 = 64, TERMS_6 = 4, RECORD_6 = 140, WORK_6 = 4928 };
enum { TERMS_6_4 = 3, RECORD_6_4 = 102, WORK_6_4 = 11008 };

// What an operation answers: 0, or the number of the refusal.
typedef unsigned refusal;

struct plain {
    // the compiler and its level of optimisation
    const char *name;

    // The masked product of a and b. Sharings have nine bytes, 0 past the s shares in use; `random` has an element for each
    // pair of shares: at width 4 two in a byte, the high nibble first, else one.
    refusal (*product)(unsigned width, size_t s, const uint8_t *a, size_t a_len, const uint8_t *b, size_t b_len,
        const uint8_t *random, size_t random_len, uint8_t *out, size_t out_len);

    // The masked S-box that a record describes.
    refusal (*sbox)(const uint8_t *record, size_t record_len, size_t s, const uint8_t *shares, size_t shares_len,
        const uint8_t *random, size_t random_len, uint8_t *out, size_t out_len);

    // Masked PRESENT-80 of one block.
    refusal (*block)(const uint8_t *record, size_t record_len, size_t s, const uint8_t *key, size_t key_len,
        const uint8_t *block, size_t block_len, const uint8_t *random, size_t random_len, uint8_t *out, size_t out_len);

    // Masked AES-128 of one block.
    refusal (*aes_block)(size_t s, const uint8_t *key, size_t key_len, const uint8_t *block, size_t block_len,
        const uint8_t *random, size_t random_len, uint8_t *out, size_t out_len);

    // The record of a table over a basis. `work` is all zero afterwards.
    refusal (*fit)(unsigned width, unsigned bits, const uint8_t *table, size_t table_len, const uint8_t *basis, size_t basis_len,
        uint8_t *work, size_t work_len, uint8_t *record, size_t record_len);

    // PRESENT-80 of one block, without masking: nibble by nibble, quickly, and as the standard is read, with each bit sent to its place.
    void (*present)(const uint8_t key[10], const uint8_t block[8], uint8_t out[8]);
    void (*standard)(const uint8_t key[10], const uint8_t block[8], uint8_t out[8]);

    // AES-128 of one block, without masking.
    void (*aes)(const uint8_t key[16], const uint8_t block[16], uint8_t out[16]);

    // PRESENT-80 of one block, without masking, by tables of eight times 256 entries, and back.
    refusal (*encrypt)(const uint8_t *key, size_t key_len, const uint8_t *block, size_t block_len, uint8_t *out, size_t out_len);
    refusal (*decrypt)(const uint8_t *key, size_t key_len, const uint8_t *block, size_t block_len, uint8_t *out, size_t out_len);

    // n blocks with one key of 10 bytes: nibble by nibble, by tables, and back.
    void (*present_blocks)(const uint8_t *key, size_t n, const uint8_t *blocks, uint8_t *out);
    void (*encrypt_blocks)(const uint8_t *key, size_t n, const uint8_t *blocks, uint8_t *out);
    void (*decrypt_blocks)(const uint8_t *key, size_t n, const uint8_t *blocks, uint8_t *out);

    // Masked decryption of one block of PRESENT-80, by a record of the table and one of the inverse table.
    refusal (*open)(const uint8_t *record, size_t record_len, const uint8_t *inverse, size_t inverse_len, size_t s, const uint8_t *key,
        size_t key_len, const uint8_t *block, size_t block_len, const uint8_t *random, size_t random_len, uint8_t *out, size_t out_len);
};

#endif
