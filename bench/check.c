// The self-test of the plain C: worked examples, joined values, and the published vectors of PRESENT-80 and AES-128.
#include "check.h"
#include "inputs.h"
#include <string.h>

// The product of two elements, as the masked product of one share.
static uint8_t product_of(const struct plain *p, unsigned width, uint8_t a, uint8_t b)
{
    uint8_t x[SHARES] = {a}, y[SHARES] = {b}, c[SHARES];
    return p->product(width, 1, x, SHARES, y, SHARES, x, 0, c, SHARES) == 0 ? c[0] : 255;
}

static int field_examples(const struct plain *p)
{
    return product_of(p, 4, 2, 8) == 3 && product_of(p, 4, 9, 9) == 13 && product_of(p, 4, 15, 15) == 10 && product_of(p, 6, 32, 32) == 48;
}

static int product_example(const struct plain *p)
{
    const uint8_t a[SHARES] = {1, 2, 0}, b[SHARES] = {4, 0, 1}, random[2] = {0x12, 0x30}, expected[SHARES] = {7, 10, 2};
    uint8_t c[SHARES];
    return p->product(4, 3, a, SHARES, b, SHARES, random, 2, c, SHARES) == 0 && memcmp(c, expected, SHARES) == 0;
}

// The shares of a product join to the product of the joined factors.
static int product_joins(const struct plain *p, unsigned width, size_t s)
{
    uint8_t a[SHARES] = {0}, b[SHARES] = {0}, random[SHARES * SHARES], c[SHARES];
    fill_below(1u << width, a, s);
    fill_below(1u << width, b, s);
    size_t n = random_bytes(width, pairs(s));
    fill_below(random_bound(width), random, n);
    return p->product(width, s, a, SHARES, b, SHARES, random, n, c, SHARES) == 0
        && join(c, SHARES, 1) == product_of(p, width, join(a, s, 1), join(b, s, 1));
}

// At each input, shared at random, the shares of the S-box join to the table's entry in the output bits.
static int sbox_joins(const struct plain *p, unsigned width, unsigned bits, size_t s, const uint8_t *record, const uint8_t *table)
{
    struct sizes z = sizes_of(width, bits);
    size_t n = random_bytes(width, z.products * pairs(s));
    uint8_t shares[SHARES], random[5 * SHARES * SHARES], out[SHARES];
    for (size_t x = 0; x < z.elements; x++) {
        fill_below((uint32_t)z.elements, shares, s);
        shares[0] ^= join(shares, s, 1) ^ (uint8_t)x;
        fill_below(random_bound(width), random, n);
        if (p->sbox(record, z.record, s, shares, s, random, n, out, s) != 0 || (join(out, s, 1) & ((1u << bits) - 1)) != table[x])
            return 0;
    }
    return 1;
}

// Fit finds a record of the table over the basis, and leaves zeros.
static int fits(const struct plain *p, unsigned width, unsigned bits, const uint8_t *table, const uint8_t *basis, uint8_t *record)
{
    struct sizes z = sizes_of(width, bits);
    uint8_t work[WORK_6_4] = {0};
    if (p->fit(width, bits, table, z.elements, basis, z.basis, work, z.work, record, z.record) != 0)
        return 0;
    for (size_t i = 0; i < z.work; i++)
        if (work[i] != 0)
            return 0;
    return 1;
}

// With a zero basis the table 1, 0 .. 0 has no record, and the identity has one.
static int zero_basis(const struct plain *p)
{
    uint8_t basis[COEFFICIENTS_4] = {0}, unit[ELEMENTS_4] = {1}, identity[ELEMENTS_4], work[WORK_4], record[RECORD_4];
    for (unsigned x = 0; x < ELEMENTS_4; x++)
        identity[x] = (uint8_t)x;
    return p->fit(4, 4, unit, ELEMENTS_4, basis, COEFFICIENTS_4, work, WORK_4, record, RECORD_4) == 4
        && fits(p, 4, 4, identity, basis, record) && sbox_joins(p, 4, 4, 1, record, identity);
}

// The same with four output bits of six, of the identity the low bits.
static int zero_basis_6_4(const struct plain *p)
{
    uint8_t basis[2 * COEFFICIENTS_6] = {0}, unit[ELEMENTS_6] = {1}, low[ELEMENTS_6], work[WORK_6_4], record[RECORD_6_4];
    for (unsigned x = 0; x < ELEMENTS_6; x++)
        low[x] = x & 15;
    return p->fit(6, 4, unit, ELEMENTS_6, basis, sizeof basis, work, WORK_6_4, record, RECORD_6_4) == 4
        && fits(p, 6, 4, low, basis, record) && sbox_joins(p, 6, 4, 1, record, low);
}

// The output bits pair with the width, and a table's entry is below 2 to the output bits.
static int pairs_tested(const struct plain *p)
{
    uint8_t basis[2 * COEFFICIENTS_6] = {0}, table[ELEMENTS_6] = {0}, work[WORK_6_4], record[RECORD_6_4];
    table[5] = 16;
    return p->fit(5, 5, table, ELEMENTS_6, basis, sizeof basis, work, WORK_6_4, record, RECORD_6_4) == 1
        && p->fit(6, 5, table, ELEMENTS_6, basis, sizeof basis, work, WORK_6_4, record, RECORD_6_4) == 9
        && p->fit(6, 4, table, ELEMENTS_6, basis, sizeof basis, work, WORK_6_4, record, RECORD_6) == 2
        && p->fit(6, 4, table, ELEMENTS_6, basis, sizeof basis, work, WORK_6_4, record, RECORD_6_4) == 3;
}

static const struct {
    uint8_t key, block, sealed[8];
} vectors[4] = {
    {0x00, 0x00, {0x55, 0x79, 0xc1, 0x38, 0x7b, 0x22, 0x84, 0x45}},
    {0xff, 0x00, {0xe7, 0x2c, 0x46, 0xc0, 0xf5, 0x94, 0x50, 0x49}},
    {0x00, 0xff, {0xa1, 0x12, 0xff, 0xc7, 0x2f, 0x68, 0x41, 0x7b}},
    {0xff, 0xff, {0x33, 0x33, 0xdc, 0xd3, 0x21, 0x32, 0x10, 0xd2}},
};

static int present_vectors(const struct plain *p)
{
    for (size_t v = 0; v < 4; v++) {
        uint8_t key[10], block[8], out[8];
        memset(key, vectors[v].key, 10);
        memset(block, vectors[v].block, 8);
        p->present(key, block, out);
        if (memcmp(out, vectors[v].sealed, 8) != 0)
            return 0;
        p->standard(key, block, out);
        if (memcmp(out, vectors[v].sealed, 8) != 0)
            return 0;
        if (p->encrypt(key, 10, block, 8, out, 8) != 0 || memcmp(out, vectors[v].sealed, 8) != 0)
            return 0;
        if (p->decrypt(key, 10, vectors[v].sealed, 8, out, 8) != 0 || memcmp(out, block, 8) != 0)
            return 0;
    }
    return 1;
}

// Three blocks with one key: as one by one, and back again.
static int many_blocks(const struct plain *p)
{
    uint8_t key[10], blocks[24], out[24], again[24], one[8], back[24];
    fill_below(256, key, 10);
    fill_below(256, blocks, 24);
    p->encrypt_blocks(key, 3, blocks, out);
    p->present_blocks(key, 3, blocks, again);
    p->decrypt_blocks(key, 3, out, back);
    for (size_t i = 0; i < 3; i++) {
        p->present(key, blocks + 8 * i, one);
        if (memcmp(out + 8 * i, one, 8) != 0)
            return 0;
    }
    return memcmp(again, out, 24) == 0 && memcmp(back, blocks, 24) == 0;
}

// The vectors again, masked: a key and a block in random shares, sealed and opened.
static int block_vectors(const struct plain *p, size_t s, const uint8_t *record, const uint8_t *inverse)
{
    static uint8_t random[558 * SHARES * (SHARES - 1) / 2];
    size_t n = random_bytes(4, 527 * s * (s - 1)), m = random_bytes(4, 558 * s * (s - 1));
    for (size_t v = 0; v < 4; v++) {
        uint8_t key[10 * SHARES], block[8 * SHARES], out[8 * SHARES], opened[8 * SHARES];
        fill_below(256, key, 10 * s);
        fill_below(256, block, 8 * s);
        fill_below(256, random, m);
        for (size_t i = 0; i < 10; i++)
            key[i] ^= join(key + i, s, 10) ^ vectors[v].key;
        for (size_t i = 0; i < 8; i++)
            block[i] ^= join(block + i, s, 8) ^ vectors[v].block;
        if (p->block(record, RECORD_4, s, key, 10 * s, block, 8 * s, random, n, out, 8 * s) != 0)
            return 0;
        if (p->open(record, RECORD_4, inverse, RECORD_4, s, key, 10 * s, out, 8 * s, random, m, opened, 8 * s) != 0)
            return 0;
        for (size_t i = 0; i < 8; i++)
            if (join(out + i, s, 8) != vectors[v].sealed[i] || join(opened + i, s, 8) != vectors[v].block)
                return 0;
    }
    return 1;
}

// FIPS 197, appendix C.1, without masking and in random shares.
static int aes_vector(const struct plain *p, size_t s)
{
    static const uint8_t sealed[16] = {0x69, 0xc4, 0xe0, 0xd8, 0x6a, 0x7b, 0x04, 0x30, 0xd8, 0xcd, 0xb7, 0x80, 0x70, 0xb4, 0xc5, 0x5a};
    static uint8_t random[400 * SHARES * (SHARES - 1)];
    uint8_t key[16 * SHARES], block[16 * SHARES], out[16 * SHARES], plain_key[16], plain_block[16];
    size_t n = 400 * s * (s - 1);
    fill_below(256, key, 16 * s);
    fill_below(256, block, 16 * s);
    fill_below(256, random, n);
    for (size_t i = 0; i < 16; i++) {
        plain_key[i] = (uint8_t)i;
        plain_block[i] = (uint8_t)(17 * i);
        key[i] ^= join(key + i, s, 16) ^ plain_key[i];
        block[i] ^= join(block + i, s, 16) ^ plain_block[i];
    }
    if (p->aes_block(s, key, 16 * s, block, 16 * s, random, n, out, 16 * s) != 0)
        return 0;
    for (size_t i = 0; i < 16; i++)
        if (join(out + i, s, 16) != sealed[i])
            return 0;
    p->aes(plain_key, plain_block, out);
    return memcmp(out, sealed, 16) == 0;
}

const char *check_plain(const struct plain *p)
{
    uint8_t record_4[RECORD_4], inverse_4[RECORD_4], inverse_sbox[ELEMENTS_4], given[RECORD_6], record_6[RECORD_6], table_6[ELEMENTS_6];
    uint8_t record_6_4[RECORD_6_4], table_6_4[ELEMENTS_6];
    if (!field_examples(p))
        return "products of the field";
    if (!product_example(p))
        return "the worked masked product";
    for (uint8_t v = 0; v < ELEMENTS_4; v++)
        inverse_sbox[present_sbox[v]] = v;
    fill_record_6(p, 6, given, table_6);
    if (!zero_basis(p) || !fits(p, 4, 4, present_sbox, house_basis, record_4) || !fits(p, 4, 4, inverse_sbox, house_basis, inverse_4)
        || !fits(p, 6, 6, table_6, given + HEAD, record_6))
        return "Fit";
    fill_record_6(p, 4, given, table_6_4);
    if (!zero_basis_6_4(p) || !pairs_tested(p) || !fits(p, 6, 4, table_6_4, given + HEAD, record_6_4))
        return "Fit with four output bits of six";
    if (!present_vectors(p))
        return "the vectors of PRESENT-80";
    if (!many_blocks(p))
        return "many blocks of PRESENT-80";
    for (size_t s = 1; s <= SHARES; s++) {
        if (!product_joins(p, 4, s) || !product_joins(p, 6, s))
            return "the joined masked product";
        if (!sbox_joins(p, 4, 4, s, record_4, present_sbox) || !sbox_joins(p, 6, 6, s, record_6, table_6)
            || !sbox_joins(p, 6, 4, s, record_6_4, table_6_4))
            return "the joined masked S-box";
        if (!block_vectors(p, s, record_4, inverse_4))
            return "the vectors of masked PRESENT-80";
        if (!aes_vector(p, s))
            return "the vector of AES-128";
    }
    return NULL;
}
