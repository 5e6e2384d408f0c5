// The library's operations in plain C: the same tests, the same steps in the same order, and no recorder.
// Loops run over the shares; the width is known to the compiler inside each of them. Secrets decide no branch and no index.
// The file is compiled once for each compiler and level of optimisation; PLAIN is the name of what it then defines, NAME says which.
#include "plain.h"
#include <string.h>

#define INLINE static inline __attribute__((always_inline))

typedef uint8_t element;

// ---- the field of 2^n elements, n = 4, 6 or 8, reduced by y^n + y + 1, at 8 by y^8 + y^4 + y^3 + y + 1

// The product by double and add, the lowest bit of b first.
INLINE element mul(unsigned n, element a, element b)
{
    element sum = 0;
    for (unsigned k = 0; k < n; k++) {
        sum ^= a * (b >> k & 1);
        a = (element)(a << 1 & ((1 << n) - 1)) ^ (a >> (n - 1)) * (n == 8 ? 27 : 3);
    }
    return sum;
}

// The inverse of an element but 0: a^2 a^4 a^8 ..
INLINE element inverse(unsigned n, element a)
{
    element power = mul(n, a, a), product = power;
    for (unsigned k = 2; k < n; k++) {
        power = mul(n, power, power);
        product = mul(n, product, power);
    }
    return product;
}

// ---- tests

static int all_below(unsigned bound, const uint8_t *bytes, size_t len)
{
    for (size_t i = 0; i < len; i++)
        if (bytes[i] >= bound)
            return 0;
    return 1;
}

// The terms of the form, or 0 where the output bits do not pair with the width.
INLINE unsigned terms_of(unsigned width, unsigned bits)
{
    return width == 4 && bits == 4 ? TERMS_4 : width == 6 && bits == 6 ? TERMS_6 : width == 6 && bits == 4 ? TERMS_6_4 : 0;
}

INLINE size_t coefficients_of(unsigned width)
{
    return width == 4 ? COEFFICIENTS_4 : COEFFICIENTS_6;
}

// What a record says: width, terms and coefficients.
struct reading {
    unsigned width, terms;
    const uint8_t *coefficients;
};

// Reads a record of either version, or refuses it.
static refusal read_record(const uint8_t *record, size_t len, struct reading *r)
{
    if (len < 6)
        return 2;
    if (memcmp(record, "DCP\0", 4) != 0 || (record[4] != 1 && record[4] != 2))
        return 5;
    r->width = record[5];
    if (r->width != 4 && r->width != 6)
        return 1;
    const size_t head = record[4] == 1 ? 6 : HEAD;
    if (len < head)
        return 2;
    r->terms = terms_of(r->width, record[4] == 1 ? r->width : record[6]);
    if (r->terms == 0)
        return 9;
    r->coefficients = record + head;
    const size_t count = (2 * r->terms - 1) * coefficients_of(r->width);
    if (len != head + count)
        return 2;
    return all_below(1u << r->width, r->coefficients, count) ? 0 : 3;
}

// ---- the masked product

// Random element number k: at width 4 two lie in a byte, the high nibble first.
INLINE element draw(unsigned n, const uint8_t *restrict random, size_t k)
{
    return n == 4 ? (element)(random[k / 2] >> (k % 2 == 0 ? 4 : 0) & 15) : random[k];
}

// How many bytes hold so many random elements.
INLINE size_t bytes_for(unsigned n, size_t count)
{
    return n == 4 ? (count + 1) / 2 : count;
}

// c becomes the product of a and b, of s shares, with the random elements from number k on. Returns the number of the next.
INLINE size_t multiply(unsigned n, size_t s, const element *restrict a, const element *restrict b, const uint8_t *restrict random, size_t k,
    element *restrict c)
{
    for (size_t i = 0; i < s; i++)
        c[i] = mul(n, a[i], b[i]);
    for (size_t i = 0; i < s; i++)
        for (size_t j = i + 1; j < s; j++) {
            element r = draw(n, random, k++);
            element sum = r ^ mul(n, a[i], b[j]);
            c[i] ^= r;
            c[j] ^= sum ^ mul(n, a[j], b[i]);
        }
    return k;
}

static refusal plain_product(unsigned width, size_t s, const uint8_t *a, size_t a_len, const uint8_t *b, size_t b_len,
    const uint8_t *random, size_t random_len, uint8_t *out, size_t out_len)
{
    if (width != 4 && width != 6)
        return 1;
    if (s < 1 || s > SHARES)
        return 7;
    if (a_len != SHARES || b_len != SHARES || random_len != bytes_for(width, s * (s - 1) / 2) || out_len != SHARES)
        return 2;
    element c[SHARES] = {0};
    if (width == 4)
        multiply(4, s, a, b, random, 0, c);
    else
        multiply(6, s, a, b, random, 0, c);
    memcpy(out, c, SHARES);
    return 0;
}

// ---- the masked S-box

// The squares of row e of the powers, up the list to row `last`.
INLINE void squares(unsigned n, size_t s, element powers[][SHARES], unsigned e, unsigned last)
{
    for (; e < last; e++)
        for (size_t i = 0; i < s; i++)
            powers[e + 1][i] = mul(n, powers[e][i], powers[e][i]);
}

// The S-box at width n, of so many terms, of the sharing x, with the random elements from number next on. Returns the number of the one after them.
INLINE size_t substitute(unsigned n, unsigned terms, const uint8_t *restrict polynomial, size_t s, const element *restrict x,
    const uint8_t *restrict random, size_t next, element *restrict out)
{
    enum { POLYNOMIALS = 2 * TERMS_6 - 1 };
    const unsigned coefficients = n == 4 ? COEFFICIENTS_4 : COEFFICIENTS_6, products = terms - 1;
    element powers[COEFFICIENTS_6][SHARES], values[POLYNOMIALS][SHARES], product[TERMS_6 - 1][SHARES];

    memcpy(powers[1], x, s);
    squares(n, s, powers, 1, n);
    next = multiply(n, s, powers[1], powers[2], random, next, powers[n + 1]);
    squares(n, s, powers, n + 1, 2 * n);
    if (n == 6) {
        next = multiply(n, s, powers[7], powers[4], random, next, powers[13]);
        squares(n, s, powers, 13, 18);
    }
    for (unsigned k = 0; k < 2 * products + 1; k++, polynomial += coefficients)
        for (size_t i = 0; i < s; i++) {
            element sum = i == 0 ? polynomial[0] : 0;
            for (unsigned e = 1; e < coefficients; e++)
                sum ^= mul(n, polynomial[e], powers[e][i]);
            values[k][i] = sum;
        }
    for (unsigned k = 0; k < products; k++)
        next = multiply(n, s, values[products + k], values[k], random, next, product[k]);
    for (size_t i = 0; i < s; i++) {
        element sum = product[0][i];
        for (unsigned k = 1; k < products; k++)
            sum ^= product[k][i];
        out[i] = sum ^ values[2 * products][i];
    }
    return next;
}

static size_t substitute_4(const uint8_t *polynomial, size_t s, const element *x, const uint8_t *random, size_t next, element *out)
{
    return substitute(4, TERMS_4, polynomial, s, x, random, next, out);
}

static size_t substitute_6(const uint8_t *polynomial, size_t s, const element *x, const uint8_t *random, size_t next, element *out)
{
    return substitute(6, TERMS_6, polynomial, s, x, random, next, out);
}

static size_t substitute_6_4(const uint8_t *polynomial, size_t s, const element *x, const uint8_t *random, size_t next, element *out)
{
    return substitute(6, TERMS_6_4, polynomial, s, x, random, next, out);
}

static refusal plain_sbox(const uint8_t *record, size_t record_len, size_t s, const uint8_t *shares, size_t shares_len,
    const uint8_t *random, size_t random_len, uint8_t *out, size_t out_len)
{
    struct reading in;
    refusal r = read_record(record, record_len, &in);
    if (r != 0)
        return r;
    if (s < 1 || s > SHARES)
        return 7;
    // x^3, at width 6 x^11, and one product for each term but the last
    const size_t products = (in.width == 4 ? 1 : 2) + in.terms - 1;
    if (shares_len != s || random_len != bytes_for(in.width, products * (s * (s - 1) / 2)) || out_len != s)
        return 2;
    if (!all_below(1u << in.width, shares, s) || (in.width != 4 && !all_below(1u << in.width, random, random_len)))
        return 3;
    if (in.width == 4)
        substitute_4(in.coefficients, s, shares, random, 0, out);
    else if (in.terms == TERMS_6)
        substitute_6(in.coefficients, s, shares, random, 0, out);
    else
        substitute_6_4(in.coefficients, s, shares, random, 0, out);
    return 0;
}

// ---- PRESENT-80

static const uint8_t present_table[ELEMENTS_4] = {12, 5, 6, 11, 9, 0, 10, 13, 3, 14, 15, 8, 4, 7, 1, 2};

// A key: its upper 64 bits, and the lower 16.
typedef struct {
    uint64_t high;
    uint16_t low;
} key_register;

static uint64_t load(const uint8_t *bytes)
{
    uint64_t x = 0;
    for (int i = 0; i < 8; i++)
        x = x << 8 | bytes[i];
    return x;
}

static void store(uint8_t *bytes, uint64_t x)
{
    for (int i = 7; i >= 0; i--, x >>= 8)
        bytes[i] = (uint8_t)x;
}

static key_register load_key(const uint8_t *bytes)
{
    return (key_register){load(bytes), (uint16_t)(bytes[8] << 8 | bytes[9])};
}

// Bit k of each nibble, as 16 bits.
INLINE uint64_t gather(uint64_t x, unsigned k)
{
    x = x >> k & 0x1111111111111111;
    x = (x | x >> 3) & 0x0303030303030303;
    x = (x | x >> 6) & 0x000f000f000f000f;
    x = (x | x >> 12) & 0x000000ff000000ff;
    return (x | x >> 24) & 0xffff;
}

// Bit i goes to 16i mod 63, bit 63 stays: bit k of nibble m goes to bit m of word k.
INLINE uint64_t permute(uint64_t x)
{
    return gather(x, 0) | gather(x, 1) << 16 | gather(x, 2) << 32 | gather(x, 3) << 48;
}

// 80 bits rotated left by 61, which is right by 19.
INLINE key_register rotate(key_register k)
{
    return (key_register){k.high >> 19 | (uint64_t)k.low << 45 | k.high << 61, (uint16_t)(k.high >> 3)};
}

// And back: left by 19.
INLINE key_register unrotate(key_register k)
{
    return (key_register){k.high << 19 | (uint64_t)k.low << 3 | k.high >> 61, (uint16_t)(k.high >> 45)};
}

// The round number is added to bits 19 to 15.
INLINE key_register add_round_number(key_register k, unsigned round)
{
    return (key_register){k.high ^ round >> 1, (uint16_t)(k.low ^ round << 15)};
}

// Bits 4m to 4m + 3 of x replaced by v.
INLINE uint64_t with_nibble(uint64_t x, unsigned m, element v)
{
    return (x & ~((uint64_t)15 << 4 * m)) | (uint64_t)v << 4 * m;
}

// The key after a round.
INLINE key_register next_key(key_register k, unsigned round)
{
    k = rotate(k);
    k.high = with_nibble(k.high, 15, present_table[k.high >> 60]);
    return add_round_number(k, round);
}

// The S-box on each nibble, and the permutation.
INLINE uint64_t by_nibbles(uint64_t x)
{
    uint64_t y = 0;
    for (unsigned m = 0; m < 64; m += 4)
        y |= (uint64_t)present_table[x >> m & 15] << m;
    return permute(y);
}

static void plain_present(const uint8_t key[10], const uint8_t block[8], uint8_t out[8])
{
    key_register k = load_key(key);
    uint64_t x = load(block);
    for (unsigned round = 1; round <= 31; round++) {
        x = by_nibbles(x ^ k.high);
        k = next_key(k, round);
    }
    store(out, x ^ k.high);
}

// As the standard is read: the S-box nibble by nibble, the permutation bit by bit.
static void plain_standard(const uint8_t key[10], const uint8_t block[8], uint8_t out[8])
{
    key_register k = load_key(key);
    uint64_t x = load(block);
    for (unsigned round = 1; round <= 31; round++) {
        uint64_t y = 0;
        x ^= k.high;
        for (unsigned i = 0; i < 64; i++)
            y |= (uint64_t)(present_table[x >> i / 4 * 4 & 15] >> i % 4 & 1) << (i == 63 ? 63 : 16 * i % 63);
        x = y;
        k = next_key(k, round);
    }
    store(out, x ^ k.high);
}

INLINE void round_keys(const uint8_t *key, uint64_t keys[32])
{
    key_register k = load_key(key);
    for (unsigned round = 1; round <= 32; round++) {
        keys[round - 1] = k.high;
        k = next_key(k, round);
    }
}

static void plain_present_blocks(const uint8_t *restrict key, size_t n, const uint8_t *restrict blocks, uint8_t *restrict out)
{
    uint64_t keys[32];
    round_keys(key, keys);
    for (size_t i = 0; i < n; i++) {
        uint64_t x = load(blocks + 8 * i);
        for (unsigned r = 0; r < 31; r++)
            x = by_nibbles(x ^ keys[r]);
        store(out + 8 * i, x ^ keys[31]);
    }
}

// ---- PRESENT-80 without masking, by tables: what each byte becomes at its place

static const element inverse_table[ELEMENTS_4] = {5, 14, 15, 8, 12, 1, 2, 13, 11, 4, 6, 3, 0, 7, 9, 10};
static uint64_t encryption[8][256], decryption[8][256];

// The bits at the places of the mask exchanged with those k places higher.
INLINE uint64_t exchange(uint64_t x, uint64_t mask, unsigned k)
{
    uint64_t d = (x >> k ^ x) & mask;
    return x ^ d ^ d << k;
}

INLINE uint64_t unpermute(uint64_t x)
{
    x = exchange(x, 0x00000000ff00ff00, 24);
    x = exchange(x, 0x0000f0f00000f0f0, 12);
    x = exchange(x, 0x00cc00cc00cc00cc, 6);
    return exchange(x, 0x0a0a0a0a0a0a0a0a, 3);
}

__attribute__((constructor)) static void make_tables(void)
{
    for (unsigned j = 0; j < 8; j++)
        for (unsigned v = 0; v < 256; v++) {
            encryption[j][v] = permute((uint64_t)(present_table[v / 16] << 4 | present_table[v % 16]) << 8 * j);
            decryption[j][v] = unpermute((uint64_t)(inverse_table[v / 16] << 4 | inverse_table[v % 16]) << 8 * j);
        }
}

INLINE uint64_t look_up(const uint64_t table[8][256], uint64_t x)
{
    return table[0][x & 255] ^ table[1][x >> 8 & 255] ^ table[2][x >> 16 & 255] ^ table[3][x >> 24 & 255]
        ^ table[4][x >> 32 & 255] ^ table[5][x >> 40 & 255] ^ table[6][x >> 48 & 255] ^ table[7][x >> 56];
}

static refusal plain_encrypt(const uint8_t *key, size_t key_len, const uint8_t *block, size_t block_len, uint8_t *out, size_t out_len)
{
    if (key_len != 10 || block_len != 8 || out_len != 8)
        return 2;
    key_register k = load_key(key);
    uint64_t x = load(block);
    for (unsigned round = 1; round <= 31; round++) {
        x = look_up(encryption, x ^ k.high);
        k = next_key(k, round);
    }
    store(out, x ^ k.high);
    return 0;
}

// The keys of decryption, in the order of encryption: each by the inverse permutation.
INLINE void inverse_keys(const uint8_t *key, uint64_t keys[32])
{
    round_keys(key, keys);
    for (unsigned r = 0; r < 32; r++)
        keys[r] = unpermute(keys[r]);
}

INLINE uint64_t decrypt_one(const uint64_t keys[32], uint64_t x)
{
    x = unpermute(x) ^ keys[31];
    for (int r = 30; r >= 0; r--)
        x = look_up(decryption, x) ^ keys[r];
    return permute(x);
}

static refusal plain_decrypt(const uint8_t *key, size_t key_len, const uint8_t *block, size_t block_len, uint8_t *out, size_t out_len)
{
    if (key_len != 10 || block_len != 8 || out_len != 8)
        return 2;
    uint64_t keys[32];
    inverse_keys(key, keys);
    store(out, decrypt_one(keys, load(block)));
    return 0;
}

static void plain_encrypt_blocks(const uint8_t *restrict key, size_t n, const uint8_t *restrict blocks, uint8_t *restrict out)
{
    uint64_t keys[32];
    round_keys(key, keys);
    for (size_t i = 0; i < n; i++) {
        uint64_t x = load(blocks + 8 * i);
        for (unsigned r = 0; r < 31; r++)
            x = look_up(encryption, x ^ keys[r]);
        store(out + 8 * i, x ^ keys[31]);
    }
}

static void plain_decrypt_blocks(const uint8_t *restrict key, size_t n, const uint8_t *restrict blocks, uint8_t *restrict out)
{
    uint64_t keys[32];
    inverse_keys(key, keys);
    for (size_t i = 0; i < n; i++)
        store(out + 8 * i, decrypt_one(keys, load(blocks + 8 * i)));
}

// ---- masked PRESENT-80

// The form of width 4 at an input: q1 p1 + p2.
static element form_at(const uint8_t *polynomial, element x)
{
    static const unsigned exponents[COEFFICIENTS_4] = {0, 1, 2, 4, 8, 3, 6, 12, 9};
    element value[3] = {0, 0, 0};
    for (unsigned e = 0; e < COEFFICIENTS_4; e++) {
        element power = 1;
        for (unsigned k = 0; k < exponents[e]; k++)
            power = mul(4, power, x);
        for (unsigned p = 0; p < 3; p++)
            value[p] ^= mul(4, polynomial[p * COEFFICIENTS_4 + e], power);
    }
    return mul(4, value[0], value[1]) ^ value[2];
}

static int computes(const uint8_t *polynomial, const element *table)
{
    for (unsigned x = 0; x < ELEMENTS_4; x++)
        if (form_at(polynomial, (element)x) != table[x])
            return 0;
    return 1;
}

// The tests of a record of a table.
static refusal record_of(const uint8_t *record, size_t record_len, const element *table, struct reading *in)
{
    refusal r = read_record(record, record_len, in);
    if (r != 0)
        return r;
    if (in->width != 4)
        return 1;
    return computes(in->coefficients, table) ? 0 : 6;
}

// The S-box on the 16 nibbles of a block.
INLINE size_t box_layer(const uint8_t *coefficients, size_t s, uint64_t *state, const uint8_t *random, size_t next)
{
    element x[SHARES], y[SHARES];
    for (unsigned m = 0; m < 16; m++) {
        for (size_t i = 0; i < s; i++)
            x[i] = state[i] >> 4 * m & 15;
        next = substitute_4(coefficients, s, x, random, next, y);
        for (size_t i = 0; i < s; i++)
            state[i] = with_nibble(state[i], m, y[i]);
    }
    return next;
}

// The S-box on the top nibble of a key.
INLINE size_t box_key(const uint8_t *coefficients, size_t s, key_register *keys, const uint8_t *random, size_t next)
{
    element x[SHARES], y[SHARES];
    for (size_t i = 0; i < s; i++)
        x[i] = (element)(keys[i].high >> 60);
    next = substitute_4(coefficients, s, x, random, next, y);
    for (size_t i = 0; i < s; i++)
        keys[i].high = with_nibble(keys[i].high, 15, y[i]);
    return next;
}

static refusal plain_block(const uint8_t *record, size_t record_len, size_t s, const uint8_t *key, size_t key_len,
    const uint8_t *block, size_t block_len, const uint8_t *random, size_t random_len, uint8_t *out, size_t out_len)
{
    struct reading in;
    refusal r = record_of(record, record_len, present_table, &in);
    if (r != 0)
        return r;
    if (s < 1 || s > SHARES)
        return 7;
    if (key_len != 10 * s || block_len != 8 * s || random_len != bytes_for(4, 527 * s * (s - 1)) || out_len != 8 * s)
        return 2;

    uint64_t state[SHARES];
    key_register keys[SHARES];
    size_t next = 0;
    for (size_t i = 0; i < s; i++) {
        state[i] = load(block + 8 * i);
        keys[i] = load_key(key + 10 * i);
    }
    for (unsigned round = 1; round <= 31; round++) {
        for (size_t i = 0; i < s; i++)
            state[i] ^= keys[i].high;
        next = box_layer(in.coefficients, s, state, random, next);
        for (size_t i = 0; i < s; i++)
            state[i] = permute(state[i]);
        for (size_t i = 0; i < s; i++)
            keys[i] = rotate(keys[i]);
        next = box_key(in.coefficients, s, keys, random, next);
        keys[0] = add_round_number(keys[0], round);
    }
    for (size_t i = 0; i < s; i++)
        store(out + 8 * i, state[i] ^ keys[i].high);
    return 0;
}

static refusal plain_open(const uint8_t *record, size_t record_len, const uint8_t *inverse, size_t inverse_len, size_t s,
    const uint8_t *key, size_t key_len, const uint8_t *block, size_t block_len, const uint8_t *random, size_t random_len,
    uint8_t *out, size_t out_len)
{
    struct reading in, back;
    refusal r = record_of(record, record_len, present_table, &in);
    if (r == 0)
        r = record_of(inverse, inverse_len, inverse_table, &back);
    if (r != 0)
        return r;
    if (s < 1 || s > SHARES)
        return 7;
    if (key_len != 10 * s || block_len != 8 * s || random_len != bytes_for(4, 558 * s * (s - 1)) || out_len != 8 * s)
        return 2;

    uint64_t state[SHARES];
    key_register keys[SHARES];
    size_t next = 0;
    for (size_t i = 0; i < s; i++) {
        state[i] = load(block + 8 * i);
        keys[i] = load_key(key + 10 * i);
    }
    for (unsigned round = 1; round <= 31; round++) {
        for (size_t i = 0; i < s; i++)
            keys[i] = rotate(keys[i]);
        next = box_key(in.coefficients, s, keys, random, next);
        keys[0] = add_round_number(keys[0], round);
    }
    for (size_t i = 0; i < s; i++)
        state[i] ^= keys[i].high;
    for (unsigned round = 31; round >= 1; round--) {
        for (size_t i = 0; i < s; i++)
            state[i] = unpermute(state[i]);
        next = box_layer(back.coefficients, s, state, random, next);
        keys[0] = add_round_number(keys[0], round);
        next = box_key(back.coefficients, s, keys, random, next);
        for (size_t i = 0; i < s; i++) {
            keys[i] = unrotate(keys[i]);
            state[i] ^= keys[i].high;
        }
    }
    for (size_t i = 0; i < s; i++)
        store(out + 8 * i, state[i]);
    return 0;
}

// ---- AES-128

// v rotated left by k bits.
INLINE element rotated(element v, unsigned k)
{
    return (element)(v << k | v >> (8 - k));
}

// The affine map without its constant.
INLINE element linear_map(element v)
{
    return v ^ rotated(v, 1) ^ rotated(v, 2) ^ rotated(v, 3) ^ rotated(v, 4);
}

INLINE void square_all(size_t s, const element *restrict a, element *restrict b)
{
    for (size_t i = 0; i < s; i++)
        b[i] = mul(8, a[i], a[i]);
}

// The masked S-box of the sharing x: x^254 = ((x^16 x^34) x^68) x^136, and the affine map. Returns the random elements that are left.
static const element *substitute_8(size_t s, const element *x, const element *random, element *out)
{
    element p[12][SHARES];
    square_all(s, x, p[0]);
    square_all(s, p[0], p[1]);
    square_all(s, p[1], p[2]);
    square_all(s, p[2], p[3]);
    random += multiply(8, s, x, p[3], random, 0, p[4]);
    square_all(s, p[4], p[5]);
    square_all(s, p[5], p[6]);
    square_all(s, p[6], p[7]);
    random += multiply(8, s, p[3], p[5], random, 0, p[8]);
    random += multiply(8, s, p[8], p[6], random, 0, p[9]);
    random += multiply(8, s, p[9], p[7], random, 0, p[10]);
    for (size_t i = 0; i < s; i++)
        out[i] = linear_map(p[10][i]) ^ (i == 0 ? 0x63 : 0);
    return random;
}

// The S-box on each of the m bytes of a string in shares.
INLINE const element *sub_bytes(size_t s, uint8_t *a, size_t m, const element *random)
{
    element x[SHARES], y[SHARES];
    for (size_t j = 0; j < m; j++) {
        for (size_t i = 0; i < s; i++)
            x[i] = a[i * m + j];
        random = substitute_8(s, x, random, y);
        for (size_t i = 0; i < s; i++)
            a[i * m + j] = y[i];
    }
    return random;
}

INLINE void shift_rows(const uint8_t *restrict a, uint8_t *restrict b)
{
    for (unsigned j = 0; j < 16; j++)
        b[j] = a[j % 4 + 4 * ((j / 4 + j % 4) % 4)];
}

INLINE element twice(element v)
{
    return (element)(v << 1) ^ (v >> 7) * 27;
}

INLINE void mix_columns(const uint8_t *restrict a, uint8_t *restrict b)
{
    for (unsigned j = 0; j < 16; j++) {
        const uint8_t *column = a + j / 4 * 4;
        element next = column[(j + 1) % 4];
        b[j] = twice(a[j]) ^ (twice(next) ^ next) ^ column[(j + 2) % 4] ^ column[(j + 3) % 4];
    }
}

INLINE void add_bytes(uint8_t *restrict a, const uint8_t *restrict b, size_t n)
{
    for (size_t k = 0; k < n; k++)
        a[k] ^= b[k];
}

static refusal plain_aes_block(size_t s, const uint8_t *key, size_t key_len, const uint8_t *block, size_t block_len,
    const uint8_t *random, size_t random_len, uint8_t *out, size_t out_len)
{
    if (s < 1 || s > SHARES)
        return 7;
    if (key_len != 16 * s || block_len != 16 * s || random_len != 400 * s * (s - 1) || out_len != 16 * s)
        return 2;
    uint8_t w[SHARES][176], state[SHARES * 16], next[SHARES * 16], word[SHARES * 4];
    for (size_t i = 0; i < s; i++)
        memcpy(w[i], key + 16 * i, 16);
    element constant = 1;
    for (size_t r = 1; r <= 10; r++, constant = twice(constant)) {
        for (size_t i = 0; i < s; i++)
            for (size_t j = 0; j < 4; j++)
                word[4 * i + j] = w[i][16 * r - 4 + (j + 1) % 4];
        random = sub_bytes(s, word, 4, random);
        word[0] ^= constant;
        for (size_t t = 0; t < 4; t++)
            for (size_t i = 0; i < s; i++)
                for (size_t j = 0; j < 4; j++)
                    w[i][16 * r + 4 * t + j] = word[4 * i + j] ^= w[i][16 * r - 16 + 4 * t + j];
    }
    memcpy(state, block, 16 * s);
    for (size_t i = 0; i < s; i++)
        add_bytes(state + 16 * i, w[i], 16);
    for (size_t r = 1; r <= 10; r++) {
        random = sub_bytes(s, state, 16, random);
        for (size_t i = 0; i < s; i++)
            shift_rows(state + 16 * i, next + 16 * i);
        if (r < 10)
            for (size_t i = 0; i < s; i++)
                mix_columns(next + 16 * i, state + 16 * i);
        else
            memcpy(state, next, 16 * s);
        for (size_t i = 0; i < s; i++)
            add_bytes(state + 16 * i, w[i] + 16 * r, 16);
    }
    memcpy(out, state, 16 * s);
    return 0;
}

static uint8_t aes_table[256];

static void plain_aes(const uint8_t key[16], const uint8_t block[16], uint8_t out[16])
{
    if (aes_table[0] == 0)
        for (unsigned v = 0; v < 256; v++)
            aes_table[v] = linear_map(inverse(8, (element)v)) ^ 0x63;
    uint8_t w[176], state[16], next[16];
    memcpy(w, key, 16);
    element constant = 1;
    for (size_t k = 16; k < 176; k += 4) {
        uint8_t temp[4];
        memcpy(temp, w + k - 4, 4);
        if (k % 16 == 0) {
            for (size_t j = 0; j < 4; j++)
                temp[j] = aes_table[w[k - 4 + (j + 1) % 4]];
            temp[0] ^= constant;
            constant = twice(constant);
        }
        for (size_t j = 0; j < 4; j++)
            w[k + j] = w[k - 16 + j] ^ temp[j];
    }
    memcpy(state, block, 16);
    add_bytes(state, w, 16);
    for (size_t r = 1; r <= 10; r++) {
        for (size_t j = 0; j < 16; j++)
            state[j] = aes_table[state[j]];
        shift_rows(state, next);
        if (r < 10)
            mix_columns(next, state);
        else
            memcpy(state, next, 16);
        add_bytes(state, w + 16 * r, 16);
    }
    memcpy(out, state, 16);
}

// ---- Fit

// The powers of x in the order of the exponent list: 1; x, x^2, x^4 ..; x^3 and its squares; at width 6 x^11 and its squares.
INLINE void powers_of(unsigned n, element x, element *power)
{
    power[0] = 1;
    power[1] = x;
    for (unsigned e = 2; e < (n == 4 ? COEFFICIENTS_4 : COEFFICIENTS_6); e++)
        if (e == n + 1)
            power[e] = mul(n, power[1], power[2]);
        else if (e == 2 * n + 1)
            power[e] = mul(n, power[n + 1], power[4]);
        else
            power[e] = mul(n, power[e - 1], power[e - 1]);
}

// The equation at an input, from its powers: for each term the powers times what the polynomial sought is multiplied with; last, the table's entry.
INLINE void equation(unsigned n, const uint8_t *basis, const element *power, element entry, element *row)
{
    const unsigned coefficients = n == 4 ? COEFFICIENTS_4 : COEFFICIENTS_6, terms = n == 4 ? TERMS_4 : TERMS_6;
    for (unsigned t = 0; t < terms; t++, row += coefficients) {
        element factor = 1;
        if (t + 1 < terms) {
            factor = 0;
            for (unsigned e = 0; e < coefficients; e++)
                factor ^= mul(n, basis[t * coefficients + e], power[e]);
        }
        for (unsigned e = 0; e < coefficients; e++)
            row[e] = mul(n, factor, power[e]);
    }
    *row = entry;
}

// Row a becomes row a plus f times row b.
INLINE void add_multiple(unsigned n, element *restrict a, const element *restrict b, element f, size_t columns)
{
    for (size_t k = 0; k < columns; k++)
        a[k] ^= mul(n, f, b[k]);
}

// Gauss-Jordan elimination. Returns the rank.
INLINE size_t eliminate(unsigned n, element *matrix, size_t rows, size_t unknowns)
{
    const size_t columns = unknowns + 1;
    size_t rank = 0;
    for (size_t c = 0; c < unknowns; c++) {
        size_t p = rank;
        while (p < rows && matrix[p * columns + c] == 0)
            p++;
        if (p == rows)
            continue;
        element *pivot = matrix + rank * columns;
        if (p != rank)
            add_multiple(n, pivot, matrix + p * columns, 1, columns);
        element f = inverse(n, pivot[c]);
        for (size_t k = 0; k < columns; k++)
            pivot[k] = mul(n, f, pivot[k]);
        for (size_t i = 0; i < rows; i++)
            if (i != rank)
                add_multiple(n, matrix + i * columns, pivot, matrix[i * columns + c], columns);
        rank++;
    }
    return rank;
}

// The solution with 0 at each free unknown, from the reduced matrix. Returns 0 if there is none.
INLINE int read_solution(const element *matrix, size_t rows, size_t unknowns, size_t rank, element *solution)
{
    const size_t columns = unknowns + 1;
    for (size_t i = rank; i < rows; i++)
        if (matrix[i * columns + unknowns] != 0)
            return 0;
    memset(solution, 0, unknowns);
    for (size_t i = 0; i < rank; i++) {
        size_t k = 0;
        while (matrix[i * columns + k] == 0)
            k++;
        solution[k] = matrix[i * columns + unknowns];
    }
    return 1;
}

// The p over elements, at equal widths. Returns 0 if there is none.
INLINE int solve(unsigned n, const uint8_t *table, const uint8_t *basis, uint8_t *work, element *solution)
{
    const size_t coefficients = n == 4 ? COEFFICIENTS_4 : COEFFICIENTS_6, terms = n == 4 ? TERMS_4 : TERMS_6;
    const size_t rows = n == 4 ? ELEMENTS_4 : ELEMENTS_6, unknowns = terms * coefficients, columns = unknowns + 1;
    for (size_t x = 0; x < rows; x++) {
        element power[COEFFICIENTS_6];
        powers_of(n, (element)x, power);
        equation(n, basis, power, table[x], work + x * columns);
    }
    size_t rank = eliminate(n, work, rows, unknowns);
    return read_solution(work, rows, unknowns, rank, solution);
}

// ---- Fit over bits, at width 6 with four output bits

// An equation for each bit of each output, in rows of bits, eight a byte: a column for each bit of each coefficient, then the table's bit.
enum { OUTPUTS = 4, BIT_ROWS = ELEMENTS_6 * OUTPUTS, BIT_UNKNOWNS = TERMS_6_4 * COEFFICIENTS_6 * 6, ROW = 43 };

INLINE unsigned bit_of(const uint8_t *row, size_t column)
{
    return row[column / 8] >> column % 8 & 1;
}

// The equations at input x. Bit b of a coefficient adds its factor times y^b, whose bit i goes to row i.
static void bit_equations(const uint8_t *basis, element x, element entry, uint8_t rows[OUTPUTS][ROW])
{
    element power[COEFFICIENTS_6], column[8 * ROW] = {0};
    size_t c = 0;
    powers_of(6, x, power);
    for (unsigned t = 0; t < TERMS_6_4; t++) {
        element factor = 1;
        if (t + 1 < TERMS_6_4) {
            factor = 0;
            for (unsigned e = 0; e < COEFFICIENTS_6; e++)
                factor ^= mul(6, basis[t * COEFFICIENTS_6 + e], power[e]);
        }
        for (unsigned e = 0; e < COEFFICIENTS_6; e++) {
            element v = mul(6, factor, power[e]);
            for (unsigned b = 0; b < 6; b++) {
                column[c++] = v;
                v = mul(6, v, 2);
            }
        }
    }
    column[c] = entry;
    for (unsigned i = 0; i < OUTPUTS; i++)
        for (unsigned k = 0; k < ROW; k++) {
            unsigned byte = 0;
            for (unsigned b = 0; b < 8; b++)
                byte |= (column[8 * k + b] >> i & 1u) << b;
            rows[i][k] = (uint8_t)byte;
        }
}

// Row a becomes row a plus row b, if the bit is set.
INLINE void add_row(uint8_t *restrict a, const uint8_t *restrict b, unsigned bit)
{
    const uint8_t mask = (uint8_t)-bit;
    for (unsigned k = 0; k < ROW; k++)
        a[k] ^= b[k] & mask;
}

// Gauss-Jordan elimination. Returns the rank.
static size_t eliminate_bits(uint8_t (*matrix)[ROW])
{
    size_t rank = 0;
    for (size_t c = 0; c < BIT_UNKNOWNS; c++) {
        size_t p = rank;
        while (p < BIT_ROWS && bit_of(matrix[p], c) == 0)
            p++;
        if (p == BIT_ROWS)
            continue;
        if (p != rank)
            add_row(matrix[rank], matrix[p], 1);
        for (size_t i = 0; i < BIT_ROWS; i++)
            if (i != rank)
                add_row(matrix[i], matrix[rank], bit_of(matrix[i], c));
        rank++;
    }
    return rank;
}

// The p over bits, in the packed equations. Returns 0 if there is none.
static int solve_bits(const uint8_t *table, const uint8_t *basis, uint8_t *work, element *solution)
{
    uint8_t(*matrix)[ROW] = (uint8_t(*)[ROW])work;
    for (unsigned x = 0; x < ELEMENTS_6; x++)
        bit_equations(basis, (element)x, table[x], matrix + OUTPUTS * x);
    size_t rank = eliminate_bits(matrix), column = 0;
    for (size_t i = rank; i < BIT_ROWS; i++)
        if (bit_of(matrix[i], BIT_UNKNOWNS) != 0)
            return 0;
    memset(solution, 0, BIT_UNKNOWNS / 6);
    for (size_t i = 0; i < rank; i++) {
        while (bit_of(matrix[i], column) == 0)
            column++;
        solution[column / 6] |= (element)(bit_of(matrix[i], BIT_UNKNOWNS) << column % 6);
    }
    return 1;
}

static refusal plain_fit(unsigned width, unsigned bits, const uint8_t *table, size_t table_len, const uint8_t *basis, size_t basis_len,
    uint8_t *work, size_t work_len, uint8_t *record, size_t record_len)
{
    if (width != 4 && width != 6)
        return 1;
    const size_t terms = terms_of(width, bits);
    if (terms == 0)
        return 9;
    const size_t unknowns = terms * coefficients_of(width);
    if (table_len != 1u << width || basis_len != unknowns - coefficients_of(width)
        || work_len != (bits != width ? WORK_6_4 : width == 4 ? WORK_4 : WORK_6) || record_len != HEAD + basis_len + unknowns)
        return 2;
    if (!all_below(1u << bits, table, table_len) || !all_below(1u << width, basis, basis_len))
        return 3;
    element *solution = record + HEAD + basis_len;
    int found = width == 4 ? solve(4, table, basis, work, solution) //
        : bits == 6        ? solve(6, table, basis, work, solution)
                           : solve_bits(table, basis, work, solution);
    memset(work, 0, work_len);
    if (!found)
        return 4;
    const uint8_t head[HEAD] = {'D', 'C', 'P', 0, 2, (uint8_t)width, (uint8_t)bits};
    memcpy(record, head, HEAD);
    memcpy(record + HEAD, basis, basis_len);
    return 0;
}

const struct plain PLAIN = {NAME, plain_product, plain_sbox, plain_block, plain_aes_block, plain_fit, plain_present, plain_standard, plain_aes,
    plain_encrypt, plain_decrypt, plain_present_blocks, plain_encrypt_blocks, plain_decrypt_blocks, plain_open};
