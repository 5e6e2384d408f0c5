// What the checks and the measurements run on: random elements from a fixed seed, sharings, and sizes by width and output bits.
#ifndef INPUTS_H
#define INPUTS_H
#include "plain.h"

// The house basis of width 4, and PRESENT's table.
static const uint8_t house_basis[COEFFICIENTS_4] = {0, 1, 1, 0, 0, 0, 0, 1, 0};
static const uint8_t present_sbox[ELEMENTS_4] = {12, 5, 6, 11, 9, 0, 10, 13, 3, 14, 15, 8, 4, 7, 1, 2};

// The sizes that go with a width and output bits.
struct sizes {
    size_t elements, basis, record, work, products;
};

static inline struct sizes sizes_of(unsigned width, unsigned bits)
{
    if (width == 4)
        return (struct sizes){ELEMENTS_4, COEFFICIENTS_4 * (TERMS_4 - 1), RECORD_4, WORK_4, 2};
    if (bits == 4)
        return (struct sizes){ELEMENTS_6, COEFFICIENTS_6 * (TERMS_6_4 - 1), RECORD_6_4, WORK_6_4, 4};
    return (struct sizes){ELEMENTS_6, COEFFICIENTS_6 * (TERMS_6 - 1), RECORD_6, WORK_6, 5};
}

// The pairs of s shares: a masked product draws an element for each.
static inline size_t pairs(size_t s)
{
    return s * (s - 1) / 2;
}

// How many bytes hold so many random elements: at width 4 two lie in each.
static inline size_t random_bytes(unsigned width, size_t count)
{
    return width == 4 ? (count + 1) / 2 : count;
}

// Random bytes are below this.
static inline uint32_t random_bound(unsigned width)
{
    return width == 4 ? 256 : 1u << width;
}

// A fixed sequence of numbers (xorshift).
enum { FIRST_NUMBER = 463534242 };
static uint32_t number = FIRST_NUMBER;

static inline uint32_t next_number(void)
{
    number ^= number << 13;
    number ^= number >> 17;
    number ^= number << 5;
    return number;
}

// So many elements below a bound.
static inline void fill_below(uint32_t bound, uint8_t *bytes, size_t len)
{
    for (size_t i = 0; i < len; i++)
        bytes[i] = (uint8_t)(next_number() >> 8) % bound;
}

// A record of width 6 with coefficients of the sequence, and its table. (The form has no x^21, x^42 and x^63 here, so few tables have a record.)
static inline void fill_record_6(const struct plain *p, unsigned bits, uint8_t *record, uint8_t table[ELEMENTS_6])
{
    const uint8_t head[HEAD] = {'D', 'C', 'P', 0, 2, 6, (uint8_t)bits};
    const size_t len = sizes_of(6, bits).record;
    for (size_t i = 0; i < HEAD; i++)
        record[i] = head[i];
    fill_below(ELEMENTS_6, record + HEAD, len - HEAD);
    for (size_t i = 0; i < ELEMENTS_6; i++) {
        uint8_t x = (uint8_t)i;
        p->sbox(record, len, 1, &x, 1, &x, 0, table + i, 1);
        table[i] &= (uint8_t)((1u << bits) - 1);
    }
}

// The sum of s elements that lie `stride` bytes apart.
static inline uint8_t join(const uint8_t *shares, size_t s, size_t stride)
{
    uint8_t sum = 0;
    for (size_t i = 0; i < s; i++)
        sum ^= shares[i * stride];
    return sum;
}

#endif
