/*
 * The number form of jobs and schedules (barrier.h, "The number form"), for the
 * tests alone: written apart from barrier_help.h, so that each shows where the
 * other is wrong.  Programs take barrier_help.h, which is bounded.
 */
#ifndef NUMBER_FORM_H
#define NUMBER_FORM_H

#include <stddef.h>
#include <stdint.h>

/* A 64-bit value takes at most this many groups of seven bits. */
#define NUMBER_BYTES_MAX 10

/* Writes a value in as many groups as its bits need; the count of bytes. */
static inline size_t put_number(uint8_t *bytes, uint64_t value)
{
    size_t count = 0;
    while (value > 0x7F) {
        bytes[count++] = (uint8_t)(0x80 | (value & 0x7F));
        value >>= 7;
    }
    bytes[count++] = (uint8_t)value;
    return count;
}

/*
 * Reads the number at *at and moves *at behind it.  Only for a schedule that
 * the engine wrote or did not refuse: what is wrong elsewhere the engine says.
 */
static inline uint64_t get_number(const uint8_t *bytes, size_t *at)
{
    uint64_t value = 0;
    unsigned shift = 0;
    uint8_t group;
    do {
        group = bytes[(*at)++];
        value |= (uint64_t)(group & 0x7F) << shift;
        shift += 7;
    } while (group & 0x80);
    return value;
}

#endif
