/*
 * Panels for one run: layouts worked out by hand, each end of the ranges, the
 * limit on tries where the reply changes, every refusal and their order; and a
 * plain search, with which the replies are compared over small lengths. Ends with
 * 1 where a reply is another.
 */
#include <barrier.h>
#include <stdio.h>
#include <string.h>

enum { LENGTHS = BARRIER_LENGTHS_MAX, MANY = 65540 };

/* In 32 bits it is 0. */
#define IN_33_BITS UINT64_C(4294967296)

static int wrong = 0;

static void print_wrong(const uint64_t *lengths, size_t count, uint64_t run, uint64_t limit,
                        barrier_layout_reply reply)
{
    size_t i;

    printf("layout: lengths");
    for (i = 0; i < count && i < LENGTHS; i++)
        printf(" %llu", (unsigned long long)lengths[i]);
    printf(" of %zu, run %llu, limit %llu: number %llu value %llu found %llu overrun %llu counts",
           count, (unsigned long long)run, (unsigned long long)limit,
           (unsigned long long)reply.number, (unsigned long long)reply.value,
           (unsigned long long)reply.found, (unsigned long long)reply.overrun);
    for (i = 0; i < LENGTHS; i++)
        printf(" %llu", (unsigned long long)reply.counts[i]);
    printf(" tries %llu floor %llu\n", (unsigned long long)reply.tries,
           (unsigned long long)reply.floor);
    wrong = 1;
}

/* The call, whose reply has to be that in each field. A reply has numbers of 64
   bits alone, so that it has no padding. */
static void reply_is(const uint64_t *lengths, size_t count, uint64_t run, uint64_t limit,
                     barrier_layout_reply wanted)
{
    const barrier_layout_reply reply = barrier_layout(lengths, count, run, limit);

    if (memcmp(&reply, &wanted, sizeof reply) != 0)
        print_wrong(lengths, count, run, limit, reply);
}

static void refused(const uint64_t *lengths, size_t count, uint64_t limit, uint64_t number)
{
    barrier_layout_reply wanted = {0, 0, 0, 0, {0, 0, 0, 0}, 0, 0};
    static const uint64_t runs[3] = {0, 4001, UINT64_MAX};
    int i;

    wanted.number = number;
    for (i = 0; i < 3; i++)
        reply_is(lengths, count, runs[i], limit, wanted);
}

/* The yard of one case. What stands behind its lengths is no length. */
static uint64_t yard[LENGTHS + 1];
static size_t yard_len;

static void stock(size_t count, uint64_t first, uint64_t second, uint64_t third, uint64_t fourth)
{
    const uint64_t lengths[LENGTHS] = {first, second, third, fourth};

    memset(yard, 0, sizeof yard);
    memcpy(yard, lengths, count * sizeof lengths[0]);
    yard_len = count;
}

static void none(uint64_t run, uint64_t limit, uint64_t tries, uint64_t floor)
{
    barrier_layout_reply wanted = {0, 0, 0, 0, {0, 0, 0, 0}, 0, 0};

    wanted.tries = tries;
    wanted.floor = floor;
    reply_is(yard, yard_len, run, limit, wanted);
}

/* The layout's counts are the digits of this number in hex, the last length's the
   last: 0x8A of two lengths is eight and ten. */
static void found(uint64_t run, uint64_t limit, uint64_t tries, uint64_t floor, uint64_t overrun,
                  uint64_t layout)
{
    barrier_layout_reply wanted = {0, 0, 1, 0, {0, 0, 0, 0}, 0, 0};
    size_t i;

    wanted.overrun = overrun;
    for (i = 0; i < yard_len; i++)
        wanted.counts[i] = layout >> 4 * (yard_len - 1 - i) & 15;
    wanted.tries = tries;
    wanted.floor = floor;
    reply_is(yard, yard_len, run, limit, wanted);
}

/* Three panels of 4000 cover 10000: they are the fourth layout, behind none. */
static void one_length(void)
{
    stock(1, 4000, 0, 0, 0);
    none(10000, 1, 1, 2000);
    none(10000, 3, 3, 2000);
    found(10000, 4, 4, 2000, 2000, 0x3);
    found(10000, 15, 15, 2000, 2000, 0x3);
    found(10000, 16, 16, 2000, 2000, 0x3);
    found(10000, 17, 16, 2000, 2000, 0x3);
    found(10000, 65536, 16, 2000, 2000, 0x3);
    found(8000, 65536, 16, 0, 0, 0x2);
    found(8001, 65536, 16, 3999, 3999, 0x3);
    found(7999, 65536, 16, 1, 1, 0x2);
    found(60000, 65536, 16, 0, 0, 0xF);
    none(60000, 15, 15, 0);
    none(60001, 65536, 16, 3999);
    none(64000, 65536, 16, 0);
    /* A run of 0 needs no panel. */
    found(0, 1, 1, 0, 0, 0x0);
    found(0, 65536, 16, 0, 0, 0x0);
    /* The least length and the greatest. */
    stock(1, 1, 0, 0, 0);
    found(15, 16, 16, 0, 0, 0xF);
    none(16, 16, 16, 0);
    found(7, 8, 8, 0, 0, 0x7);
    none(7, 7, 7, 0);
    stock(1, 20000, 0, 0, 0);
    found(1, 2, 2, 19999, 19999, 0x1);
    none(1, 1, 1, 19999);
    found(300000, 16, 16, 0, 0, 0xF);
    none(300001, 16, 16, 19999);
}

/*
 * The manual's tables. Of 4000 and 2500, for 54227: four and fifteen are 53500;
 * five and fourteen, the 95th, 55000; eight and nine, the 138th, 54500.
 */
static void two_lengths(void)
{
    stock(2, 4000, 2500, 0, 0);
    none(54227, 1, 1, 273);
    none(54227, 94, 94, 273);
    found(54227, 95, 95, 273, 773, 0x5E);
    found(54227, 137, 137, 273, 773, 0x5E);
    found(54227, 138, 138, 273, 273, 0x89);
    found(54227, 255, 255, 273, 273, 0x89);
    found(54227, 256, 256, 273, 273, 0x89);
    found(54227, 257, 256, 273, 273, 0x89);
    found(54227, 65536, 256, 273, 273, 0x89);
    found(97500, 65536, 256, 0, 0, 0xFF);
    none(97500, 255, 255, 0);
    none(97501, 65536, 256, 499);
    /* In the other order: 14 of 4000 are 56000, the 15th; one of 2500 and 13 are
       54500, the 30th. */
    stock(2, 2500, 4000, 0, 0);
    none(54227, 14, 14, 273);
    found(54227, 15, 15, 273, 1773, 0x0E);
    found(54227, 29, 29, 273, 1773, 0x0E);
    found(54227, 30, 30, 273, 273, 0x1D);
    found(54227, 65536, 256, 273, 273, 0x1D);
    /* The floor is out of reach. */
    stock(2, 4000, 6000, 0, 0);
    found(1000, 16, 16, 1000, 5000, 0x01);
    found(1000, 17, 17, 1000, 3000, 0x10);
    found(1000, 65536, 256, 1000, 3000, 0x10);
    /* The first of those that overrun alike, also where a length stands twice. */
    stock(2, 2000, 2000, 0, 0);
    found(4000, 65536, 256, 0, 0, 0x02);
    found(32000, 65536, 256, 0, 0, 0x1F);
    stock(2, 2000, 1000, 0, 0);
    found(4000, 65536, 256, 0, 0, 0x04);
    stock(2, 1000, 2000, 0, 0);
    found(4000, 65536, 256, 0, 0, 0x02);
}

static void more_lengths(void)
{
    stock(3, 7, 5, 3, 0);
    /* Two of 3 are 6; three, the fourth layout, 9; 5 and 3, the 18th, 8. */
    none(8, 3, 3, 0);
    found(8, 4, 4, 0, 1, 0x003);
    found(8, 17, 17, 0, 1, 0x003);
    found(8, 18, 18, 0, 0, 0x011);
    found(8, 65536, 4096, 0, 0, 0x011);
    found(225, 4096, 4096, 0, 0, 0xFFF);
    none(225, 4095, 4095, 0);
    none(226, 65536, 4096, 0);
    found(225, 65536, 4096, 0, 0, 0xFFF);
    /* Below 19999 and 2 nothing reaches 20001: 75 at the most. */
    stock(4, 20000, 19999, 3, 2);
    none(20001, 256, 256, 0);
    none(20001, 257, 257, 0);
    found(20001, 258, 258, 0, 0, 0x0101);
    found(20001, 65536, 65536, 0, 0, 0x0101);
    /* The divisor of all is 100, of any three more. The shortest panel overruns
       the least. */
    stock(4, 3000, 10500, 4200, 7000);
    none(1, 1, 1, 99);
    found(1, 2, 2, 99, 6999, 0x0001);
    found(1, 16, 16, 99, 6999, 0x0001);
    found(1, 17, 17, 99, 4199, 0x0010);
    found(1, 4096, 4096, 99, 4199, 0x0010);
    found(1, 4097, 4097, 99, 2999, 0x1000);
    found(1, 65536, 65536, 99, 2999, 0x1000);
    /* The last layout alone covers the longest run. */
    stock(4, 20000, 20000, 20000, 20000);
    none(1200000, 65535, 65535, 0);
    found(1200000, 65536, 65536, 0, 0, 0xFFFF);
    none(1200001, 65536, 65536, 19999);
    found(300001, 65536, 65536, 19999, 19999, 0x001F);
}

/* No run is too long to be asked for, and none is cut down to one that is not. */
static void long_runs(void)
{
    stock(1, 4000, 0, 0, 0);
    none(IN_33_BITS + 4000, 65536, 16, 704);
    none(IN_33_BITS, 65536, 16, 704);
    none(65536 + 4000, 65536, 16, 2464);
    /* 2^64 - 1 is 922337203685477 times 20000 and 11615: its multiple takes more
       than 64 bits. */
    stock(1, 20000, 0, 0, 0);
    none(UINT64_MAX, 65536, 16, 8385);
    stock(4, 20000, 10000, 20000, 10000);
    none(UINT64_MAX, 65536, 65536, 8385);
    none(UINT64_MAX - 1615, 65536, 65536, 0);
    stock(2, 20000, 19999, 0, 0);
    none(UINT64_MAX, 65536, 256, 0);
    none(UINT64_MAX, 5, 5, 0);
}

static void refusals(void)
{
    static const uint64_t no_lengths[6] = {0, 20001, 65536 + 4000, IN_33_BITS + 4000,
                                           UINT64_C(1) << 63, UINT64_MAX};
    static const uint64_t no_limits[6] = {0, 65537, 2 * 65536, IN_33_BITS,
                                          IN_33_BITS + 100, UINT64_MAX};
    static const size_t too_many[5] = {5, 6, 256, 260, MANY};
    static uint64_t lengths[MANY];
    size_t count;
    int i, k;

    for (i = 0; i < MANY; i++)
        lengths[i] = 4000;
    /* No length, more than four, one out of range at each place; and 16 is tested
       before 17. */
    refused(NULL, 0, 100, BARRIER_LENGTHS);
    refused(lengths, 0, 100, BARRIER_LENGTHS);
    refused(NULL, 0, 0, BARRIER_LENGTHS);
    refused(NULL, 0, 65537, BARRIER_LENGTHS);
    for (i = 0; i < 5; i++) {
        refused(lengths, too_many[i], 100, BARRIER_LENGTHS);
        refused(lengths, too_many[i], 0, BARRIER_LENGTHS);
        refused(lengths, too_many[i], 65537, BARRIER_LENGTHS);
    }
    for (count = 1; count <= LENGTHS; count++) {
        for (i = 0; i < (int)count; i++) {
            for (k = 0; k < 6; k++) {
                lengths[i] = no_lengths[k];
                refused(lengths, count, 100, BARRIER_LENGTHS);
                refused(lengths, count, 1, BARRIER_LENGTHS);
                refused(lengths, count, 0, BARRIER_LENGTHS);
                refused(lengths, count, 65537, BARRIER_LENGTHS);
            }
            lengths[i] = 4000;
        }
        for (k = 0; k < 6; k++)
            refused(lengths, count, no_limits[k], BARRIER_LIMIT);
    }
}

/*
 * A plain search. The floor's divisor is the greatest number that divides each
 * length, by trial, and the multiple is stepped up to.
 */
static barrier_layout_reply search(const uint64_t *lengths, size_t count, uint64_t run,
                                   uint64_t limit)
{
    barrier_layout_reply reply = {0, 0, 0, 0, {0, 0, 0, 0}, 0, 0};
    uint64_t counts[LENGTHS] = {0, 0, 0, 0}, divisor, total, multiple = 0;
    size_t i;

    for (divisor = lengths[0];; divisor--) {
        for (i = 0; i < count && lengths[i] % divisor == 0; i++)
            continue;
        if (i == count)
            break;
    }
    while (multiple < run)
        multiple += divisor;
    reply.floor = multiple - run;
    for (;;) {
        for (total = 0, i = 0; i < count; i++)
            total += counts[i] * lengths[i];
        if (total >= run && (!reply.found || total - run < reply.overrun)) {
            reply.found = 1;
            reply.overrun = total - run;
            memcpy(reply.counts, counts, sizeof counts);
        }
        reply.tries++;
        if (reply.tries == limit)
            return reply;
        /* The next layout: the last count that can rise does, those behind it
           begin anew. */
        for (i = count; i > 0 && counts[i - 1] == 15; i--)
            counts[i - 1] = 0;
        if (i == 0)
            return reply;
        counts[i - 1]++;
    }
}

/* The run, with each of the limits; and what the manual says of replies. */
static void compare(const uint64_t *lengths, size_t count, uint64_t run, const uint64_t *limits,
                    size_t limits_len)
{
    barrier_layout_reply last = {0, 0, 0, 0, {0, 0, 0, 0}, 0, 0};
    size_t i;

    for (i = 0; i < limits_len; i++) {
        const barrier_layout_reply reply = barrier_layout(lengths, count, run, limits[i]);
        const barrier_layout_reply wanted = search(lengths, count, run, limits[i]);
        const int worse = last.found && (!reply.found || reply.overrun > last.overrun);

        if (memcmp(&reply, &wanted, sizeof reply) != 0 || worse || reply.tries < last.tries ||
            (reply.found && reply.overrun < reply.floor))
            print_wrong(lengths, count, run, limits[i], reply);
        last = reply;
    }
}

static void one_and_two(void)
{
    static const uint64_t limits_1[6] = {1, 2, 9, 15, 16, 17};
    static const uint64_t limits_2[8] = {1, 16, 17, 100, 200, 255, 256, 65536};
    uint64_t lengths[2], run;

    for (lengths[0] = 1; lengths[0] <= 12; lengths[0]++)
        for (run = 0; run <= 15 * lengths[0] + 13; run++)
            compare(lengths, 1, run, limits_1, 6);
    for (lengths[0] = 1; lengths[0] <= 10; lengths[0]++)
        for (lengths[1] = 1; lengths[1] <= 10; lengths[1]++)
            for (run = 0; run <= 15 * (lengths[0] + lengths[1]) + 7; run += 1 + run / 40)
                compare(lengths, 2, run, limits_2, 8);
}

static void three(void)
{
    static const uint64_t sizes[5] = {2, 3, 4, 9, 10};
    static const uint64_t limits[5] = {20, 300, 4095, 4096, 4097};
    uint64_t lengths[3], run;
    int i;

    for (i = 0; i < 125; i++) {
        lengths[0] = sizes[i / 25];
        lengths[1] = sizes[i / 5 % 5];
        lengths[2] = sizes[i % 5];
        for (run = 0; run <= 15 * (lengths[0] + lengths[1] + lengths[2]) + 3; run += 1 + run / 3)
            compare(lengths, 3, run, limits, 5);
    }
}

/* Some that have a divisor, some that have none, and lengths of a yard. */
static void four(void)
{
    static const uint64_t yards[8][LENGTHS] = {
        {1, 1, 1, 1},         {2, 3, 5, 7},          {6, 10, 15, 30},
        {30, 15, 10, 6},      {12, 18, 27, 4},       {19, 19, 18, 17},
        {4000, 3000, 2500, 1250}, {1905, 3810, 7620, 20000}};
    static const uint64_t limits[6] = {1, 17, 4097, 40000, 65535, 65536};
    int i, k;

    for (i = 0; i < 8; i++) {
        const uint64_t *lengths = yards[i];
        const uint64_t all = 15 * (lengths[0] + lengths[1] + lengths[2] + lengths[3]);

        compare(lengths, LENGTHS, all + 1, limits, 6);
        for (k = 0; k <= 8; k++)
            compare(lengths, LENGTHS, all * (uint64_t)k / 8, limits, 6);
    }
}

int main(void)
{
    one_length();
    two_lengths();
    more_lengths();
    long_runs();
    refusals();
    one_and_two();
    three();
    four();
    return wrong;
}
