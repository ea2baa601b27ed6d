/*
 * Panels for one run: a yard stocks two panel lengths, and the run of the
 * sample job is laid from them, with more and more tries, and with the lengths
 * the other way round; then runs at the ends of what these lengths cover, a
 * longer one, and refusals.  It ends with 1 where a call does not do what it
 * should.
 *
 *     cc layout.c $(pkg-config --cflags --libs barrier_engine) -o layout
 */
#include <inttypes.h>
#include <stdio.h>

#include <barrier.h>

/* In the order in which their counts rise: the last one's changes fastest, so
   the shortest length, which stands first, is taken as rarely as possible. */
enum { LENGTHS = 2 };
static const uint64_t lengths[LENGTHS] = {2500, 4000};
static const uint64_t longest_first[LENGTHS] = {4000, 2500};
/* Fifteen of each are this long together. */
static const uint64_t COVERED = 97500;

/* The run [155773, 210000). */
static const uint64_t RUN = 210000 - 155773;

static void print_refusal(barrier_layout_reply reply)
{
    printf("refused %" PRIu64 " with %" PRIu64 "\n", reply.number, reply.value);
}

/* The layout of a run from these lengths; 0 if refused. */
static int print_layout(const uint64_t *yard, uint64_t run, uint64_t limit)
{
    const barrier_layout_reply reply = barrier_layout(yard, LENGTHS, run, limit);
    printf("  run %" PRIu64 ", at most %" PRIu64 " tries: ", run, limit);
    if (reply.number != BARRIER_DONE) {
        print_refusal(reply);
        return 0;
    }
    /* An overrun of 0 is one: only found says whether a layout covers the run. */
    if (reply.found)
        printf("(%" PRIu64 ", %" PRIu64 "), overrun %" PRIu64, reply.counts[0], reply.counts[1],
               reply.overrun);
    else
        printf("none covers it");
    printf("; %" PRIu64 " tries, floor %" PRIu64 "\n", reply.tries, reply.floor);
    return 1;
}

/* The same run; where the overrun is the floor, more tries are of no use. */
static int print_tries(void)
{
    static const uint64_t limits[] = {14, 15, 29, 30, BARRIER_TRIES_MAX};
    printf("Panels of 2500 and 4000, the sample job's run\n");
    for (size_t i = 0; i < sizeof limits / sizeof limits[0]; i++)
        if (!print_layout(lengths, RUN, limits[i]))
            return 0;
    /* The same overrun, with seventeen panels and not fourteen. */
    printf("The longest first\n");
    return print_layout(longest_first, RUN, BARRIER_TRIES_MAX);
}

static int print_ends(void)
{
    printf("Runs at the ends of what these panels cover\n");
    return print_layout(lengths, 0, BARRIER_TRIES_MAX) &&
           print_layout(lengths, COVERED, BARRIER_TRIES_MAX) &&
           print_layout(lengths, COVERED + 1, BARRIER_TRIES_MAX);
}

/* A run that fifteen of each do not cover: panels of the longest length are laid
   first, until half of that is left, for which there are many layouts. */
static int print_long(uint64_t run)
{
    const uint64_t longest = lengths[LENGTHS - 1];
    const uint64_t first = (run - COVERED / 2 + longest - 1) / longest;
    printf("A run of %" PRIu64 ": first %" PRIu64 " panels of %" PRIu64 ", then the rest\n", run,
           first, longest);
    return print_layout(lengths, run - first * longest, BARRIER_TRIES_MAX);
}

/* A call that has to be refused; 0 if it is done. */
static int print_refused(const char *what, barrier_layout_reply reply)
{
    printf("  %s: ", what);
    if (reply.number == BARRIER_DONE) {
        printf("done, but it should be refused\n");
        return 0;
    }
    print_refusal(reply);
    return 1;
}

static int print_refusals(void)
{
    printf("Refusals\n");
    return print_refused("no length", barrier_layout(NULL, 0, RUN, BARRIER_TRIES_MAX)) &&
           print_refused("no tries", barrier_layout(lengths, LENGTHS, RUN, 0));
}

int main(void)
{
    const int shown = print_tries() && print_ends() && print_long(212000) && print_refusals();
    if (fflush(stdout) != 0 || ferror(stdout)) {
        fprintf(stderr, "layout: standard output cannot be written\n");
        return 1;
    }
    return shown ? 0 : 1;
}
