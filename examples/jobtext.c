/*
 * Turns the text form of a job into its bytes, and with -r bytes into text.
 *
 *     jobtext my.job >my.bytes
 *     jobtext -r my.bytes >again.job
 *
 * Without a file, or with -, it reads standard input.  job_text.h beside this
 * file reads the text, and has its form: one field on a line; '#' begins a
 * comment; empty lines do not count.  The header's lines may be in any order
 * and each has to be there once, but the panel length may be left out: with it
 * the job is of kind 2, without it of kind 1.  Hazards keep their order.  Two
 * more lines may be given, to say something else than what is usual: `kind`,
 * which is the first number and nothing else, and `hazards`, the hazard count,
 * which is that of the hazard lines.
 *
 * A number is anything that 64 bits hold, and a side may be a number too.
 * Whether a number is right is for the engine to judge, not for this program.
 *
 * With -r it reads a job of kind 1 or 2, of up to 256 hazards, whose numbers may
 * be out of their ranges.  The text gives the same bytes again; it has no names,
 * and sides and stations are the engine's.  It reports bytes that it cannot
 * read, and writes no text; listing then has the engine's refusal, with the
 * place.
 *
 * Ends with 0, or with 2 where the input cannot be read or the output cannot be
 * written.
 */
#include "job_text.h"

static const char usage[] = "usage: jobtext [-r] [--help] [FILE]\n";

/* Text to bytes. */
static int to_bytes(const char *path)
{
    job_from_text(path);
    fwrite(job.bytes, 1, job.length, stdout);
    return job_written(0);
}

static void print_header(const barrier_help_header *header)
{
    printf("road %" PRIu64 " %" PRIu64 "\n", header->begin, header->end);
    printf("runout-forward %" PRIu64 "\n", header->runout_forward);
    printf("runout-opposite %" PRIu64 "\n", header->runout_opposite);
    printf("clear-zone %" PRIu64 "\n", header->clear_zone);
    printf("centreline %" PRIu64 "\n", header->centreline);
    printf("barrier-offset %" PRIu64 "\n", header->barrier_offset);
    printf("deflection %" PRIu64 "\n", header->deflection);
    printf("flare %" PRIu64 " %" PRIu64 "\n", header->flare_along, header->flare_across);
    printf("straight %" PRIu64 "\n", header->straight);
    printf("continuity %" PRIu64 "\n", header->continuity);
    if (header->kind == 2)
        printf("panel %" PRIu64 "\n", header->panel);
}

/* A side that is neither right nor left is written as its number. */
static void print_hazard(const barrier_hazard *hazard)
{
    if (hazard->side <= BARRIER_LEFT)
        printf("hazard %s", hazard->side == BARRIER_RIGHT ? "right" : "left");
    else
        printf("hazard %" PRIu64, hazard->side);
    printf(" %" PRIu64 " %" PRIu64 " %" PRIu64 " %" PRIu64 " %" PRIu64 "\n", hazard->start,
           hazard->end, hazard->near_offset, hazard->far_offset, hazard->level);
}

/* Why bytes cannot be read as a job. */
static const char *unread(enum barrier_help_result result)
{
    switch (result) {
    case BARRIER_HELP_ENDS_EARLY:
        return "the bytes end inside the job";
    case BARRIER_HELP_NO_NUMBER:
        return "a number is not in its form";
    case BARRIER_HELP_NO_ROOM:
        return "the job has more than 256 hazards";
    case BARRIER_HELP_LEFT_OVER:
        return "bytes are left over after the job";
    default:
        return "the job is neither of kind 1 nor of kind 2";
    }
}

/* Bytes to text. */
static int to_text(const char *path)
{
    static barrier_hazard hazards[BARRIER_HAZARDS_MAX];
    barrier_help_header header;
    size_t count;
    const size_t length = job_read_input(path);
    const enum barrier_help_result result = barrier_help_read_job(
        (const uint8_t *)job_input, length, &header, hazards, BARRIER_HAZARDS_MAX, &count);
    if (result != BARRIER_HELP_OK)
        job_stop_whole(unread(result));
    print_header(&header);
    for (size_t i = 0; i < count; i++)
        print_hazard(&hazards[i]);
    return job_written(0);
}

int main(int argc, char **argv)
{
    const char *path = NULL;
    int back = 0, paths = 0;
    job_tool = "jobtext";
    for (int i = 1; i < argc; i++) {
        if (strcmp(argv[i], "--help") == 0) {
            printf("%sTurns a job's text into its bytes, with -r bytes into text.\n"
                   "Reads FILE, or standard input; examples/README.md has the text's form.\n",
                   usage);
            return job_written(0);
        }
        if (strcmp(argv[i], "-r") == 0)
            back = 1;
        else if (argv[i][0] == '-' && argv[i][1] != '\0')
            return job_misused(usage, "no such option", argv[i]);
        else if (paths++ > 0)
            return job_misused(usage, "one file is read, and not this one too", argv[i]);
        else
            path = argv[i];
    }
    return back ? to_text(path) : to_bytes(path);
}
