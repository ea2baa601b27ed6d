/*
 * Reads a job, as text or in bytes, and prints both schedules as tables: the
 * runs with their stations, the totals by level, and what hangs over the road's
 * ends.
 *
 *     listing jobs/two-sided.job             both sides
 *     listing jobs/two-sided.job 0 500 1000.250 2000
 *                                            the same, and by lot: from 0 to
 *                                            500 m, to 1000.250 m, to 2000 m
 *     listing --csv runs jobs/two-sided.job  a table for a spreadsheet: runs,
 *                                            quantities (by lot and level),
 *                                            hazards or overhangs
 *     listing --stations km my.job 0+000 1+000.250
 *                                            stations as 1+000.250
 *     listing -p <job.bytes                  lines as the program `barrier`
 *                                            prints them, in millimetres
 *
 * Without a file it reads standard input.  A first word that is a station is not
 * a file: ./500 is one.
 *
 * Tables and lots are in metres with three decimals, which are the millimetres:
 * nothing is rounded.  A lot does not have its end station, so what begins on a
 * boundary is only in the second lot, and the lots of a road add up to the road.
 * A station with more decimals goes to the nearest millimetre.  Lots that do not
 * cover the road, or go past it, are warned of on standard error: most often the
 * stations were millimetres.
 *
 * Sides and stations are the road's own, also where the text says `drives left`
 * or `stations fall`.  Hazards with names are listed at the end.
 *
 * With -p, where approaches run into the neighbouring contract, there is one
 * more line for that side, which `barrier` does not print:
 *
 *     overhang R 21501 20758
 *
 * the side and the greatest overhang before the road and after it.  These
 * millimetres are not in the covered ones, nor in any table.
 *
 * A table for a spreadsheet has a line of headings, lines that end as in RFC
 * 4180, decimal points, and lengths in millimetres and again in metres.
 *
 * Ends with 0; with 1 where the engine refuses the job, which is said on
 * standard error, and nothing is printed; with 2 where it is used wrongly, the
 * input cannot be read or the output cannot be written.
 */
#include "job_text.h"

#include <barrier.h>

enum { LEVELS = 6, STATIONS_MAX = BARRIER_RANGES_MAX + 1 };

static const char usage[] =
    "usage: listing [-p | --csv runs|quantities|hazards|overhangs] [--stations km|metres] [--help]\n"
    "               [FILE] [[--lots] STATION STATION ...]\n";

/* The boundaries of the lots: a lot goes from one to the next. */
struct lots {
    uint64_t stations[STATIONS_MAX];
    size_t count;
};

/* What is asked for. */
struct asked {
    const char *path, *csv;
    int plain, kilometres;
    struct lots lots;
};

/* One side of the road as it was planned, with the road's own stations. */
struct side {
    const char *name, *word;
    char letter;
    uint8_t schedule[BARRIER_SCHEDULE_MAX];
    size_t length;
    uint64_t before, after;
};

static struct side sides[2] = {{"Right", "right", 'R', {0}, 0, 0, 0},
                               {"Left", "left", 'L', {0}, 0, 0, 0}};

/* The road as the engine has it. */
static barrier_help_header road;

static struct asked asked;

/* ---- Planned ---- */

/* Turns a schedule round, its last run first; the length stays within the room
   of any schedule. */
static size_t turn_schedule(const uint8_t *schedule, size_t length, uint8_t *out)
{
    static barrier_help_run runs[BARRIER_RUNS_MAX];
    barrier_help_walk walk = barrier_help_walk_of(schedule, length);
    size_t count = 0, written;
    uint64_t end = 0;
    while (barrier_help_next_run(&walk, &runs[count]))
        count++;
    written = barrier_help_put_number(count, out, BARRIER_SCHEDULE_MAX);
    while (count-- > 0) {
        const barrier_help_run run = barrier_help_turn_run(road.begin, road.end, runs[count]);
        const uint64_t record[3] = {run.start - end, run.end - run.start, run.level};
        for (int i = 0; i < 3; i++)
            written += barrier_help_put_number(record[i], out + written,
                                               BARRIER_SCHEDULE_MAX - written);
        end = run.end;
    }
    return written;
}

/* Plans the engine's side into the road's, which may be the other one. */
static barrier_plan_reply plan_side(uint64_t of_engine)
{
    static uint8_t out[BARRIER_SCHEDULE_MAX];
    struct side *side = &sides[job_real_side(of_engine)];
    barrier_plan_reply reply = barrier_plan(job.bytes, job.length, of_engine, out, sizeof out);
    if (reply.number != BARRIER_DONE)
        return reply;
    side->length = (size_t)reply.value;
    if (job.stations_fall) {
        reply = barrier_help_turn_overhangs(reply);
        side->length = turn_schedule(out, side->length, side->schedule);
    } else {
        memcpy(side->schedule, out, side->length);
    }
    side->before = reply.before;
    side->after = reply.after;
    return reply;
}

/* Both sides; 1, and said, where the engine refuses the job. */
static int plan(void)
{
    for (uint64_t side = BARRIER_RIGHT; side <= BARRIER_LEFT; side++) {
        const barrier_plan_reply reply = plan_side(side);
        if (reply.number != BARRIER_DONE)
            return job_refused(BARRIER_HELP_PLAN, reply.number, reply.value);
    }
    return 0;
}

/* Stations from where a hazard's envelope begins, before it is cut, to where it
   ends; 0 where nobody reaches the hazard. */
static int envelope_of(size_t index, int64_t *start, int64_t *end)
{
    const barrier_reach_reply reply = barrier_reach(job.bytes, job.length, index);
    if (reply.number != BARRIER_DONE || reply.end == 0)
        return 0;
    *start = (int64_t)reply.start - (int64_t)reply.before;
    *end = (int64_t)reply.end + (int64_t)reply.after;
    if (job.stations_fall) {
        const int64_t sum = (int64_t)(road.begin + road.end), turned = sum - *end;
        *end = sum - *start;
        *start = turned;
    }
    return 1;
}

/* The millimetres of one side by level: of each lot, of all of them, of the
   rest, and of the road. */
struct quantities {
    uint64_t of_lot[BARRIER_RANGES_MAX][LEVELS + 1];
    uint64_t together[LEVELS + 1], elsewhere[LEVELS + 1], of_road[LEVELS + 1];
};

static struct quantities counted;

static void count_road(const struct side *side)
{
    barrier_help_walk walk = barrier_help_walk_of(side->schedule, side->length);
    barrier_help_run run;
    memset(&counted, 0, sizeof counted);
    while (barrier_help_next_run(&walk, &run))
        counted.of_road[run.level] += run.end - run.start;
}

/* All lots in one call: every record is read once.  0 where it is refused. */
static int count_lots(const struct side *side, const struct lots *lots)
{
    uint64_t ranges[2 * BARRIER_RANGES_MAX];
    const size_t count = lots->count - 1;
    for (size_t i = 0; i < count; i++) {
        ranges[2 * i] = lots->stations[i];
        ranges[2 * i + 1] = lots->stations[i + 1];
    }
    for (int level = 1; level <= LEVELS; level++) {
        const barrier_quantities_reply reply = barrier_quantities(
            side->schedule, side->length, (uint64_t)level, ranges, 2 * count);
        if (reply.number != BARRIER_DONE)
            return 0;
        for (size_t i = 0; i < count; i++) {
            counted.of_lot[i][level] = reply.quantities[i];
            counted.together[level] += reply.quantities[i];
        }
        counted.elsewhere[level] = counted.of_road[level] - counted.together[level];
    }
    return 1;
}

/* ---- As the program barrier ---- */

/* Prints the runs of one side; the covered millimetres. */
static uint64_t print_runs(const struct side *side)
{
    barrier_help_walk walk = barrier_help_walk_of(side->schedule, side->length);
    barrier_help_run run;
    uint64_t covered = 0;
    while (barrier_help_next_run(&walk, &run)) {
        covered += run.end - run.start;
        printf("%c %" PRIu64 " %" PRIu64 " %" PRIu64 "\n", side->letter, run.start, run.end,
               run.level);
    }
    return covered;
}

/* Prints what hangs over the road's ends on one side, where something does. */
static void print_overhang(const struct side *side)
{
    if (side->before > 0 || side->after > 0)
        printf("overhang %c %" PRIu64 " %" PRIu64 "\n", side->letter, side->before, side->after);
}

static void print_plain(void)
{
    const uint64_t on_right = print_runs(&sides[BARRIER_RIGHT]);
    const uint64_t on_left = print_runs(&sides[BARRIER_LEFT]);
    printf("total %" PRIu64 " %" PRIu64 "\n", on_right, on_left);
    print_overhang(&sides[BARRIER_RIGHT]);
    print_overhang(&sides[BARRIER_LEFT]);
}

/* ---- As tables ---- */

static void print_metres(uint64_t millimetres)
{
    char text[BARRIER_HELP_TEXT_MAX];
    barrier_help_metres(millimetres, text, sizeof text);
    printf(" %14s", text);
}

static void station_text(uint64_t station, char *text)
{
    if (asked.kilometres)
        barrier_help_kilometres(station, text, BARRIER_HELP_TEXT_MAX);
    else
        barrier_help_metres(station, text, BARRIER_HELP_TEXT_MAX);
}

static void print_station(uint64_t station)
{
    char text[BARRIER_HELP_TEXT_MAX];
    station_text(station, text);
    printf(" %14s", text);
}

static void print_table(const struct side *side)
{
    barrier_help_walk walk = barrier_help_walk_of(side->schedule, side->length);
    barrier_help_run run;
    printf(" %14s %14s %14s  %s\n", "start", "end", "length", "level");
    while (barrier_help_next_run(&walk, &run)) {
        print_station(run.start);
        print_station(run.end);
        print_metres(run.end - run.start);
        printf("  NC-%" PRIu64 "\n", run.level);
    }
}

/* Prints a row of millimetres for the levels that the side has, and their sum. */
static void print_row(const uint64_t *row)
{
    uint64_t sum = 0;
    for (int level = 1; level <= LEVELS; level++) {
        if (counted.of_road[level] > 0)
            print_metres(row[level]);
        sum += row[level];
    }
    print_metres(sum);
    printf("\n");
}

static void print_levels(const char *first, const char *second)
{
    printf(" %14s %14s", first, second);
    for (int level = 1; level <= LEVELS; level++)
        if (counted.of_road[level] > 0)
            printf(" %13s%d", "NC-", level);
    printf(" %14s\n", "all levels");
}

/* Prints the millimetres of each lot by level; 0 where the call is refused. */
static int print_lots(const struct side *side)
{
    const struct lots *lots = &asked.lots;
    if (!count_lots(side, lots))
        return 0;
    print_levels("lot from", "to");
    for (size_t i = 0; i + 1 < lots->count; i++) {
        print_station(lots->stations[i]);
        print_station(lots->stations[i + 1]);
        print_row(counted.of_lot[i]);
    }
    printf(" %29s", "all lots");
    print_row(counted.together);
    printf(" %29s", "outside the lots");
    print_row(counted.elsewhere);
    return 1;
}

/* Prints what hangs over, which is for the neighbouring contract. */
static void print_neighbours(const struct side *side)
{
    char before[BARRIER_HELP_TEXT_MAX], after[BARRIER_HELP_TEXT_MAX];
    if (side->before == 0 && side->after == 0)
        return;
    barrier_help_metres(side->before, before, sizeof before);
    barrier_help_metres(side->after, after, sizeof after);
    printf(" and in the neighbouring contracts %s before the road, %s past its end\n", before,
           after);
}

static int print_side(const struct side *side)
{
    printf("%s side, in metres\n", side->name);
    count_road(side);
    if (side->schedule[0] == 0) {
        printf(" no barrier\n");
    } else {
        print_table(side);
        print_levels("", "");
        printf(" %29s", "total");
        print_row(counted.of_road);
        if (asked.lots.count > 0 && !print_lots(side))
            return 0;
    }
    print_neighbours(side);
    return 1;
}

/* The hazards, where the job has names for them. */
static void print_hazards(void)
{
    int named = 0;
    for (size_t i = 0; i < job.count; i++)
        named = named || job.hazards[i].name != NULL;
    if (!named)
        return;
    printf("Hazards, in metres\n %14s %14s %14s  %s\n", "hazard", "start", "end", "name");
    for (size_t i = 0; i < job.count; i++) {
        const struct job_hazard *hazard = &job.hazards[i];
        printf(" %8s %5zu", sides[hazard->numbers.side].word, i);
        print_station(hazard->numbers.start);
        print_station(hazard->numbers.end);
        printf("%s%s\n", hazard->name == NULL ? "" : "  ", hazard->name == NULL ? "" : hazard->name);
    }
}

/* Says that the lots are wrong for the road, in what way, and where both are. */
static void warn(const char *how)
{
    char texts[4][BARRIER_HELP_TEXT_MAX];
    station_text(asked.lots.stations[0], texts[0]);
    station_text(asked.lots.stations[asked.lots.count - 1], texts[1]);
    station_text(road.begin, texts[2]);
    station_text(road.end, texts[3]);
    fprintf(stderr, "listing: warning: the lots, %s to %s, %s the road, %s to %s%s\n", texts[0],
            texts[1], how, texts[2], texts[3], asked.kilometres ? "" : " (metres)");
}

static void warn_of_lots(void)
{
    if (asked.lots.count == 0)
        return;
    const uint64_t first = asked.lots.stations[0];
    const uint64_t last = asked.lots.stations[asked.lots.count - 1];
    if (first > road.begin || last < road.end)
        warn("do not cover");
    if (first < road.begin || last > road.end)
        warn("go past");
}

static int print_tables(void)
{
    warn_of_lots();
    if (!print_side(&sides[BARRIER_RIGHT]) || !print_side(&sides[BARRIER_LEFT]))
        return 0;
    print_hazards();
    return 1;
}

/* ---- As tables for a spreadsheet ---- */

/* A column of lengths: its heading, and whether it is a station. */
struct column {
    const char *head;
    int station;
};

/* A length for a column; an empty cell where there is none. */
struct cell {
    int64_t mm;
    int none;
};

/* The headings: the texts, then each length in millimetres, in metres, and the
   stations in kilometres. */
static void print_heads(const char *texts, const struct column *columns, size_t count)
{
    static const char *const units[3] = {"mm", "m", "km"};
    printf("%s", texts);
    for (int unit = 0; unit < (asked.kilometres ? 3 : 2); unit++)
        for (size_t i = 0; i < count; i++)
            if (unit < 2 || columns[i].station)
                printf(",%s_%s", columns[i].head, units[unit]);
    printf("\r\n");
}

static void print_cell(struct cell cell, int unit)
{
    char text[BARRIER_HELP_TEXT_MAX] = "";
    if (cell.none)
        text[0] = '\0';
    else if (unit == 0)
        snprintf(text, sizeof text, "%" PRId64, cell.mm);
    else if (unit == 1)
        barrier_help_metres_signed(cell.mm, text, sizeof text);
    else
        barrier_help_kilometres_signed(cell.mm, text, sizeof text);
    printf(",%s", text);
}

static void print_cells(const struct column *columns, const struct cell *cells, size_t count)
{
    for (int unit = 0; unit < (asked.kilometres ? 3 : 2); unit++)
        for (size_t i = 0; i < count; i++)
            if (unit < 2 || columns[i].station)
                print_cell(cells[i], unit);
    printf("\r\n");
}

static struct cell cell_of(uint64_t mm)
{
    const struct cell cell = {(int64_t)mm, 0};
    return cell;
}

/* A name: with a ' in front where a spreadsheet would take it for a formula, in
   quotes where a comma or a quote is in it. */
static void print_name(const char *name)
{
    if (name == NULL)
        return;
    const int formula = strchr("=+-@", name[0]) != NULL, quotes = strpbrk(name, ",\"") != NULL;
    printf("%s%s", quotes ? "\"" : "", formula ? "'" : "");
    for (; *name != '\0'; name++)
        printf("%s%c", *name == '"' ? "\"" : "", *name);
    printf("%s", quotes ? "\"" : "");
}

static int print_csv_runs(void)
{
    static const struct column columns[3] = {{"start", 1}, {"end", 1}, {"length", 0}};
    print_heads("side,run,level", columns, 3);
    for (int i = 0; i < 2; i++) {
        barrier_help_walk walk = barrier_help_walk_of(sides[i].schedule, sides[i].length);
        barrier_help_run run;
        for (size_t number = 1; barrier_help_next_run(&walk, &run); number++) {
            const struct cell cells[3] = {cell_of(run.start), cell_of(run.end),
                                          cell_of(run.end - run.start)};
            printf("%s,%c%zu,%" PRIu64, sides[i].word, sides[i].letter, number, run.level);
            print_cells(columns, cells, 3);
        }
    }
    return 1;
}

/* The rows of one lot, or of what is outside the lots: one for each level that
   the side has. */
static void print_csv_lot(const struct side *side, const char *lot, struct cell first,
                          struct cell last, const uint64_t *row)
{
    static const struct column columns[3] = {{"lot_start", 1}, {"lot_end", 1}, {"quantity", 0}};
    if (side == NULL) {
        print_heads("side,lot,level", columns, 3);
        return;
    }
    for (int level = 1; level <= LEVELS; level++) {
        const struct cell cells[3] = {first, last, cell_of(row[level])};
        if (counted.of_road[level] == 0)
            continue;
        printf("%s,%s,%d", side->word, lot, level);
        print_cells(columns, cells, 3);
    }
}

/* Without lots the road is the first one, and nothing is outside it. */
static int print_csv_quantities(void)
{
    static const struct cell none = {0, 1};
    const int given = asked.lots.count > 0;
    struct lots lots = asked.lots;
    if (!given) {
        lots.stations[0] = road.begin;
        lots.stations[1] = road.end;
        lots.count = 2;
    }
    warn_of_lots();
    print_csv_lot(NULL, "", none, none, NULL);
    for (int i = 0; i < 2; i++) {
        count_road(&sides[i]);
        if (!count_lots(&sides[i], &lots))
            return 0;
        for (size_t lot = 0; lot + 1 < lots.count; lot++) {
            char number[24];
            snprintf(number, sizeof number, "%zu", lot + 1);
            print_csv_lot(&sides[i], number, cell_of(lots.stations[lot]),
                          cell_of(lots.stations[lot + 1]), counted.of_lot[lot]);
        }
        if (given)
            print_csv_lot(&sides[i], "outside", none, none, counted.elsewhere);
    }
    return 1;
}

static int print_csv_hazards(void)
{
    static const struct column columns[6] = {
        {"start", 1},      {"end", 1},           {"near_offset", 0},
        {"far_offset", 0}, {"envelope_start", 1}, {"envelope_end", 1}};
    print_heads("hazard,name,side,level", columns, 6);
    for (size_t i = 0; i < job.count; i++) {
        const barrier_hazard *hazard = &job.hazards[i].numbers;
        struct cell cells[6] = {cell_of(hazard->start),       cell_of(hazard->end),
                                cell_of(hazard->near_offset), cell_of(hazard->far_offset),
                                {0, 0},                       {0, 0}};
        cells[4].none = cells[5].none = !envelope_of(i, &cells[4].mm, &cells[5].mm);
        printf("%zu,", i);
        print_name(job.hazards[i].name);
        printf(",%s,%" PRIu64, sides[hazard->side].word, hazard->level);
        print_cells(columns, cells, 6);
    }
    return 1;
}

static int print_csv_overhangs(void)
{
    static const struct column columns[2] = {{"before", 0}, {"after", 0}};
    print_heads("side", columns, 2);
    for (int i = 0; i < 2; i++) {
        const struct cell cells[2] = {cell_of(sides[i].before), cell_of(sides[i].after)};
        printf("%s", sides[i].word);
        print_cells(columns, cells, 2);
    }
    return 1;
}

/* The tables by what they are called. */
static const struct {
    const char *name;
    int (*print)(void);
} tables[] = {{"runs", print_csv_runs},
              {"quantities", print_csv_quantities},
              {"hazards", print_csv_hazards},
              {"overhangs", print_csv_overhangs}};
enum { TABLES = sizeof tables / sizeof tables[0] };

static int print_csv(void)
{
    for (size_t i = 0; i < TABLES; i++)
        if (strcmp(asked.csv, tables[i].name) == 0)
            return tables[i].print();
    return 0;
}

/* ---- The program ---- */

/* A station in metres or in kilometres; 0 where the word is not a station. */
static int read_station(const char *word, uint64_t *station)
{
    const size_t length = strlen(word);
    return barrier_help_mm_of_kilometres(word, length, station) == BARRIER_HELP_OK ||
           (word[0] != '+' && word[0] != '-' &&
            barrier_help_mm_of_text(word, length, station) == BARRIER_HELP_OK);
}

/* A word that is not an option: the file, where it is the first and not a
   station, or a boundary of the lots, which do not fall; 0, and said, where it
   is neither. */
static int read_word(const char *word, int in_lots)
{
    struct lots *lots = &asked.lots;
    uint64_t station;
    if (!read_station(word, &station)) {
        if (!in_lots && asked.path == NULL && lots->count == 0) {
            asked.path = word;
            return 1;
        }
        job_misused(usage, "no station like 1000.250 or 1+000.250, of 0 to 1000000000 m", word);
        return 0;
    }
    if (lots->count == STATIONS_MAX) {
        job_misused(usage, "lots are 2 to 65 stations, and this is one more", word);
        return 0;
    }
    if (lots->count > 0 && station < lots->stations[lots->count - 1]) {
        job_misused(usage, "the stations of lots rise, and this one does not", word);
        return 0;
    }
    lots->stations[lots->count++] = station;
    return 1;
}

static int is_table(const char *word)
{
    for (size_t i = 0; i < TABLES; i++)
        if (strcmp(word, tables[i].name) == 0)
            return 1;
    return 0;
}

/* An option with a value; 0, and said, where its value is not one. */
static int read_value(const char *option, const char *value)
{
    if (strcmp(option, "--csv") == 0 && value != NULL && is_table(value))
        asked.csv = value;
    else if (strcmp(option, "--stations") == 0 && value != NULL &&
             (strcmp(value, "km") == 0 || strcmp(value, "metres") == 0))
        asked.kilometres = value[0] == 'k';
    else {
        job_misused(usage, value == NULL ? "a word has to follow" : "no word for this option",
                    value == NULL ? option : value);
        return 0;
    }
    return 1;
}

/* What does not go together; 0, and said, where something does not. */
static int agree(void)
{
    if (asked.plain && asked.csv != NULL)
        job_misused(usage, "-p does not go together with", "--csv");
    else if (asked.plain && asked.kilometres)
        job_misused(usage, "-p prints millimetres and does not go together with", "--stations km");
    else if (asked.lots.count > 0 && asked.plain)
        job_misused(usage, "lots do not go together with", "-p");
    else if (asked.lots.count > 0 && asked.csv != NULL && strcmp(asked.csv, "quantities") != 0)
        job_misused(usage, "lots are for quantities and do not go together with", asked.csv);
    else if (asked.lots.count == 1)
        job_misused(usage, "lots are 2 to 65 stations, and not", "1");
    else
        return 1;
    return 0;
}

/* 0 where the command is read; else the status, and said. */
static int read_command(int argc, char **argv)
{
    int in_lots = 0;
    for (int i = 1; i < argc; i++) {
        const char *word = argv[i];
        int fits = 1;
        if (strcmp(word, "-p") == 0)
            asked.plain = 1;
        else if (strcmp(word, "--lots") == 0)
            in_lots = 1;
        else if (strcmp(word, "--csv") == 0 || strcmp(word, "--stations") == 0) {
            i++;
            fits = read_value(word, i < argc ? argv[i] : NULL);
        } else if (word[0] == '-' && word[1] != '\0')
            return job_misused(usage, "no such option", word);
        else
            fits = read_word(word, in_lots);
        if (!fits)
            return 2;
    }
    return agree() ? 0 : 2;
}

static int wants_help(int argc, char **argv)
{
    for (int i = 1; i < argc; i++)
        if (strcmp(argv[i], "--help") == 0)
            return 1;
    return 0;
}

int main(int argc, char **argv)
{
    job_tool = "listing";
    if (wants_help(argc, argv)) {
        printf("%sPrints the schedule of a job, as text or in bytes: both sides in metres, by lot\n"
               "where stations are given; --csv a table for a spreadsheet; -p lines in millimetres.\n"
               "Reads FILE, or standard input.\n",
               usage);
        return job_written(0);
    }
    if (read_command(argc, argv) != 0)
        return 2;
    job_from_either(asked.path);
    if (job.from_text) {
        road.begin = job.header[JOB_BEGIN];
        road.end = job.header[JOB_END];
    }
    if (plan() != 0)
        return 1;
    if (!job_know(&road))
        job_stop_whole("the job is accepted, and cannot be read");
    if (asked.plain)
        print_plain();
    else if (!(asked.csv != NULL ? print_csv() : print_tables()))
        job_stop_whole("a quantity is refused");
    return job_written(0);
}
