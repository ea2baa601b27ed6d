/*
 * A job from a file or from standard input, in bytes or as text: what jobtext,
 * listing and corners share.  README.md, "A job by hand", has the text form.
 *
 *     road 0 1000000                              begin and end station
 *     runout-forward 101000
 *     runout-opposite 0                           0: one-way or separated
 *     clear-zone 9000                             width
 *     centreline 0                                distance from the edge
 *     barrier-offset 3000
 *     deflection 1000                             allowance
 *     flare 15 1                                  along, across; 0 across: none
 *     straight 13340                              before the flare
 *     continuity 0                                limit
 *     panel 4000                                  length; may be left out
 *     drives left                                 or right; may be left out
 *     stations fall                               or rise; may be left out
 *     hazard right 0+200 210000 5000 9000 3 "headwall"
 *                                                 side, first and end station,
 *                                                 near and far offset, level;
 *                                                 a name may be left out
 *
 * Whether a number is right is for the engine to judge.  Text that cannot be
 * read is reported with its line and column (a column is a character), and the
 * program ends with 2.
 *
 * Include this file before any other.
 */
#ifndef JOB_TEXT_H
#define JOB_TEXT_H

#ifndef _POSIX_C_SOURCE
#define _POSIX_C_SOURCE 200809L /* for fstat */
#endif

#include <inttypes.h>
#include <stdio.h>
#include <stdlib.h>
#include <string.h>
#include <sys/stat.h>

#include <barrier_help.h>

enum {
    JOB_INPUT_MAX = 1048576,
    JOB_NAME_MAX = 60,  /* characters */
    JOB_SHOWN_MAX = 40, /* characters of a word in a message, */
    JOB_PATH_MAX = 200, /* and of a file's name */
    JOB_WORDS_MAX = 9,  /* of a line: eight, and one more, so that it shows */
    JOB_HAZARD_NUMBERS = BARRIER_HELP_HAZARD_NUMBERS,
    /* `hazard`, six numbers of a digit, seven blanks and line ends. */
    JOB_HAZARDS_MAX = JOB_INPUT_MAX / 19 + 1,
    JOB_BYTES_MAX = (JOB_HAZARDS_MAX * JOB_HAZARD_NUMBERS + BARRIER_HELP_HEADER_NUMBERS) *
                    BARRIER_HELP_NUMBER_MAX
};

/* The header numbers of kind 2: kind 1 has them without the panel length. */
enum { JOB_KIND = 1, JOB_BEGIN = 2, JOB_END = 3, JOB_OPPOSITE = 5, JOB_PANEL = 14, JOB_COUNT = 15 };

/* Where in the text; line 0 is nowhere in it. */
struct job_place {
    size_t line, column;
};

/* A hazard as it stands on the road, with the road's own stations and sides. */
struct job_hazard {
    barrier_hazard numbers;
    struct job_place first, end; /* where its stations stand in the text */
    const char *name;            /* in UTF-8, or NULL */
};

/* A job: its bytes for the engine, and what they do not say. */
struct job {
    uint8_t bytes[JOB_BYTES_MAX];
    size_t length;
    int from_text;
    int drives_left, stations_fall;
    struct job_hazard hazards[JOB_HAZARDS_MAX];
    size_t count; /* of a job in bytes, after job_know */
    /* The header numbers of the text, by their number; one that is not given is
       not written. */
    uint64_t header[BARRIER_HELP_HEADER_NUMBERS + 1];
    int given[BARRIER_HELP_HEADER_NUMBERS + 1];
    struct job_place drives, stations;
};

static struct job job;
static const char *job_tool = "job"; /* the program's name, for what is said */

/* ---- What is said ---- */

/* How many bytes the character at the start of that many bytes has; 0 where they
   are not UTF-8. */
static size_t job_character(const char *text, size_t length)
{
    const unsigned char *at = (const unsigned char *)text;
    const size_t wanted = at[0] < 0x80 ? 1 : at[0] < 0xE0 ? 2 : at[0] < 0xF0 ? 3 : 4;
    if (wanted > length || (at[0] >= 0x80 && at[0] < 0xC2) || at[0] > 0xF4)
        return 0;
    for (size_t i = 1; i < wanted; i++)
        if ((at[i] & 0xC0) != 0x80)
            return 0;
    /* In more bytes than it needs, a half of a pair of UTF-16, or above all. */
    if ((at[0] == 0xE0 && at[1] < 0xA0) || (at[0] == 0xED && at[1] > 0x9F) ||
        (at[0] == 0xF0 && at[1] < 0x90) || (at[0] == 0xF4 && at[1] > 0x8F))
        return 0;
    return wanted;
}

/* Characters below 32 and 127 to 159, which no terminal should get. */
static int job_is_control(const char *at)
{
    const unsigned char first = (unsigned char)at[0];
    return first < 0x20 || first == 0x7F || (first == 0xC2 && (unsigned char)at[1] < 0xA0);
}

/* A word of the text, of the command or a path, as far as it is shown. */
static void job_show(const char *word, size_t length, size_t most)
{
    size_t shown = 0;
    for (size_t i = 0; i < length; shown++) {
        const size_t bytes = job_character(word + i, length - i);
        if (shown == most) {
            fputs("...", stderr);
            return;
        }
        if (bytes == 0 || job_is_control(word + i))
            fputc('?', stderr);
        else
            fwrite(word + i, 1, bytes, stderr);
        i += bytes == 0 ? 1 : bytes;
    }
}

/* Says what is wrong, with a word where one is given, and ends the program. */
static void job_stop_word(struct job_place place, const char *what, const char *word, size_t length)
{
    fprintf(stderr, "%s: ", job_tool);
    if (place.line > 0)
        fprintf(stderr, "line %zu, column %zu: ", place.line, place.column);
    fputs(what, stderr);
    if (word != NULL) {
        fputs(": ", stderr);
        job_show(word, length, JOB_SHOWN_MAX);
    }
    fputc('\n', stderr);
    exit(2);
}

static void job_stop(struct job_place place, const char *what)
{
    job_stop_word(place, what, NULL, 0);
}

static void job_stop_whole(const char *what)
{
    const struct job_place nowhere = {0, 0};
    job_stop(nowhere, what);
}

/* Says what is wrong with the command, and how it is used; the status for it. */
static inline int job_misused(const char *usage, const char *what, const char *word)
{
    fprintf(stderr, "%s: %s: ", job_tool, what);
    job_show(word, strlen(word), JOB_SHOWN_MAX);
    fprintf(stderr, "\n%s", usage);
    return 2;
}

/* ---- A line's words ---- */

struct job_word {
    const char *at;
    size_t length;
    struct job_place place;
    int quoted;
};

struct job_line {
    struct job_word words[JOB_WORDS_MAX];
    size_t count; /* of all words, also those that have no room */
    const char *comment;
    size_t comment_length;
};

static int job_is_blank(char c)
{
    return c == ' ' || c == '\t' || c == '\r';
}

/* How many characters that many bytes of UTF-8 are. */
static size_t job_characters(const char *text, size_t length)
{
    size_t count = 0;
    for (size_t i = 0; i < length; i++)
        count += ((unsigned char)text[i] & 0xC0) != 0x80;
    return count;
}

/* The bytes of the name that begins with this quote, without its quotes. */
static size_t job_quoted(const char *quote, size_t left, struct job_place place)
{
    size_t length = 0;
    while (1 + length < left && quote[1 + length] != '"')
        length++;
    if (1 + length == left)
        job_stop(place, "the name has no closing quote");
    if (2 + length < left && !job_is_blank(quote[2 + length]) && quote[2 + length] != '#') {
        place.column += 2 + job_characters(quote + 1, length);
        job_stop(place, "a blank has to follow the name");
    }
    return length;
}

static size_t job_plain(const char *word, size_t left)
{
    size_t length = 0;
    while (length < left && !job_is_blank(word[length]) && word[length] != '#')
        length++;
    return length;
}

/* Cuts a line into words and its comment. */
static void job_cut(const char *text, size_t length, size_t number, struct job_line *line)
{
    struct job_place place = {number, 1};
    size_t i = 0;
    line->count = line->comment_length = 0;
    line->comment = NULL;
    while (i < length && text[i] != '#') {
        struct job_word word = {text + i, 0, place, text[i] == '"'};
        size_t taken = 1;
        if (!job_is_blank(text[i])) {
            word.at += word.quoted;
            word.length = word.quoted ? job_quoted(text + i, length - i, place)
                                      : job_plain(text + i, length - i);
            if (line->count < JOB_WORDS_MAX)
                line->words[line->count] = word;
            line->count++;
            taken = word.length + (word.quoted ? 2 : 0);
        }
        place.column += job_characters(text + i, taken);
        i += taken;
    }
    if (i < length) {
        line->comment = text + i + 1;
        line->comment_length = length - i - 1;
    }
}

static int job_is(const struct job_word *word, const char *wanted)
{
    return word->length == strlen(wanted) && memcmp(word->at, wanted, word->length) == 0;
}

/* The same except for capital letters. */
static int job_is_capital(const struct job_word *word, const char *wanted)
{
    if (word->length != strlen(wanted))
        return 0;
    for (size_t i = 0; i < word->length; i++) {
        const char c = word->at[i];
        if ((c >= 'A' && c <= 'Z' ? c - 'A' + 'a' : c) != wanted[i])
            return 0;
    }
    return 1;
}

static void job_stop_at(const struct job_word *word, const char *what)
{
    job_stop_word(word->place, what, word->at, word->length);
}

/* ---- Numbers ---- */

/* What a number counts: the message about a wrong one depends on it. */
enum job_unit { JOB_NUMBER, JOB_LENGTH, JOB_STATION };

/* Whether the word has only these letters. */
static int job_only(const struct job_word *word, const char *letters)
{
    for (size_t i = 0; i < word->length; i++)
        if (memchr(letters, word->at[i], strlen(letters)) == NULL)
            return 0;
    return 1;
}

static int job_has(const struct job_word *word, const char *letters)
{
    for (size_t i = 0; i < word->length; i++)
        if (memchr(letters, word->at[i], strlen(letters)) != NULL)
            return 1;
    return 0;
}

/* Adds digits after a number. */
static uint64_t job_digits(const struct job_word *word, uint64_t number, const char *digits,
                           size_t count)
{
    for (size_t i = 0; i < count; i++) {
        const uint64_t digit = (uint64_t)(digits[i] - '0');
        if (number > (UINT64_MAX - digit) / 10)
            job_stop_at(word, "too great for 64 bits");
        number = 10 * number + digit;
    }
    return number;
}

/* Digits of a number or before a plus: this many are looked at, and no more. */
static void job_test_digits(const struct job_word *word, size_t digits)
{
    if (digits > 20)
        job_stop_at(word, "a number has at most 20 digits");
}

/* Kilometres, a plus, three digits of metres and, if wanted, a point and three
   of millimetres. */
static uint64_t job_kilometres(const struct job_word *word)
{
    const char *plus = (const char *)memchr(word->at, '+', word->length);
    const size_t before = (size_t)(plus - word->at), behind = word->length - before - 1;
    const struct job_word kilometres = {word->at, before, word->place, 0};
    const struct job_word metres = {plus + 1, 3, word->place, 0};
    const struct job_word millimetres = {plus + 5, 3, word->place, 0};
    uint64_t number;
    if (before == 0 || !job_only(&kilometres, "0123456789") || (behind != 3 && behind != 7) ||
        !job_only(&metres, "0123456789") ||
        (behind == 7 && (plus[4] != '.' || !job_only(&millimetres, "0123456789"))))
        job_stop_at(word, "a station in kilometres is like 1+250 or 1+250.000");
    job_test_digits(word, before);
    number = job_digits(word, 0, word->at, before);
    number = job_digits(word, number, metres.at, 3);
    return job_digits(word, number, behind == 7 ? millimetres.at : "000", 3);
}

static uint64_t job_number(const struct job_word *word, enum job_unit unit)
{
    const struct job_word behind = {word->at + 1, word->length - 1, word->place, 0};
    if (unit == JOB_STATION && job_has(word, "+") && job_only(word, "0123456789.,+"))
        return job_kilometres(word);
    if (job_only(word, "0123456789")) {
        job_test_digits(word, word->length);
        return job_digits(word, 0, word->at, word->length);
    }
    if (job_only(word, "0123456789.,") && job_has(word, "0123456789"))
        job_stop_at(word, unit == JOB_NUMBER ? "a whole number is wanted, without a point or comma"
                                             : "whole millimetres are wanted, without a point or "
                                               "comma (9000 for 9 m)");
    if (word->at[0] == '-' && behind.length > 0 && job_only(&behind, "0123456789"))
        job_stop_at(word, "no number is below 0");
    job_stop_at(word, "not a number");
    return 0;
}

static uint64_t job_side(const struct job_word *word)
{
    if (job_is(word, "right"))
        return BARRIER_RIGHT;
    if (job_is(word, "left"))
        return BARRIER_LEFT;
    if (job_is_capital(word, "right") || job_is_capital(word, "left"))
        job_stop_at(word, "write right or left in small letters");
    if (!job_only(word, "0123456789"))
        job_stop_at(word, "a side is right or left");
    return job_number(word, JOB_NUMBER);
}

/* ---- Lines ---- */

/* A header line: its word, the header number of its first value, its values. */
struct job_field {
    const char *name;
    size_t number, values;
    enum job_unit unit;
};

static const struct job_field job_fields[] = {
    {"kind", JOB_KIND, 1, JOB_NUMBER},
    {"road", JOB_BEGIN, 2, JOB_STATION},
    {"runout-forward", 4, 1, JOB_LENGTH},
    {"runout-opposite", JOB_OPPOSITE, 1, JOB_LENGTH},
    {"clear-zone", 6, 1, JOB_LENGTH},
    {"centreline", 7, 1, JOB_LENGTH},
    {"barrier-offset", 8, 1, JOB_LENGTH},
    {"deflection", 9, 1, JOB_LENGTH},
    {"flare", 10, 2, JOB_NUMBER},
    {"straight", 12, 1, JOB_LENGTH},
    {"continuity", 13, 1, JOB_LENGTH},
    {"panel", JOB_PANEL, 1, JOB_LENGTH},
    {"hazards", JOB_COUNT, 1, JOB_NUMBER},
};
enum { JOB_FIELDS = sizeof job_fields / sizeof job_fields[0] };

static void job_read_field(const struct job_field *field, const struct job_line *line)
{
    const struct job_word *word = &line->words[0];
    if (line->count != 1 + field->values)
        job_stop_at(word, field->values == 1 ? "wants one number" : "wants two numbers");
    if (job.given[field->number])
        job_stop_at(word, "given a second time");
    for (size_t i = 0; i < field->values; i++) {
        job.header[field->number + i] = job_number(&line->words[1 + i], field->unit);
        job.given[field->number + i] = 1;
    }
}

/* A line that says one of two words; 1 where it is the second. */
static int job_read_choice(const struct job_line *line, struct job_place *given, const char *first,
                           const char *second, const char *wants, const char *small)
{
    const struct job_word *word = &line->words[0], *said = &line->words[1];
    if (line->count != 2)
        job_stop(word->place, wants);
    if (given->line > 0)
        job_stop_at(word, "given a second time");
    *given = word->place;
    if (job_is(said, first) || job_is(said, second))
        return job_is(said, second);
    if (job_is_capital(said, first) || job_is_capital(said, second))
        job_stop_at(said, small);
    job_stop(word->place, wants);
    return 0;
}

/* Room for all names of a text, each with a zero after it. */
static char job_names[2 * JOB_INPUT_MAX];
static size_t job_names_length = 0;

/* A comment as a name: without blanks at its ends, at most that many characters;
   NULL where nothing is left of it. */
static const char *job_comment_name(const char *text, size_t length)
{
    char *name = job_names + job_names_length;
    size_t kept = 0, characters = 0;
    for (size_t i = 0; i < length && characters < JOB_NAME_MAX;) {
        const size_t bytes = job_character(text + i, length - i);
        const int control = job_is_control(text + i);
        if (characters > 0 || (!control && text[i] != ' ')) {
            memcpy(name + kept, control ? " " : text + i, control ? 1 : bytes);
            kept += control ? 1 : bytes;
            characters++;
        }
        i += bytes;
    }
    while (kept > 0 && name[kept - 1] == ' ')
        kept--;
    name[kept] = '\0';
    job_names_length += kept + 1;
    return kept == 0 ? NULL : name;
}

static const char *job_read_name(const struct job_word *word)
{
    const size_t characters = job_characters(word->at, word->length);
    char *name = job_names + job_names_length;
    if (characters < 1 || characters > JOB_NAME_MAX)
        job_stop(word->place, "a name has 1 to 60 characters");
    for (size_t i = 0; i < word->length; i++)
        if (job_is_control(word->at + i))
            job_stop(word->place, "a name has no control characters");
    memcpy(name, word->at, word->length);
    name[word->length] = '\0';
    job_names_length += word->length + 1;
    return name;
}

/* A hazard without a name in quotes has its comment as its name. */
static void job_read_hazard(const struct job_line *line)
{
    static const enum job_unit units[JOB_HAZARD_NUMBERS] = {JOB_NUMBER, JOB_STATION, JOB_STATION,
                                                            JOB_LENGTH, JOB_LENGTH,  JOB_NUMBER};
    const struct job_word *words = line->words;
    struct job_hazard *hazard = &job.hazards[job.count++];
    uint64_t *const numbers[JOB_HAZARD_NUMBERS] = {
        &hazard->numbers.side,        &hazard->numbers.start,      &hazard->numbers.end,
        &hazard->numbers.near_offset, &hazard->numbers.far_offset, &hazard->numbers.level};
    const int named = line->count == 2 + JOB_HAZARD_NUMBERS && words[1 + JOB_HAZARD_NUMBERS].quoted;
    int fits = line->count == 1 + JOB_HAZARD_NUMBERS || named;
    for (size_t i = 1; fits && i <= JOB_HAZARD_NUMBERS; i++)
        fits = !words[i].quoted;
    if (!fits)
        job_stop(words[0].place,
                 "a hazard is side, first, end, near, far, level, and a name in quotes if wanted");
    for (size_t i = 0; i < JOB_HAZARD_NUMBERS; i++)
        *numbers[i] = i == 0 ? job_side(&words[1]) : job_number(&words[1 + i], units[i]);
    hazard->first = words[2].place;
    hazard->end = words[3].place;
    hazard->name = named ? job_read_name(&words[1 + JOB_HAZARD_NUMBERS])
                         : job_comment_name(line->comment, line->comment_length);
}

static void job_stop_field(const struct job_word *word)
{
    int known = job_is_capital(word, "hazard") || job_is_capital(word, "drives") ||
                job_is_capital(word, "stations");
    for (size_t i = 0; i < JOB_FIELDS; i++)
        known = known || job_is_capital(word, job_fields[i].name);
    job_stop_at(word, known && !word->quoted ? "write it in small letters" : "no such field");
}

static const struct job_field *job_field_of(const struct job_word *word)
{
    for (size_t i = 0; i < JOB_FIELDS; i++)
        if (job_is(word, job_fields[i].name))
            return &job_fields[i];
    return NULL;
}

static void job_read_words(const struct job_line *line)
{
    const struct job_word *word = &line->words[0];
    const struct job_field *field = job_field_of(word);
    const int drives = job_is(word, "drives"), stations = job_is(word, "stations");
    if (!word->quoted && job_is(word, "hazard")) {
        job_read_hazard(line);
        return;
    }
    if (word->quoted || (field == NULL && !drives && !stations))
        job_stop_field(word);
    for (size_t i = 1; i < line->count && i < JOB_WORDS_MAX; i++)
        if (line->words[i].quoted)
            job_stop(line->words[i].place, "only a hazard has a name");
    if (drives)
        job.drives_left = job_read_choice(line, &job.drives, "right", "left",
                                          "drives wants right or left",
                                          "write right or left in small letters");
    else if (stations)
        job.stations_fall = job_read_choice(line, &job.stations, "rise", "fall",
                                            "stations wants rise or fall",
                                            "write rise or fall in small letters");
    else
        job_read_field(field, line);
}

/* ---- A text ---- */

/* The numbers that may be left out, and those that may not. */
static void job_complete(size_t lines)
{
    const struct job_place end = {lines, 1};
    if (!job.given[JOB_KIND])
        job.header[JOB_KIND] = job.given[JOB_PANEL] ? 2 : 1;
    if (!job.given[JOB_COUNT])
        job.header[JOB_COUNT] = job.count;
    job.given[JOB_KIND] = job.given[JOB_COUNT] = 1;
    for (size_t i = 0; i < JOB_FIELDS; i++)
        if (job_fields[i].number != JOB_PANEL && !job.given[job_fields[i].number])
            job_stop_word(end, "the text ends without the field", job_fields[i].name,
                          strlen(job_fields[i].name));
}

/* What cannot be turned round: a two-way road, and a hazard off the road. */
static void job_test_turning(void)
{
    const uint64_t begin = job.header[JOB_BEGIN], end = job.header[JOB_END];
    if (!job.stations_fall)
        return;
    if (job.header[JOB_OPPOSITE] != 0)
        job_stop(job.stations, "stations fall is for one-way and separated carriageways: "
                               "runout-opposite has to be 0");
    for (size_t i = 0; i < job.count; i++) {
        const barrier_hazard *hazard = &job.hazards[i].numbers;
        if (hazard->start < begin || hazard->start > end)
            job_stop(job.hazards[i].first, "where stations fall a hazard has to lie on the road");
        if (hazard->end < begin || hazard->end > end)
            job_stop(job.hazards[i].end, "where stations fall a hazard has to lie on the road");
    }
}

/* The side of the road that the engine's is, and the other way round. */
static inline uint64_t job_real_side(uint64_t side)
{
    return job.stations_fall != job.drives_left ? barrier_help_swap_side(side) : side;
}

/* A hazard as the engine takes it, from one of the road; and back. */
static barrier_hazard job_turned(barrier_hazard hazard)
{
    if (job.stations_fall)
        hazard = barrier_help_turn_hazard(job.header[JOB_BEGIN], job.header[JOB_END], hazard);
    if (job.drives_left)
        hazard.side = barrier_help_swap_side(hazard.side);
    return hazard;
}

static void job_put(uint64_t number)
{
    job.length += barrier_help_put_number(number, job.bytes + job.length,
                                          sizeof job.bytes - job.length);
}

/* Number by number and not with barrier_help_write_job: a text may ask for a
   hazard count or a kind that does not fit the rest. */
static void job_encode(void)
{
    for (size_t number = 1; number <= BARRIER_HELP_HEADER_NUMBERS; number++)
        if (job.given[number])
            job_put(job.header[number]);
    for (size_t i = 0; i < job.count; i++) {
        const barrier_hazard hazard = job_turned(job.hazards[i].numbers);
        job_put(hazard.side);
        job_put(hazard.start);
        job_put(hazard.end);
        job_put(hazard.near_offset);
        job_put(hazard.far_offset);
        job_put(hazard.level);
    }
}

/* Where the first byte is that is not UTF-8, or else a zero byte. */
static void job_test_encoding(const char *text, size_t length)
{
    for (int zeros = 0; zeros <= 1; zeros++) {
        struct job_place place = {1, 1};
        for (size_t i = 0; i < length;) {
            const size_t bytes = zeros ? 1 : job_character(text + i, length - i);
            if (bytes == 0)
                job_stop(place, "this is not UTF-8; save it as UTF-8");
            if (zeros && text[i] == '\0')
                job_stop(place, "a zero byte is no text");
            if (text[i] == '\n') {
                place.line++;
                place.column = 1;
            } else {
                place.column += job_characters(text + i, bytes);
            }
            i += bytes;
        }
    }
}

static void job_read_text(const char *text, size_t length)
{
    static struct job_line line;
    size_t number = 1, start = 0;
    if (length >= 3 && memcmp(text, "\xEF\xBB\xBF", 3) == 0) {
        text += 3;
        length -= 3;
    }
    job_test_encoding(text, length);
    for (size_t i = 0; i <= length; i++) {
        if (i < length && text[i] != '\n')
            continue;
        job_cut(text + start, i - start, number, &line);
        if (line.count > 0)
            job_read_words(&line);
        start = i + 1;
        if (i < length)
            number++;
    }
    job_complete(number);
    job_test_turning();
    job_encode();
    job.from_text = 1;
}

/* ---- Input and output ---- */

/* Opens the job; the path is NULL or - for standard input. */
static FILE *job_open(const char *path)
{
    if (path == NULL || strcmp(path, "-") == 0)
        return stdin;
    return fopen(path, "rb");
}

static void job_stop_file(const char *path, const char *what)
{
    const char *shown = path == NULL || strcmp(path, "-") == 0 ? "standard input" : path;
    fprintf(stderr, "%s: ", job_tool);
    job_show(shown, strlen(shown), JOB_PATH_MAX);
    fprintf(stderr, " %s\n", what);
    exit(2);
}

/* A job's own file is not written over, whatever name or link it has. */
static void job_spare(FILE *input, const char *path)
{
    struct stat in, out;
    if (fstat(fileno(input), &in) == 0 && fstat(fileno(stdout), &out) == 0 && S_ISREG(in.st_mode) &&
        in.st_dev == out.st_dev && in.st_ino == out.st_ino)
        job_stop_file(path, "is the job itself and is not written over");
}

static char job_input[JOB_INPUT_MAX + 1];

/* All of the input, as it is. */
static size_t job_read_input(const char *path)
{
    FILE *input = job_open(path);
    size_t length = 0;
    if (input == NULL)
        job_stop_file(path, "cannot be read");
    else {
        job_spare(input, path);
        length = fread(job_input, 1, sizeof job_input, input);
        /* Bytes that were cut off are not the job. */
        if (ferror(input))
            job_stop_file(path, "cannot be read");
        if (input != stdin)
            fclose(input);
    }
    if (length > JOB_INPUT_MAX)
        job_stop_whole("the input is longer than 1048576 bytes");
    return length;
}

/* A job's bytes begin with its kind, 1 or 2, and no text does. */
static int job_are_bytes(size_t length)
{
    return length > 0 && (job_input[0] == 1 || job_input[0] == 2);
}

static void job_test_utf16(size_t length)
{
    const struct job_place begin = {1, 1};
    if (length >= 2 &&
        (memcmp(job_input, "\xFF\xFE", 2) == 0 || memcmp(job_input, "\xFE\xFF", 2) == 0 ||
         (job_input[0] == '\0') != (job_input[1] == '\0')))
        job_stop(begin, "this is UTF-16; save it as UTF-8");
}

/* Reads a job as text; the program ends where it is not one. */
static inline void job_from_text(const char *path)
{
    const size_t length = job_read_input(path);
    if (length == 0)
        job_stop_whole("the input is empty");
    if (job_are_bytes(length))
        job_stop_whole("these are a job's bytes, not its text");
    job_test_utf16(length);
    job_read_text(job_input, length);
}

/* Reads a job in either form; the engine judges what the bytes are. */
static inline void job_from_either(const char *path)
{
    const size_t length = job_read_input(path);
    if (length == 0)
        job_stop_whole("the input is empty");
    if (job_are_bytes(length)) {
        memcpy(job.bytes, job_input, length);
        job.length = length;
        return;
    }
    job_test_utf16(length);
    if ((unsigned char)job_input[0] < 0x20 && memchr("\t\n\r", job_input[0], 3) == NULL)
        job_stop_whole("neither a job in bytes nor text");
    job_read_text(job_input, length);
}

/* ---- What the engine says of it ---- */

/* The header as the engine has it, and a job's hazards where it came in bytes;
   0 where they cannot be read. */
static inline int job_know(barrier_help_header *header)
{
    static barrier_hazard hazards[BARRIER_HAZARDS_MAX];
    size_t count;
    if (barrier_help_read_job(job.bytes, job.length, header, hazards, BARRIER_HAZARDS_MAX,
                              &count) != BARRIER_HELP_OK)
        return 0;
    for (job.count = 0; !job.from_text && job.count < count; job.count++)
        job.hazards[job.count].numbers = hazards[job.count];
    job.count = count;
    return 1;
}

/* Refusals 4 and 5 have a hazard's index: which of its numbers it is, and what
   the text calls it. */
static inline void job_say_hazard(uint64_t index, int range)
{
    barrier_help_header header;
    size_t place = BARRIER_HELP_HAZARD_NUMBERS;
    if (!job_know(&header) || index >= job.count)
        return;
    const struct job_hazard *hazard = &job.hazards[index];
    if (range)
        place = barrier_help_hazard_fault(header.begin, header.end, &hazard->numbers);
    if (place < BARRIER_HELP_HAZARD_NUMBERS)
        fprintf(stderr, " %s of hazard %" PRIu64 " may be %s\n", barrier_help_hazard_name(place),
                index, barrier_help_hazard_range(place));
    if (job.from_text && hazard->name != NULL)
        fprintf(stderr, " hazard %" PRIu64 " is %s, line %zu\n", index, hazard->name,
                hazard->first.line);
    else if (job.from_text)
        fprintf(stderr, " hazard %" PRIu64 " is in line %zu\n", index, hazard->first.line);
}

/* Says a refusal and what can be done about it; the status for it. */
static inline int job_refused(enum barrier_help_call call, uint64_t number, uint64_t value)
{
    char words[BARRIER_HELP_TEXT_MAX], remedy[BARRIER_HELP_TEXT_MAX];
    barrier_help_refusal(call, number, value, words, sizeof words);
    barrier_help_remedy(call, number, value, remedy, sizeof remedy);
    fprintf(stderr, "%s: the job is refused %" PRIu64 " with %" PRIu64 ": %s\n %s\n", job_tool,
            number, value, words, remedy);
    if (number == BARRIER_HAZARD_RANGE || number == BARRIER_HAZARD_NEAR)
        job_say_hazard(value, number == BARRIER_HAZARD_RANGE);
    return 1;
}

/* Ends the work: 2 where what was written did not arrive, else the status. */
static int job_written(int status)
{
    if (fflush(stdout) != 0 || ferror(stdout)) {
        fprintf(stderr, "%s: standard output cannot be written\n", job_tool);
        return 2;
    }
    return status;
}

#endif
