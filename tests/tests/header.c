/* Prints the constants of the header by name, macros with an argument in a quotient too, and the text of every refusal's number. Then it takes
   the plain desk file named on the command line, and the first year that follows, through the functions for both forms: reading and writing it
   again, writing its series by calendar month and reading that, moving the file forward and back. It reads a members' sheet of the series too,
   every other month revised from 1 to its figure. It prints the answers, and then the bytes of the four files made, in this order. callers.rs
   builds it as C and as C++. */
#include <inttypes.h>
#include <stdio.h>
#include <stdlib.h>
#include <string.h>
#include "vepsjalm.h"

#define SHOW(constant) printf("%s %ld\n", #constant, (long)(constant))

/* A macro with an argument: its value, and a million divided by it as it stands, which shows whether its outer parentheses are there. */
#define SHOW_LENGTH(macro) printf("%s %ld %ld\n", #macro, (long)(macro), (long)(1000000 / macro))

struct series {
    int32_t figures[VEPSJALM_MOST_MONTHS];
    uint16_t weights[VEPSJALM_MOST_MONTHS], first_year;
    size_t count;
    uint8_t start;
};

/* Bytes, with room for the longest file of either form. */
struct bytes {
    uint8_t of[VEPSJALM_LONGEST_COLUMNS];
    size_t size;
};

static struct series plain, by_month;
static struct bytes file, again, columns, forward, back;

static void show_constants(void)
{
    printf("VEPSJALM_VERSION %s\n", VEPSJALM_VERSION);
    SHOW(VEPSJALM_VERSION_MAJOR);
    SHOW(VEPSJALM_VERSION_MINOR);
    SHOW(VEPSJALM_VERSION_PATCH);
    SHOW(VEPSJALM_LEAST_MONTHS);
    SHOW(VEPSJALM_MOST_MONTHS);
    SHOW(VEPSJALM_YEAR);
    SHOW(VEPSJALM_LARGEST_FIGURE);
    SHOW(VEPSJALM_UNIT);
    SHOW(VEPSJALM_FULL_WEIGHT);
    SHOW(VEPSJALM_EARLIEST_YEAR);
    SHOW(VEPSJALM_LATEST_YEAR);
    SHOW_LENGTH(VEPSJALM_SCRATCH_FOR(71 + 1));
    SHOW_LENGTH(VEPSJALM_FILE_LENGTH(71 + 1));
    SHOW(VEPSJALM_LONGEST_FILE);
    SHOW_LENGTH(VEPSJALM_COLUMNS_LENGTH(71 + 1));
    SHOW(VEPSJALM_LONGEST_COLUMNS);
    SHOW_LENGTH(VEPSJALM_SHEET_LENGTH(71 + 1));
    SHOW(VEPSJALM_LONGEST_SHEET);
    SHOW(VEPSJALM_KIND_GAP);
    SHOW(VEPSJALM_KIND_FIGURE);
    SHOW(VEPSJALM_KIND_REVISION);
}

static void show_refusals(void)
{
    SHOW(VEPSJALM_SUCCESS);
    SHOW(VEPSJALM_TOO_SHORT);
    SHOW(VEPSJALM_TOO_LONG);
    SHOW(VEPSJALM_BAD_START);
    SHOW(VEPSJALM_WRONG_LENGTH);
    SHOW(VEPSJALM_FIGURE_OUTSIDE);
    SHOW(VEPSJALM_NO_HEADER);
    SHOW(VEPSJALM_BAD_PERIOD);
    SHOW(VEPSJALM_BAD_FILE_LENGTH);
    SHOW(VEPSJALM_WEIGHT_ABOVE);
    SHOW(VEPSJALM_BAD_YEARS);
    SHOW(VEPSJALM_MALFORMED_CELL);
    SHOW(VEPSJALM_GAP);
    SHOW(VEPSJALM_BAD_DOUBLE);
    for (int number = 0; number <= UINT8_MAX; number++)
        printf("%d %s\n", number, vepsjalm_refusal_text((uint8_t)number));
}

/* The plain form: `file` read, and written to `again`. */
static void through_plain(struct series *s)
{
    size_t place;
    int number = vepsjalm_read(
        file.of, file.size, s->figures, VEPSJALM_MOST_MONTHS, s->weights, VEPSJALM_MOST_MONTHS, &s->count, &s->start, &place);
    printf("read %d %zu %d %zu\n", number, s->count, s->start, place);
    number = vepsjalm_write(s->figures, s->count, s->start, s->weights, s->count, again.of, VEPSJALM_LONGEST_FILE, &again.size, &place);
    printf("write %d %zu %zu\n", number, again.size, place);
}

/* By calendar month: the series of `from` written to `columns`, which is read into `to`. */
static void through_columns(const struct series *from, struct series *to)
{
    size_t place;
    int number = vepsjalm_write_columns(
        from->figures, from->count, from->start, from->first_year, from->weights, from->count, columns.of, VEPSJALM_LONGEST_COLUMNS,
        &columns.size, &place);
    printf("write_columns %d %zu %zu\n", number, columns.size, place);
    number = vepsjalm_read_columns(
        columns.of, columns.size, to->figures, VEPSJALM_MOST_MONTHS, to->weights, VEPSJALM_MOST_MONTHS, &to->count, &to->start,
        &to->first_year, &place);
    printf("read_columns %d %zu %d %d %zu\n", number, to->count, to->start, to->first_year, place);
    int unlike = 0;
    for (size_t t = 0; t < to->count; t++)
        unlike += to->figures[t] != from->figures[t] || to->weights[t] != from->weights[t];
    printf("unlike %d\n", unlike);
}

/* `file` moved to `forward`, and that to `back`. */
static void there_and_back(uint16_t first_year)
{
    size_t place;
    int number = vepsjalm_to_columns(file.of, file.size, first_year, forward.of, VEPSJALM_LONGEST_COLUMNS, &forward.size, &place);
    printf("to_columns %d %zu %zu\n", number, forward.size, place);
    uint16_t told = UINT16_MAX;
    number = vepsjalm_from_columns(forward.of, forward.size, back.of, VEPSJALM_LONGEST_FILE, &back.size, &told, &place);
    printf("from_columns %d %zu %d %zu\n", number, back.size, told, place);
}

/* The months of a series as a members' sheet, read into `to`. A double is stored as it stands in memory, low byte first here. */
static void through_sheet(const struct series *from, struct series *to)
{
    static uint8_t sheet[VEPSJALM_LONGEST_SHEET];
    size_t n = from->count, place;
    sheet[0] = (uint8_t)(n % 256);
    sheet[1] = (uint8_t)(n / 256);
    sheet[2] = from->start;
    for (size_t t = 0; t < n; t++) {
        int revised = t % 2 == 1;
        double cell[2] = {revised ? 1 : (double)from->figures[t], revised ? (double)from->figures[t] : 0};
        sheet[3 + t] = revised ? VEPSJALM_KIND_REVISION : VEPSJALM_KIND_FIGURE;
        memcpy(sheet + 3 + n + 16 * t, cell, sizeof cell);
    }
    double revision = -1;
    int number = vepsjalm_read_sheet(
        sheet, (size_t)VEPSJALM_SHEET_LENGTH(n), to->figures, VEPSJALM_MOST_MONTHS, &to->count, &to->start, &revision, &place);
    printf("read_sheet %d %zu %d %.0f %zu\n", number, to->count, to->start, revision, place);
    int unlike = 0;
    for (size_t t = 0; t < to->count; t++)
        unlike += to->figures[t] != from->figures[t];
    printf("unlike %d\n", unlike);
}

static void show_bytes(const struct bytes *bytes)
{
    fwrite(bytes->of, 1, bytes->size, stdout);
}

int main(int arguments, char **words)
{
    show_constants();
    show_refusals();
    FILE *stream = arguments > 2 ? fopen(words[1], "rb") : NULL;
    if (stream == NULL)
        return 100;
    file.size = fread(file.of, 1, sizeof file.of, stream);
    fclose(stream);
    plain.first_year = (uint16_t)atoi(words[2]);
    by_month.first_year = UINT16_MAX;
    through_plain(&plain);
    through_columns(&plain, &by_month);
    there_and_back(plain.first_year);
    through_sheet(&plain, &by_month);
    show_bytes(&again);
    show_bytes(&columns);
    show_bytes(&forward);
    show_bytes(&back);
    return 0;
}
