/* Moves a desk file from one form to the other. With a first year IN is a plain file, and OUT the same by calendar month; without one IN is by
   calendar month and OUT plain, and the first year is printed. In the repository's folder:

       tools/build
       cc -std=c11 -Wall -Wextra -Wpedantic -Werror -O2 -I include -o target/columns examples/columns.c target/staticlib/libvepsjalm.a
       target/columns examples/production.desk target/production-moved.columns 1985
       target/columns target/production-moved.columns target/production-again.desk

   OUT is a new file: where there is one of that name, it stays as it is and nothing is written. A refusal makes no file; it goes to standard
   error with its number, place and text, and its number is the exit status. The exit status is 100 for wrong use, or if reading, writing or
   printing fails; if writing or printing fails, OUT is removed again. */
#include <stdio.h>
#include <stdlib.h>
#include "desk.h"
#include "vepsjalm.h"

static uint8_t out[VEPSJALM_LONGEST_COLUMNS];

static int wrong_use(void)
{
    fprintf(stderr, "usage: columns PLAIN OUT YEAR, or columns BY-MONTH OUT\n");
    return FAILED;
}

/* A number as a first year. One that 16 bits do not hold would be cut to another: the nearest is taken, which is refused as it should be. */
static uint16_t first_year_of(long number)
{
    if (number < 0)
        return 0;
    return number > UINT16_MAX ? UINT16_MAX : (uint16_t)number;
}

/* From `file`, which is plain; returns the exit status. */
static int forward(size_t size, const char *year, const char *name)
{
    char *end;
    long number_of_year = strtol(year, &end, 10);
    if (end == year || *end != '\0')
        return wrong_use();
    size_t place;
    uint8_t number = vepsjalm_to_columns(file, size, first_year_of(number_of_year), out, sizeof out, &size, &place);
    return number == VEPSJALM_SUCCESS ? store(name, out, size) : refused(number, place);
}

/* From `file`, which is by calendar month; returns the exit status. */
static int back(size_t size, const char *name)
{
    size_t place;
    uint16_t first_year;
    uint8_t number = vepsjalm_from_columns(file, size, out, sizeof out, &size, &first_year, &place);
    if (number != VEPSJALM_SUCCESS)
        return refused(number, place);
    int status = store(name, out, size);
    if (status != 0)
        return status;
    printf("first year %u\n", (unsigned)first_year);
    if (fflush(stdout) != 0 || ferror(stdout)) {
        status = failed("standard output");
        remove(name);
    }
    return status;
}

int main(int arguments, char **words)
{
    if (arguments != 3 && arguments != 4)
        return wrong_use();
    size_t size;
    int status = load(words[1], &size);
    if (status != 0)
        return status;
    return arguments == 4 ? forward(size, words[3], words[2]) : back(size, words[2]);
}
