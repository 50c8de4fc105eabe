/* What the examples in C share: loading a desk file, storing one, and what goes to standard error. */
#ifndef DESK_H
#define DESK_H

#include <stdio.h>
#include "vepsjalm.h"

#define MONTHS VEPSJALM_MOST_MONTHS
#define FAILED 100 /* the exit status for wrong use, or where the system fails to read or write: no refusal has this number */

/* A byte more than the longest desk file of either form, so that a longer one is seen to be too long. */
static uint8_t file[VEPSJALM_LONGEST_COLUMNS + 1];

/* Says what failed (a file's name, or standard output) and why; returns the exit status. */
static int failed(const char *what)
{
    perror(what);
    return FAILED;
}

/* Says the refusal; returns the exit status. */
static int refused(uint8_t number, size_t place)
{
    fprintf(stderr, "refused %d %zu: %s\n", number, place, vepsjalm_refusal_text(number));
    return number;
}

/* Reads the file's bytes into `file` and sets their number; returns 0, or the exit status if that failed. */
static int load(const char *name, size_t *size)
{
    FILE *stream = fopen(name, "rb");
    if (stream == NULL)
        return failed(name);
    *size = fread(file, 1, sizeof file, stream);
    int status = ferror(stream) ? failed(name) : 0;
    fclose(stream); /* after reading nothing is lost if this fails */
    return status;
}

/* Writes bytes to a new file, and removes it again if that fails; returns 0, or the exit status. */
static inline int store(const char *name, const uint8_t *bytes, size_t size)
{
    FILE *stream = fopen(name, "wbx"); /* x, of C11: fails where there is such a file */
    if (stream == NULL)
        return failed(name);
    int status = fwrite(bytes, 1, size, stream) == size ? 0 : failed(name);
    if (fclose(stream) != 0 && status == 0)
        status = failed(name);
    if (status != 0)
        remove(name);
    return status;
}

#endif
