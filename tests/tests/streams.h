/* Put before an example by callers.rs: its exit status is 99 if it leaves a file open. */
#include <stdio.h>
#include <stdlib.h>

static int open_streams;

static void count_streams(void)
{
    if (open_streams != 0)
        _Exit(99);
}

static FILE *counted_fopen(const char *name, const char *mode)
{
    FILE *stream = fopen(name, mode);
    if (stream != NULL && open_streams++ == 0)
        atexit(count_streams);
    return stream;
}

static int counted_fclose(FILE *stream)
{
    open_streams--;
    return fclose(stream);
}

#define fopen counted_fopen
#define fclose counted_fclose
