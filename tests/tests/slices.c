/* Decomposes every series of standard input, which come as `n start scratch_length` and n figures, by the plain call and by the call with a
   struct, on slices that hold the same before. Prints a line for each series: number and place of both answers, whether all slices are
   alike afterwards, to the last entry lent and beyond, how many entries at the front of the scratch are zero, and whether all others still
   hold their marks. callers.rs builds it as C and as C++. */
#include <inttypes.h>
#include <stdio.h>
#include <string.h>
#include "vepsjalm.h"

#define ROOM 700                /* more than the longest series */
#define SCRATCH_ROOM (9 * ROOM) /* more than the longest scratch */

struct space {
    int64_t d10[ROOM], d11[ROOM], d12[ROOM], d13[ROOM], scratch[SCRATCH_ROOM];
    uint16_t b17[ROOM], c17[ROOM];
};

static struct space plain, by_struct;
static int32_t figures[ROOM];

/* Each entry of the scratch has a mark of its own. */
static int64_t mark(size_t entry)
{
    return 77000000000 + (int64_t)entry;
}

static void prepare(struct space *space)
{
    memset(space, 0x5a, sizeof *space);
    for (size_t entry = 0; entry < SCRATCH_ROOM; entry++)
        space->scratch[entry] = mark(entry);
}

static size_t zeros_in_front(const int64_t *scratch)
{
    size_t zeros = 0;
    while (zeros < SCRATCH_ROOM && scratch[zeros] == 0)
        zeros++;
    return zeros;
}

static int are_marked(const int64_t *scratch, size_t from)
{
    for (size_t entry = from; entry < SCRATCH_ROOM; entry++)
        if (scratch[entry] != mark(entry))
            return 0;
    return 1;
}

static void try_both(size_t n, uint8_t start, size_t scratch_length)
{
    prepare(&plain);
    prepare(&by_struct);
    size_t places[2] = {SIZE_MAX, SIZE_MAX};
    int plain_number = vepsjalm_decompose(
        figures, n, start, plain.d10, n, plain.d11, n, plain.d12, n, plain.d13, n, plain.b17, n, plain.c17, n,
        plain.scratch, scratch_length, &places[0]);
    struct vepsjalm_slices slices;
    slices.d10 = by_struct.d10;
    slices.d11 = by_struct.d11;
    slices.d12 = by_struct.d12;
    slices.d13 = by_struct.d13;
    slices.b17 = by_struct.b17;
    slices.c17 = by_struct.c17;
    slices.scratch = by_struct.scratch;
    slices.scratch_length = scratch_length;
    int number = vepsjalm_decompose_into(figures, n, start, &slices, &places[1]);
    const char *verdict = memcmp(&plain, &by_struct, sizeof plain) == 0 ? "alike" : "different";
    size_t zeros = zeros_in_front(plain.scratch);
    const char *rest = are_marked(plain.scratch, zeros) ? "the rest marked" : "the rest changed";
    printf("%d %zu, %d %zu, %s, %zu zero, %s\n", plain_number, places[0], number, places[1], verdict, zeros, rest);
}

int main(void)
{
    size_t n, scratch_length;
    unsigned start;
    while (scanf("%zu %u %zu", &n, &start, &scratch_length) == 3) {
        if (n > ROOM || scratch_length > SCRATCH_ROOM)
            return 100;
        for (size_t t = 0; t < n; t++)
            if (scanf("%" SCNd32, &figures[t]) != 1)
                return 100;
        try_both(n, (uint8_t)start, scratch_length);
    }
    return 0;
}
