/* Reads a desk file and writes another: the same series with its final weights, the C17 of decomposing it. The weights of the file that is
   read are checked and not used. In the repository's folder, IN.desk first and OUT.desk second:

       tools/build
       cc -std=c11 -Wall -Wextra -Wpedantic -Werror -O2 -I include -o target/final-weights examples/final-weights.c target/staticlib/libvepsjalm.a
       target/final-weights examples/production.desk target/production-final.desk

   OUT.desk is a new file: where there is one of that name, it stays as it is and nothing is written. A refusal makes no file; it goes to
   standard error with its number, place and text, and its number is the exit status. The exit status is 100 if the two names are not given,
   or if reading or writing fails; if writing fails, OUT.desk is removed again. */
#include <stdio.h>
#include "desk.h"
#include "vepsjalm.h"

static int32_t figures[MONTHS];
static uint16_t weights[MONTHS], b17[MONTHS], c17[MONTHS];
static int64_t d10[MONTHS], d11[MONTHS], d12[MONTHS], d13[MONTHS], scratch[VEPSJALM_SCRATCH_FOR(MONTHS)];
static uint8_t out[VEPSJALM_LONGEST_FILE];

static const struct vepsjalm_slices slices = {
    .d10 = d10, .d11 = d11, .d12 = d12, .d13 = d13, .b17 = b17, .c17 = c17,
    .scratch = scratch, .scratch_length = VEPSJALM_SCRATCH_FOR(MONTHS),
};

int main(int arguments, char **words)
{
    if (arguments != 3) {
        fprintf(stderr, "usage: final-weights IN.desk OUT.desk\n");
        return FAILED;
    }
    size_t size, n, place;
    int status = load(words[1], &size);
    if (status != 0)
        return status;
    uint8_t start;
    uint8_t number = vepsjalm_read(file, size, figures, MONTHS, weights, MONTHS, &n, &start, &place);
    if (number == VEPSJALM_SUCCESS)
        number = vepsjalm_decompose_into(figures, n, start, &slices, &place);
    if (number == VEPSJALM_SUCCESS)
        number = vepsjalm_write(figures, n, start, c17, n, out, sizeof out, &size, &place);
    return number == VEPSJALM_SUCCESS ? store(words[2], out, size) : refused(number, place);
}
