/* How long vs_check takes on an image, for tools/check-time: the best of so many checks, in microseconds.
 *
 *   check_time IMAGE CHECKS
 */
#define _XOPEN_SOURCE 700
#include <stdio.h>
#include <stdlib.h>
#include <time.h>

#include "varstore.h"

static uint8_t image[VS_LARGEST_IMAGE];

static double now(void)
{
    struct timespec t;
    clock_gettime(CLOCK_MONOTONIC, &t);
    return 1e6 * (double)t.tv_sec + 1e-3 * (double)t.tv_nsec;
}

int main(int count, char **words)
{
    FILE *file = count == 3 ? fopen(words[1], "rb") : NULL;
    if (!file) {
        fprintf(stderr, "check_time IMAGE CHECKS\n");
        return 2;
    }
    size_t size = fread(image, 1, sizeof image, file);
    fclose(file);
    double best = 1e9;
    for (int left = atoi(words[2]); left > 0; left--) {
        double begin = now();
        vs_checked checked = vs_check(image, size);
        double time = now() - begin;
        if (checked.answer.kind != VS_DONE) {
            fprintf(stderr, "check_time: refused, rule %u\n", (unsigned)checked.answer.rule);
            return 1;
        }
        if (time < best)
            best = time;
    }
    printf("%.3f\n", best);
    return 0;
}
