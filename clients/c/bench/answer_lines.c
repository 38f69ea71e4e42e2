/* How many lines of a script the library answers in a second of a processor.

   usage: answer_lines TIMES < SCRIPT

   The script is answered in a new world that many times, and the best time counts. */
#include <stdio.h>
#include <stdlib.h>
#include <string.h>
#include <time.h>
#include <unistd.h>
#include <weblocks.h>

static uint8_t script[1 << 28];

static double now(void) {
    struct timespec it;
    clock_gettime(CLOCK_PROCESS_CPUTIME_ID, &it);
    return (double)it.tv_sec + (double)it.tv_nsec / 1e9;
}

int main(int count, char **words) {
    static const uint8_t seed[16];
    const uint8_t *reply;
    size_t size = 0, length, lines = 0, bytes = 0;
    double best = 0;
    ssize_t n;
    if (count != 2)
        return 2;
    while ((n = read(0, script + size, sizeof script - size)) > 0)
        size += (size_t)n;
    for (int times = atoi(words[1]); times > 0; times--) {
        weblocks *world;
        double begun = now(), took;
        if (weblocks_new(seed, 0, &world))
            return 1;
        lines = bytes = 0;
        for (size_t at = 0; at < size; lines++) {
            const uint8_t *lf = memchr(script + at, '\n', size - at);
            size_t line = lf ? (size_t)(lf - script) - at : size - at;
            if (weblocks_answer(world, script + at, line, &reply, &length))
                return 1;
            bytes += length;
            at += line + 1;
        }
        took = now() - begun;
        weblocks_free(world);
        best = best == 0 || took < best ? took : best;
    }
    printf("%zu lines, %zu bytes of replies, %.3f s: %.0f lines a second\n", lines, bytes, best, (double)lines / best);
    return 0;
}
