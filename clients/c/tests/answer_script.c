/* Answers a script through the library, as `weblocks run` does, or audits it, as `weblocks audit` does.

   usage: answer_script run|audit < SCRIPT

   A last line without LF is a line, and the reply to each line ends in LF. The seed is fixed. Where want of memory spends
   the world, all later calls must say so, and the status is 3; it is 1 for any other code. It takes no memory of its own,
   so that each growth is the library's; with EXACT, each line stands in a block of just its size, so that tools see a read
   past its end. */
#include <stdlib.h>
#include <string.h>
#include <unistd.h>
#include <weblocks.h>

static const uint8_t SEED[16] = "a seed of a test";
static uint8_t script[1 << 26], out[1 << 26];
static size_t written;

static int fail(const char *call, int code) {
    const char digit = (char)('0' + code);
    (void)!write(2, call, strlen(call));
    (void)!write(2, " answered the code ", 19);
    (void)!write(2, &digit, 1);
    (void)!write(2, "\n", 1);
    return 1;
}

static void put(const void *bytes, size_t size) {
    memcpy(out + written, bytes, size);
    written += size;
}

/* Writes what was put, and answers the status. */
static int end(int status) {
    for (size_t at = 0; at < written;) {
        ssize_t n = write(1, out + at, written - at);
        if (n <= 0)
            return 2;
        at += (size_t)n;
    }
    return status;
}

/* A spent world answers nothing but that it is. */
static int end_spent(weblocks *world) {
    const uint8_t *reply = 0;
    size_t length = 7;
    int code = weblocks_answer(world, SEED, sizeof SEED, &reply, &length);
    if (code != WEBLOCKS_SPENT || reply || length != 7)
        return fail("weblocks_answer, of a spent world,", code);
    if ((code = weblocks_audit(world, &reply, &length)) != WEBLOCKS_SPENT || reply || length != 7)
        return fail("weblocks_audit, of a spent world,", code);
    weblocks_free(world);
    return end(3);
}

static int answer(weblocks *world, const uint8_t *line, size_t size, int writes) {
    const uint8_t *reply;
    size_t length;
    int code;
#ifdef EXACT
    uint8_t *exact = malloc(size ? size : 1);
    line = exact ? memcpy(exact, line, size) : line;
#endif
    code = weblocks_answer(world, line, size, &reply, &length);
#ifdef EXACT
    free(exact);
#endif
    if (!code && writes) {
        put(reply, length);
        put("\n", 1);
    }
    return code;
}

static int answer_lines(weblocks *world, size_t size, int writes) {
    int code = 0;
    for (size_t at = 0; !code && at < size;) {
        const uint8_t *lf = memchr(script + at, '\n', size - at);
        size_t length = lf ? (size_t)(lf - script) - at : size - at;
        code = answer(world, script + at, length, writes);
        at += length + 1;
    }
    return code;
}

int main(int count, char **words) {
    weblocks *world = 0;
    const uint8_t *text;
    size_t size = 0, length;
    ssize_t n;
    int audits = count == 2 && !strcmp(words[1], "audit"), code;
    while ((n = read(0, script + size, sizeof script - size)) > 0)
        size += (size_t)n;
    if ((code = weblocks_new(SEED, audits, &world)))
        return code == WEBLOCKS_MEMORY && !world ? 3 : fail("weblocks_new", code);
    if ((code = answer_lines(world, size, !audits)))
        return code == WEBLOCKS_MEMORY ? end_spent(world) : fail("weblocks_answer", code);
    if (audits) {
        if ((code = weblocks_audit(world, &text, &length)))
            return code == WEBLOCKS_MEMORY ? end_spent(world) : fail("weblocks_audit", code);
        put(text, length);
    }
    weblocks_free(world);
    return end(0);
}
