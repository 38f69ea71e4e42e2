/* Two agents of one world: Anna holds the lock `printer`, and Ben waits behind her until she lets it go.

   At the top of the repository, once clients/c/build has made the library:

       cc -o two_agents clients/c/examples/two_agents.c $(pkg-config --cflags --libs clients/c/out/weblocks.pc)
       LD_LIBRARY_PATH=clients/c/out ./two_agents
*/
#include <stdio.h>
#include <string.h>
#include <sys/random.h>
#include <weblocks.h>

static const char *const LINES[] = {
    "{\"agent\":\"anna\",\"id\":1,\"op\":\"open\",\"url\":\"https://a.test/\"}",
    "{\"agent\":\"ben\",\"id\":2,\"op\":\"open\",\"url\":\"https://a.test/\"}",
    "{\"agent\":\"anna\",\"id\":3,\"op\":\"request\",\"name\":\"printer\"}",
    "{\"agent\":\"ben\",\"id\":4,\"op\":\"request\",\"name\":\"printer\"}",
    "{\"agent\":\"anna\",\"id\":5,\"op\":\"release\",\"request\":1}",
    "{\"agent\":\"ben\",\"id\":6,\"op\":\"poll\"}",
};

static int fail(const char *call, int code) {
    fprintf(stderr, "%s answered the code %d\n", call, code);
    return 1;
}

int main(void) {
    uint8_t seed[16];
    weblocks *world;
    const uint8_t *reply;
    size_t length;
    int code;

    if (getrandom(seed, sizeof seed, 0) != sizeof seed) {
        perror("getrandom");
        return 1;
    }
    if ((code = weblocks_new(seed, 1, &world)))
        return fail("weblocks_new", code);
    for (size_t i = 0; i < sizeof LINES / sizeof *LINES; i++) {
        if ((code = weblocks_answer(world, (const uint8_t *)LINES[i], strlen(LINES[i]), &reply, &length)))
            return fail("weblocks_answer", code);
        fwrite(reply, 1, length, stdout);
        putchar('\n');
    }
    if ((code = weblocks_audit(world, &reply, &length)))
        return fail("weblocks_audit", code);
    fwrite(reply, 1, length, stdout);
    weblocks_free(world);
    return 0;
}
