/* weblocks: the engine of Web Locks scripts inside a program.

   A world has all its origins and agents. A call gives it one line, a message as `weblocks run` reads it
   (docs/FORMATS.md of the repository), without its LF, and has the reply without its own. The reply is that of the
   definitions in crates/wl_world/specs, and so is the world after it: the contract of weblocks_answer says so, and is
   proved.

   One world is for one call at a time. The library has no lock: threads that share a world bring their own, and order
   by it each call before the next. Worlds don't know of each other. No function is for a signal handler, or for the
   child of a fork in a process that has threads.

   Memory comes from the program's malloc, realloc and free, which are to be of one allocator, and align a block to each
   power of two up to 16 that divides its size. */
#ifndef WEBLOCKS_H
#define WEBLOCKS_H

#include <stddef.h>
#include <stdint.h>

#ifdef __cplusplus
extern "C" {
#endif

typedef struct weblocks weblocks;

/* The most bytes of a line. */
#define WEBLOCKS_LONGEST_LINE 65536

/* What a call answers. Every code but WEBLOCKS_MEMORY leaves the world as it was, unless it is WEBLOCKS_OK. */
enum weblocks_code {
    /* It is done. */
    WEBLOCKS_OK = 0,
    /* malloc or realloc gave no memory. No world was made; or the world is spent, and what it had is freed but for the
       handle. */
    WEBLOCKS_MEMORY = 1,
    /* The world is spent. Only weblocks_free is left. */
    WEBLOCKS_SPENT = 2,
    /* The world keeps no books. */
    WEBLOCKS_NO_BOOKS = 3,
    /* One of the pointers is null, of weblocks_answer or weblocks_audit: weblocks_new doesn't look. */
    WEBLOCKS_NULL = 4,
    /* The line has more than WEBLOCKS_LONGEST_LINE bytes. */
    WEBLOCKS_TOO_LONG = 5,
    /* The line has an LF (byte 10), and so is more than one line. */
    WEBLOCKS_LINE_FEED = 6
};

/* Makes a world in which nobody has opened, and puts it at *out: WEBLOCKS_OK, or WEBLOCKS_MEMORY, which leaves *out as
   it was. Where keep_books isn't 0, the world keeps its lines, for weblocks_audit. Neither pointer may be null:
   that isn't looked for, and the program would crash.

   By the seed a world's tables spread names; no reply shows it. Where names come from who isn't trusted, take it from
   the system (getrandom), so that nobody can choose names that fall together; a test may fix it. */
int weblocks_new(const uint8_t seed[16], int keep_books, weblocks **out);

/* Answers the line of `length` bytes at `line`. With WEBLOCKS_OK the reply is the *reply_length bytes at *reply, which
   are the library's, are not to be written, and stay until the next call with this world. With any other code *reply
   and *reply_length are as they were. Bytes that another call is changing meanwhile, a handle that weblocks_free has
   taken, and one that weblocks_new has not given are the caller's to avoid: the library can't see them. */
int weblocks_answer(weblocks *world, const uint8_t *line, size_t length, const uint8_t **reply, size_t *reply_length);

/* Audits the lines that were answered: for each bucket of an origin whose journal has an entry a line with its LF, byte
   for byte what `weblocks audit` writes for a file of these lines. It answers them anew, and then replays what that
   recorded. The bytes come as with weblocks_answer, and the world stays as it is. */
int weblocks_audit(weblocks *world, const uint8_t **reply, size_t *reply_length);

/* Ends a world, and frees all that it has. Null is none. */
void weblocks_free(weblocks *world);

#ifdef __cplusplus
}
#endif

#endif
