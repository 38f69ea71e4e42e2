/* Loaded before a program, refuses it one growth of memory, and says so: the call of malloc or realloc whose number,
   counted from 1, stands in REFUSED_GROWTH, or all calls from that one on, where REFUSED_ON is set too. Where the
   number of a connection stands in REFUSED_CONNECTION, accepting that one fails for want of memory in the system. Once
   there is a file at the path in REFUSED_WAIT, each wait for events fails. What it takes from the C library is declared
   here, so that the kit's clang needs no headers. */
typedef unsigned long size;

extern void *__libc_malloc(size bytes);
extern void *__libc_realloc(void *place, size bytes);
extern char *getenv(const char *name);
extern unsigned long strtoul(const char *text, char **end, int base);
extern long write(int file, const void *bytes, size count);
extern long syscall(long number, ...);
extern int *__errno_location(void);
extern int access(const char *path, int mode);

static const char SAID[] = "a growth was refused\n";
static const long EPOLL_WAIT = 232, ACCEPT4 = 288;
static const int EBADF = 9, ENOMEM = 12;
static size calls, connections;

static int is_refused(void) {
    const char *number = getenv("REFUSED_GROWTH");
    size call = __atomic_add_fetch(&calls, 1, __ATOMIC_SEQ_CST);
    size first = number ? strtoul(number, 0, 10) : 0;
    if (!number || call < first || (call > first && !getenv("REFUSED_ON")))
        return 0;
    return call > first || write(2, SAID, sizeof SAID - 1) > 0;
}

void *malloc(size bytes) { return is_refused() ? 0 : __libc_malloc(bytes); }

void *realloc(void *place, size bytes) { return is_refused() ? 0 : __libc_realloc(place, bytes); }

int accept4(int file, void *address, void *length, int flags) {
    const char *number = getenv("REFUSED_CONNECTION");
    if (number && ++connections == strtoul(number, 0, 10)) {
        *__errno_location() = ENOMEM;
        return -1;
    }
    return (int)syscall(ACCEPT4, file, address, length, flags);
}

int epoll_wait(int file, void *events, int count, int timeout) {
    const char *path = getenv("REFUSED_WAIT");
    if (path && access(path, 0) == 0) {
        *__errno_location() = EBADF;
        return -1;
    }
    return (int)syscall(EPOLL_WAIT, file, events, count, timeout);
}
