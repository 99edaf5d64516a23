/* Has calls on a program's books fail, or end it: cc -shared -fPIC, and LD_PRELOAD. FAIL_PATH names the books, FAIL_AT the number of the
 * first call that is not made as it is asked for, counted from 1 over all writes, syncs and changes of length of the two files, and
 * FAIL_WITH what becomes of it:
 *
 *   kill   the process ends by SIGKILL; of a write, half was made
 *   error  EIO; of a write, half was made; all other calls are made
 *   full   each write and change of length from there on is refused with ENOSPC; syncs are made
 *   read   EIO; reads are counted, and no other calls
 *   sync   EIO; syncs are counted, and no other calls; all other calls are made */
#define _GNU_SOURCE
#include <dlfcn.h>
#include <errno.h>
#include <signal.h>
#include <stdatomic.h>
#include <stdio.h>
#include <stdlib.h>
#include <string.h>
#include <sys/types.h>
#include <unistd.h>

static atomic_long calls;

enum way { MADE, KILL, ERROR, FULL };

enum call { WRITE, SYNC, READ };

/* What becomes of the next call on a file. */
static enum way next_way(int fd, enum call call) {
    char link[64], name[4096];
    const char *path = getenv("FAIL_PATH"), *at = getenv("FAIL_AT"), *with = getenv("FAIL_WITH");
    snprintf(link, sizeof link, "/proc/self/fd/%d", fd);
    ssize_t length = readlink(link, name, sizeof name - 1);
    if (!path || !at || !with || length < 0 || strncmp(name, path, strlen(path)) != 0)
        return MADE;
    if ((call == READ) != (strcmp(with, "read") == 0) || (call != SYNC && strcmp(with, "sync") == 0))
        return MADE;
    long number = atomic_fetch_add(&calls, 1) + 1, first = atol(at);
    if (strcmp(with, "full") == 0)
        return number >= first && call != SYNC ? FULL : MADE;
    return number != first ? MADE : strcmp(with, "kill") == 0 ? KILL : ERROR;
}

static int ends(enum way way) {
    if (way == KILL)
        kill(getpid(), SIGKILL);
    errno = way == FULL ? ENOSPC : EIO;
    return -1;
}

typedef ssize_t writer(int, const void *, size_t, off_t);

static ssize_t write_at(const char *symbol, int fd, const void *bytes, size_t count, off_t offset) {
    writer *real = (writer *)dlsym(RTLD_NEXT, symbol);
    enum way way = next_way(fd, WRITE);
    if (way == MADE)
        return real(fd, bytes, count, offset);
    if (way != FULL)
        real(fd, bytes, count / 2, offset);
    return ends(way);
}

ssize_t pwrite(int fd, const void *bytes, size_t count, off_t offset) { return write_at("pwrite", fd, bytes, count, offset); }

ssize_t pwrite64(int fd, const void *bytes, size_t count, off_t offset) { return write_at("pwrite64", fd, bytes, count, offset); }

typedef ssize_t reader(int, void *, size_t, off_t);

static ssize_t read_at(const char *symbol, int fd, void *bytes, size_t count, off_t offset) {
    enum way way = next_way(fd, READ);
    return way == MADE ? ((reader *)dlsym(RTLD_NEXT, symbol))(fd, bytes, count, offset) : ends(way);
}

ssize_t pread(int fd, void *bytes, size_t count, off_t offset) { return read_at("pread", fd, bytes, count, offset); }

ssize_t pread64(int fd, void *bytes, size_t count, off_t offset) { return read_at("pread64", fd, bytes, count, offset); }

static int cut_at(const char *symbol, int fd, off_t length) {
    int (*real)(int, off_t) = (int (*)(int, off_t))dlsym(RTLD_NEXT, symbol);
    enum way way = next_way(fd, WRITE);
    return way == MADE ? real(fd, length) : ends(way);
}

int ftruncate(int fd, off_t length) { return cut_at("ftruncate", fd, length); }

int ftruncate64(int fd, off_t length) { return cut_at("ftruncate64", fd, length); }

static int sync_by(const char *symbol, int fd) {
    int (*real)(int) = (int (*)(int))dlsym(RTLD_NEXT, symbol);
    enum way way = next_way(fd, SYNC);
    return way == MADE ? real(fd) : ends(way);
}

int fsync(int fd) { return sync_by("fsync", fd); }

int fdatasync(int fd) { return sync_by("fdatasync", fd); }
