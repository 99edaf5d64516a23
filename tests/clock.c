/* Has a program's clock show another time: cc -shared -fPIC, and LD_PRELOAD. CLOCK_FILE names a file that says by how many
 * milliseconds CLOCK_REALTIME is ahead. It is read at each call; if it cannot be, the time is as it is. */
#define _GNU_SOURCE
#include <fcntl.h>
#include <stdlib.h>
#include <sys/syscall.h>
#include <time.h>
#include <unistd.h>

static long long lead(void) {
    char text[32];
    const char *path = getenv("CLOCK_FILE");
    int fd = path ? open(path, O_RDONLY | O_CLOEXEC) : -1;
    if (fd < 0)
        return 0;
    ssize_t length = read(fd, text, sizeof text - 1);
    close(fd);
    text[length < 0 ? 0 : length] = 0;
    return atoll(text);
}

int clock_gettime(clockid_t clock, struct timespec *now) {
    if (syscall(SYS_clock_gettime, clock, now) != 0)
        return -1;
    if (clock == CLOCK_REALTIME) {
        long long millis = now->tv_sec * 1000LL + now->tv_nsec / 1000000 + lead();
        now->tv_nsec = millis % 1000 * 1000000 + now->tv_nsec % 1000000;
        now->tv_sec = millis / 1000;
    }
    return 0;
}
