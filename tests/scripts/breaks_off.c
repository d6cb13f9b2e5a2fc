/* A file that breaks off, as on a failing disk: loaded ahead of the C library it stands in for read, fsync and close. Of the
 * file that BREAKS_OFF names read gives the first four bytes and then fails; fsync and close of it fail. */
#define _GNU_SOURCE
#include <errno.h>
#include <stdio.h>
#include <stdlib.h>
#include <string.h>
#include <sys/syscall.h>
#include <unistd.h>

enum { GIVEN = 4 };

static int is_named(int fd) {
    char link[64], path[4096];
    snprintf(link, sizeof link, "/proc/self/fd/%d", fd);
    ssize_t length = readlink(link, path, sizeof path - 1);
    if (length < 0) {
        return 0;
    }
    path[length] = '\0';
    const char *name = strrchr(path, '/');
    const char *broken = getenv("BREAKS_OFF");
    return name != NULL && broken != NULL && strcmp(name + 1, broken) == 0;
}

ssize_t read(int fd, void *buf, size_t count) {
    static int given = 0;
    if (is_named(fd)) {
        if (given) {
            errno = EIO;
            return -1;
        }
        given = 1;
        if (count > GIVEN) {
            count = GIVEN;
        }
    }
    return syscall(SYS_read, fd, buf, count);
}

int fsync(int fd) {
    if (is_named(fd)) {
        errno = EIO;
        return -1;
    }
    return (int)syscall(SYS_fsync, fd);
}

int close(int fd) {
    if (is_named(fd)) {
        errno = EIO;
        return -1;
    }
    return (int)syscall(SYS_close, fd);
}
