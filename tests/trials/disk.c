/* Loaded before the program: writes down what it does to the file whose name is in STORE and to its
   log (the same name with -wal), in the order in which it does it, into the file whose name is in
   JOURNAL. A line for each call, behind a write its bytes:

       write db|log OFFSET LENGTH
       cut db|log LENGTH
       sync db|log
       read db|log

   a line `answer` for each write to standard output or to a socket, and `failed` for each call that
   fails. The call whose number is in FAILS, counted from 1, fails; with LASTING all that come behind
   it fail too, and with TORN a write that fails first has written its first half. */
#define _GNU_SOURCE
#include <errno.h>
#include <fcntl.h>
#include <limits.h>
#include <stdio.h>
#include <stdlib.h>
#include <string.h>
#include <sys/socket.h>
#include <sys/syscall.h>
#include <unistd.h>

static unsigned long calls;
static int has_failed;

/* The name that the journal has for a file; none for all but those two. */
static const char *name_of(int fd) {
    char link[32], path[PATH_MAX];
    const char *store = getenv("STORE");
    if (store == NULL)
        return NULL;
    snprintf(link, sizeof link, "/proc/self/fd/%d", fd);
    ssize_t length = readlink(link, path, sizeof path - 1);
    if (length < 0)
        return NULL;
    path[length] = 0;
    size_t begin = strlen(store);
    if (strncmp(path, store, begin) != 0)
        return NULL;
    return path[begin] == 0 ? "db" : strcmp(path + begin, "-wal") == 0 ? "log" : NULL;
}

/* Writes a line, and bytes behind it. */
static void journal(const char *line, const void *bytes, size_t length) {
    static int fd = -1;
    const char *path = getenv("JOURNAL");
    if (path == NULL)
        return;
    if (fd < 0)
        fd = syscall(SYS_openat, AT_FDCWD, path, O_CREAT | O_WRONLY | O_APPEND | O_CLOEXEC, 0600);
    if (syscall(SYS_write, fd, line, strlen(line)) < 0)
        abort();
    while (length > 0) {
        ssize_t written = syscall(SYS_write, fd, bytes, length);
        if (written <= 0)
            abort();
        bytes = (const char *)bytes + written;
        length -= written;
    }
}

/* Counts a call, and tells whether it fails. */
static int fails(void) {
    const char *number = getenv("FAILS");
    calls += 1;
    if (number != NULL && (strtoul(number, NULL, 10) == calls || (has_failed && getenv("LASTING"))))
        has_failed = 1;
    else
        return 0;
    journal("failed\n", NULL, 0);
    errno = EIO;
    return 1;
}

/* Counts a call of a kind that writes nothing, and writes it down; whether it fails. */
static int fails_as(const char *kind, const char *name, long length) {
    char line[80];
    if (fails())
        return 1;
    snprintf(line, sizeof line, kind, name, length);
    journal(line, NULL, 0);
    return 0;
}

ssize_t pwrite(int fd, const void *bytes, size_t length, off_t offset) {
    const char *name = name_of(fd);
    char line[80];
    int is_first = !has_failed, is_failing = name != NULL && fails();
    if (is_failing && !(is_first && getenv("TORN") != NULL))
        return -1;
    ssize_t done = syscall(SYS_pwrite64, fd, bytes, is_failing ? length / 2 : length, offset);
    if (name == NULL || done < 0)
        return done;
    snprintf(line, sizeof line, "write %s %ld %ld\n", name, (long)offset, (long)done);
    journal(line, bytes, done);
    errno = EIO;
    return is_failing ? -1 : done;
}

ssize_t pread(int fd, void *bytes, size_t length, off_t offset) {
    const char *name = name_of(fd);
    if (name != NULL && fails_as("read %s\n", name, 0))
        return -1;
    return syscall(SYS_pread64, fd, bytes, length, offset);
}

int ftruncate(int fd, off_t length) {
    const char *name = name_of(fd);
    if (name != NULL && fails_as("cut %s %ld\n", name, (long)length))
        return -1;
    return syscall(SYS_ftruncate, fd, length);
}

int fdatasync(int fd) {
    const char *name = name_of(fd);
    if (name != NULL && fails_as("sync %s\n", name, 0))
        return -1;
    return syscall(SYS_fdatasync, fd);
}

int fsync(int fd) {
    const char *name = name_of(fd);
    if (name != NULL && fails_as("sync %s\n", name, 0))
        return -1;
    return syscall(SYS_fsync, fd);
}

ssize_t send(int fd, const void *bytes, size_t length, int flags) {
    journal("answer\n", NULL, 0);
    return syscall(SYS_sendto, fd, bytes, length, flags, NULL, 0);
}

/* The program writes to an office's files at an offset alone. */
ssize_t write(int fd, const void *bytes, size_t length) {
    if (name_of(fd) != NULL)
        abort();
    if (fd == 1)
        journal("answer\n", NULL, 0);
    return syscall(SYS_write, fd, bytes, length);
}
