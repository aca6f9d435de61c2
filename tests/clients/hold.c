/* Preloaded into a program. The opening with number TURN of the file HELD for reading waits: it
   creates HELD.seen and goes on when there is HELD.go. With CHANGED instead, each opening changes the
   header of the log CHANGED. */
#define _GNU_SOURCE
#include <dlfcn.h>
#include <fcntl.h>
#include <stdarg.h>
#include <stdio.h>
#include <stdlib.h>
#include <string.h>
#include <sys/types.h>
#include <unistd.h>

typedef int opener(const char *, int, ...);

static void hold(opener *next, const char *held)
{
    char seen[4096], go[4096];
    snprintf(seen, sizeof seen, "%s.seen", held);
    snprintf(go, sizeof go, "%s.go", held);
    close(next(seen, O_CREAT | O_WRONLY, 0600));
    while (access(go, F_OK) != 0) usleep(1000);
}

static void change(opener *next, const char *log, int count)
{
    int fd = next(log, O_WRONLY);
    if (pwrite(fd, &count, sizeof count, 16) != sizeof count) abort();
    close(fd);
}

int open(const char *path, int flags, ...)
{
    static int count;
    va_list rest;
    va_start(rest, flags);
    mode_t mode = va_arg(rest, mode_t);
    va_end(rest);
    opener *next = (opener *)dlsym(RTLD_NEXT, "open");
    const char *held = getenv("HELD"), *turn = getenv("TURN"), *changed = getenv("CHANGED");
    if (held != NULL && strcmp(path, held) == 0 && (flags & O_ACCMODE) == O_RDONLY) {
        count++;
        if (changed != NULL) change(next, changed, count);
        else if (turn != NULL && count == atoi(turn)) hold(next, held);
    }
    return next(path, flags, mode);
}
