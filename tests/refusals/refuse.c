/* Loaded before a program: refuses one allocation, that of the number in REFUSE, counted from 1, and
   then makes the file whose name is in REFUSED; at the program's end it writes how many were asked for
   into the file whose name is in COUNTED. The C library's own calls of its memory don't come here. */
#include <errno.h>
#include <fcntl.h>
#include <stddef.h>
#include <stdio.h>
#include <stdlib.h>
#include <unistd.h>

extern void *__libc_malloc(size_t size);
extern void *__libc_realloc(void *room, size_t size);

static unsigned long count;

static int is_refused(void) {
    const char *number = getenv("REFUSE");
    const char *told = getenv("REFUSED");
    count += 1;
    if (number == NULL || told == NULL || strtoul(number, NULL, 10) != count)
        return 0;
    close(open(told, O_CREAT | O_WRONLY, 0600));
    errno = ENOMEM;
    return 1;
}

void *malloc(size_t size) { return is_refused() ? NULL : __libc_malloc(size); }

void *realloc(void *room, size_t size) { return is_refused() ? NULL : __libc_realloc(room, size); }

__attribute__((destructor)) static void tell_count(void) {
    const char *counted = getenv("COUNTED");
    unsigned long asked = count;
    FILE *file = counted == NULL ? NULL : fopen(counted, "w");
    if (file == NULL)
        return;
    fprintf(file, "%lu\n", asked);
    fclose(file);
}
