/* Lets a file shrink while it is read, for checks/files-may-shrink: before its read number SHRINK_AT, counted from 1, the file
   SHRINK is cut to SHRINK_TO bytes. It writes to the file SEEN_TO how many reads of it there were, and how many bytes they
   gave. */
#define _GNU_SOURCE
#include <dlfcn.h>
#include <limits.h>
#include <stdio.h>
#include <stdlib.h>
#include <string.h>
#include <unistd.h>

static long reads, seen;

static int is_the_file(int fd, const char *path)
{
    char link[64], to[PATH_MAX];
    snprintf(link, sizeof link, "/proc/self/fd/%d", fd);
    ssize_t length = readlink(link, to, sizeof to);
    return length > 0 && (size_t)length == strlen(path) && memcmp(to, path, length) == 0;
}

ssize_t read(int fd, void *bytes, size_t count)
{
    static ssize_t (*next)(int, void *, size_t);
    const char *path = getenv("SHRINK");
    if (!next)
        next = (ssize_t (*)(int, void *, size_t))dlsym(RTLD_NEXT, "read");
    if (!path || !is_the_file(fd, path))
        return next(fd, bytes, count);
    if (++reads == atol(getenv("SHRINK_AT")) && truncate(path, atol(getenv("SHRINK_TO"))))
        abort();
    ssize_t got = next(fd, bytes, count);
    if (got > 0)
        seen += got;
    return got;
}

__attribute__((destructor)) static void tell(void)
{
    const char *path = getenv("SEEN_TO");
    FILE *file = path ? fopen(path, "w") : NULL;
    if (file) {
        fprintf(file, "%ld %ld\n", reads, seen);
        fclose(file);
    }
}
