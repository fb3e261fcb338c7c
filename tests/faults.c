/* Loaded before the C library (LD_PRELOAD), for the tests of the command: makes one call fail, and notes the calls that keep a file.
 *
 *   FAULT=CALL:N:ERRNO   the N-th of these calls fails with this error: read, pwrite, fsync, rename, fallocate. Reads of up to 1000 bytes,
 *                        which are the start of the program, and of files that have no size, as in /proc, are not counted
 *   NOTES=FILE           a line for each fsync (file or folder), rename and opendir, in order */
#define _GNU_SOURCE
#include <dirent.h>
#include <dlfcn.h>
#include <errno.h>
#include <fcntl.h>
#include <stdio.h>
#include <stdlib.h>
#include <string.h>
#include <sys/stat.h>
#include <unistd.h>

static int fails(const char *call, int *count)
{
    const char *fault = getenv("FAULT");
    size_t name = strlen(call);
    int n, error;
    if (!fault || strncmp(fault, call, name) != 0 || sscanf(fault + name, ":%d:%d", &n, &error) != 2)
        return 0;
    if (__atomic_add_fetch(count, 1, __ATOMIC_SEQ_CST) != n)
        return 0;
    errno = error;
    return 1;
}

static void note(const char *line)
{
    const char *path = getenv("NOTES");
    FILE *notes = path ? fopen(path, "a") : NULL;
    if (notes) {
        fprintf(notes, "%s\n", line);
        fclose(notes);
    }
}

ssize_t read(int fd, void *buffer, size_t length)
{
    static int count;
    ssize_t (*real)(int, void *, size_t) = dlsym(RTLD_NEXT, "read");
    struct stat about;
    int counted = length > 1000 && fstat(fd, &about) == 0 && about.st_size > 0;
    return counted && fails("read", &count) ? -1 : real(fd, buffer, length);
}

ssize_t pwrite64(int fd, const void *buffer, size_t length, off64_t offset)
{
    static int count;
    ssize_t (*real)(int, const void *, size_t, off64_t) = dlsym(RTLD_NEXT, "pwrite64");
    return fails("pwrite", &count) ? -1 : real(fd, buffer, length, offset);
}

int fallocate(int fd, int mode, off_t offset, off_t length)
{
    static int count;
    int (*real)(int, int, off_t, off_t) = dlsym(RTLD_NEXT, "fallocate");
    return fails("fallocate", &count) ? -1 : real(fd, mode, offset, length);
}

int fsync(int fd)
{
    static int count;
    int (*real)(int) = dlsym(RTLD_NEXT, "fsync");
    struct stat about;
    note(fstat(fd, &about) == 0 && S_ISDIR(about.st_mode) ? "fsync folder" : "fsync file");
    return fails("fsync", &count) ? -1 : real(fd);
}

int rename(const char *from, const char *to)
{
    static int count;
    int (*real)(const char *, const char *) = dlsym(RTLD_NEXT, "rename");
    note("rename");
    return fails("rename", &count) ? -1 : real(from, to);
}

DIR *opendir(const char *name)
{
    DIR *(*real)(const char *) = dlsym(RTLD_NEXT, "opendir");
    note("opendir");
    return real(name);
}
