/* Makes the disk of a program fail. It is put under the program by LD_PRELOAD.

   The file that FAILING_DISK names has numbers of 64 bits, which are mapped, so that they can be set while the program
   runs: whether syncs fail, and whether writes at an offset do; how many calls on files there were, which is the first
   that fails with all after it, if not 0, and whether that one, if it is a write, writes the first half of its bytes. What
   fails answers EIO. The calls are writes to files, syncs, changes of a file's length, and links and names of files that
   are made, changed or removed. That a file is opened or made is no such call.

   Where FAILING_DISK_SYNCED names a folder, each sync copies its file there, under the number of its inode. */

#define _GNU_SOURCE
#include "mapped.h"

#include <dlfcn.h>
#include <errno.h>
#include <limits.h>
#include <stdint.h>
#include <stdio.h>
#include <sys/sendfile.h>
#include <sys/stat.h>

struct numbers {
    volatile uint64_t syncs, writes, calls, first, halves;
};

static struct numbers *numbers;
static const char *synced;

__attribute__((constructor)) static void map_numbers(void)
{
    numbers = mapped("FAILING_DISK", sizeof *numbers);
    synced = getenv("FAILING_DISK_SYNCED");
}

/* Counts a call. Whether it is to fail. */
static int is_past(void)
{
    if (!numbers)
        return 0;
    numbers->calls++;
    return numbers->first && numbers->calls >= numbers->first;
}

static int fails(void)
{
    errno = EIO;
    return -1;
}

/* Whether the call that was counted last is to write the first half of its bytes. */
static int is_halved(void)
{
    return numbers->halves && numbers->calls == numbers->first;
}

/* Copies a file that was synced, whole or not at all. */
static void keep(int file)
{
    char path[PATH_MAX], draft[PATH_MAX];
    struct stat about;
    if (!synced || fstat(file, &about) || !S_ISREG(about.st_mode))
        return;
    snprintf(path, sizeof path, "%s/%llu", synced, (unsigned long long)about.st_ino);
    snprintf(draft, sizeof draft, "%s/draft", synced);
    int copy = open(draft, O_WRONLY | O_CREAT | O_TRUNC | O_CLOEXEC, 0600);
    char from[64];
    snprintf(from, sizeof from, "/proc/self/fd/%d", file);
    int source = open(from, O_RDONLY | O_CLOEXEC);
    off_t at = 0;
    if (copy < 0 || source < 0 || sendfile(copy, source, &at, about.st_size) != about.st_size)
        abort();
    close(source);
    close(copy);
    int (*move)(const char *, const char *) = dlsym(RTLD_NEXT, "rename");
    if (move(draft, path))
        abort();
}

static int sync_by(const char *name, int file)
{
    if (is_past() || (numbers && numbers->syncs))
        return fails();
    int status = ((int (*)(int))dlsym(RTLD_NEXT, name))(file);
    if (!status)
        keep(file);
    return status;
}

int fdatasync(int file)
{
    return sync_by("fdatasync", file);
}

int fsync(int file)
{
    return sync_by("fsync", file);
}

ssize_t pwrite(int file, const void *bytes, size_t count, off_t offset)
{
    ssize_t (*write_at)(int, const void *, size_t, off_t) = dlsym(RTLD_NEXT, "pwrite");
    if (is_past()) {
        if (is_halved())
            write_at(file, bytes, count / 2, offset);
        return fails();
    }
    if (numbers && numbers->writes)
        return fails();
    return write_at(file, bytes, count, offset);
}

/* A write to a pipe or a socket is none of these calls. */
ssize_t write(int file, const void *bytes, size_t count)
{
    ssize_t (*put)(int, const void *, size_t) = dlsym(RTLD_NEXT, "write");
    struct stat about;
    if (!numbers || fstat(file, &about) || !S_ISREG(about.st_mode))
        return put(file, bytes, count);
    if (is_past()) {
        if (is_halved())
            put(file, bytes, count / 2);
        return fails();
    }
    return put(file, bytes, count);
}

int rename(const char *from, const char *to)
{
    if (is_past())
        return fails();
    return ((int (*)(const char *, const char *))dlsym(RTLD_NEXT, "rename"))(from, to);
}

int ftruncate(int file, off_t length)
{
    if (is_past())
        return fails();
    return ((int (*)(int, off_t))dlsym(RTLD_NEXT, "ftruncate"))(file, length);
}

int unlink(const char *path)
{
    if (is_past())
        return fails();
    return ((int (*)(const char *))dlsym(RTLD_NEXT, "unlink"))(path);
}

int link(const char *from, const char *to)
{
    if (is_past())
        return fails();
    return ((int (*)(const char *, const char *))dlsym(RTLD_NEXT, "link"))(from, to);
}
