/* A disk that fails, or is slow, when the test says so: for tests/python/serve.py, which compiles this as a shared object and has it loaded before libc.

       VIOLSTREAM_DISK=FILE      the words in FILE say what happens from now on, to writes at a place of a file and to syncs:
                                 write, half, sync, cut   such a call fails (half: a part was written before; cut: making a file shorter)
                                 slow                     a sync takes 50 ms more
                                 and of the entries of a book:
                                 room, link, shelf        a write to a file, a link, or a sync of a folder fails
                                 early, late              the process is killed before a link, or behind it
       VIOLSTREAM_SYNCED=FILE    takes the length of the file that was synced last: what a disk has kept when the power goes */
#define _GNU_SOURCE
#include <dlfcn.h>
#include <errno.h>
#include <fcntl.h>
#include <signal.h>
#include <stdio.h>
#include <stdlib.h>
#include <string.h>
#include <sys/stat.h>
#include <sys/types.h>
#include <unistd.h>

/* Whether a word stands in the file. */
static int told(const char *word)
{
    const char *name = getenv("VIOLSTREAM_DISK");
    char text[200] = "";
    int fd = name ? open(name, O_RDONLY | O_CLOEXEC) : -1;
    ssize_t size = fd >= 0 ? read(fd, text, sizeof text - 1) : -1;
    if (fd >= 0)
        close(fd);
    return size > 0 && strstr(text, word) != NULL;
}

static int fails(int error)
{
    errno = error;
    return -1;
}

static int is_a(int fd, mode_t kind)
{
    struct stat about;
    return !fstat(fd, &about) && (about.st_mode & S_IFMT) == kind;
}

static ssize_t write_at_all_events(int fd, const void *from, size_t size)
{
    ssize_t (*next)(int, const void *, size_t);
    *(void **)&next = dlsym(RTLD_NEXT, "write");
    return next(fd, from, size);
}

static void note(int fd)
{
    const char *name = getenv("VIOLSTREAM_SYNCED");
    struct stat about;
    char text[32];
    int to;
    if (!name || fstat(fd, &about) || !S_ISREG(about.st_mode))
        return;
    to = open(name, O_WRONLY | O_CREAT | O_CLOEXEC, 0600);
    if (to >= 0) {
        ssize_t size = snprintf(text, sizeof text, "%020lld\n", (long long)about.st_size);
        if (write_at_all_events(to, text, (size_t)size) != size)
            abort();
        close(to);
    }
}

static int sync_by(const char *name, int fd)
{
    int (*next)(int);
    int ended;
    *(void **)&next = dlsym(RTLD_NEXT, name);
    if (told("slow"))
        usleep(50000);
    if (told("sync") || (told("shelf") && is_a(fd, S_IFDIR)))
        return fails(EIO);
    ended = next(fd);
    if (!ended)
        note(fd);
    return ended;
}

int fdatasync(int fd)
{
    return sync_by("fdatasync", fd);
}

int fsync(int fd)
{
    return sync_by("fsync", fd);
}

ssize_t pwrite64(int fd, const void *from, size_t size, off64_t at)
{
    ssize_t (*next)(int, const void *, size_t, off64_t);
    *(void **)&next = dlsym(RTLD_NEXT, "pwrite64");
    if (told("half"))
        return size > 1 ? next(fd, from, size / 2, at) : fails(ENOSPC);
    return told("write") ? fails(ENOSPC) : next(fd, from, size, at);
}

int ftruncate64(int fd, off64_t size)
{
    int (*next)(int, off64_t);
    *(void **)&next = dlsym(RTLD_NEXT, "ftruncate64");
    return told("cut") ? fails(EIO) : next(fd, size);
}

ssize_t write(int fd, const void *from, size_t size)
{
    return is_a(fd, S_IFREG) && told("room") ? fails(ENOSPC) : write_at_all_events(fd, from, size);
}

int linkat(int from, const char *old, int to, const char *new, int how)
{
    int (*next)(int, const char *, int, const char *, int);
    int ended;
    *(void **)&next = dlsym(RTLD_NEXT, "linkat");
    if (told("early"))
        raise(SIGKILL);
    if (told("link"))
        return fails(EROFS);
    ended = next(from, old, to, new, how);
    if (told("late"))
        raise(SIGKILL);
    return ended;
}

int link(const char *old, const char *new)
{
    return linkat(AT_FDCWD, old, AT_FDCWD, new, 0);
}
