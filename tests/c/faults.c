/* Makes one call of the system fail, for tests/python/faults.py, which compiles this as a shared object and has it loaded before libc. The call is
   the N-th of one kind in the process called `violstream`, and in no other:

       VIOLSTREAM_FAULT=KIND:N:ERRNO      the N-th fails; with N = 0 none does; with a signal below 0 for ERRNO the process gets that in its place
       VIOLSTREAM_FAULT_COUNT=FILE        the number of calls of that kind is written there at the end; where a call becomes another program, the most of both

   Descriptors above 2 that are not sockets or terminals, and 0 to 2, are all the same here: whatever the command reads and writes may fail. */
#define _GNU_SOURCE
#include <dirent.h>
#include <dlfcn.h>
#include <errno.h>
#include <fcntl.h>
#include <poll.h>
#include <signal.h>
#include <spawn.h>
#include <stdarg.h>
#include <stdio.h>
#include <stdlib.h>
#include <string.h>
#include <sys/file.h>
#include <sys/ioctl.h>
#include <sys/mman.h>
#include <sys/signalfd.h>
#include <sys/socket.h>
#include <sys/stat.h>
#include <sys/types.h>
#include <sys/wait.h>
#include <unistd.h>

static char kind[32];
static long at, error, met;
static int active;
static pid_t process;

__attribute__((constructor)) static void begin(void)
{
    const char *fault = getenv("VIOLSTREAM_FAULT");
    process = getpid();
    active = fault && !strcmp(program_invocation_short_name, "violstream") && sscanf(fault, "%31[a-z0-9_]:%ld:%ld", kind, &at, &error) == 3;
}

__attribute__((destructor)) static void end(void)
{
    const char *name = getenv("VIOLSTREAM_FAULT_COUNT");
    FILE *count;
    long before = 0;
    if (!active || !name)
        return;
    active = 0;
    count = fopen(name, "r");
    if (count) {
        if (fscanf(count, "%ld", &before) == 1 && before > met)
            met = before;
        fclose(count);
    }
    count = fopen(name, "w");
    if (count) {
        fprintf(count, "%ld\n", met);
        fclose(count);
    }
}

/* Whether this call is the one. */
static int fails(const char *what)
{
    if (!active || strcmp(what, kind) || ++met != at)
        return 0;
    if (error < 0)
        kill(getpid(), (int)-error);
    errno = (int)error;
    return 1;
}

#define NEXT(result, name, types) \
    static result (*next)types; \
    if (!next) \
    *(void **)&next = dlsym(RTLD_NEXT, name)

#define WRAP(result, name, types, words) \
    result name types \
    { \
        NEXT(result, #name, types); \
        return fails(#name) ? (result)-1 : next words; \
    }

WRAP(ssize_t, read, (int fd, void *to, size_t size), (fd, to, size))
WRAP(ssize_t, write, (int fd, const void *from, size_t size), (fd, from, size))
WRAP(int, poll, (struct pollfd *fds, nfds_t count, int limit), (fds, count, limit))
WRAP(int, pipe2, (int ends[2], int how), (ends, how))
WRAP(pid_t, fork, (void), ())
WRAP(pid_t, waitpid, (pid_t pid, int *status, int how), (pid, status, how))
WRAP(int, dup2, (int from, int to), (from, to))
WRAP(int, flock, (int fd, int how), (fd, how))
WRAP(int, rename, (const char *from, const char *to), (from, to))
WRAP(int, fsync, (int fd), (fd))
WRAP(int, linkat, (int from, const char *path, int to, const char *name, int how), (from, path, to, name, how))
WRAP(int, mkdir, (const char *path, mode_t mode), (path, mode))
WRAP(int, unlink, (const char *path), (path))
WRAP(int, symlink, (const char *to, const char *path), (to, path))
WRAP(int, fchmod, (int fd, mode_t mode), (fd, mode))
WRAP(ssize_t, readlink, (const char *path, char *to, size_t size), (path, to, size))
WRAP(ssize_t, pwrite64, (int fd, const void *from, size_t size, off64_t at_byte), (fd, from, size, at_byte))
WRAP(int, fdatasync, (int fd), (fd))
WRAP(int, ftruncate64, (int fd, off64_t size), (fd, size))
WRAP(off64_t, lseek64, (int fd, off64_t to, int how), (fd, to, how))
WRAP(int, statx, (int at_folder, const char *path, int how, unsigned what, struct statx *to), (at_folder, path, how, what, to))
WRAP(int, chmod, (const char *path, mode_t mode), (path, mode))
WRAP(int, access, (const char *path, int what), (path, what))
WRAP(int, utimensat, (int folder, const char *path, const struct timespec times[2], int how), (folder, path, times, how))
WRAP(int, chown, (const char *path, uid_t owner, gid_t group), (path, owner, group))
WRAP(int, socket, (int family, int type, int protocol), (family, type, protocol))
WRAP(int, bind, (int fd, const struct sockaddr *to, socklen_t size), (fd, to, size))
WRAP(int, listen, (int fd, int many), (fd, many))
WRAP(int, accept4, (int fd, struct sockaddr *from, socklen_t *size, int how), (fd, from, size, how))
WRAP(int, connect, (int fd, const struct sockaddr *to, socklen_t size), (fd, to, size))
WRAP(int, getsockopt, (int fd, int level, int what, void *to, socklen_t *size), (fd, level, what, to, size))
WRAP(int, signalfd, (int fd, const sigset_t *set, int how), (fd, set, how))

/* Of streams alone: by another kind of socket Rust's library hears whether a program that it starts was there, and waits for ever if that fails. */
ssize_t recv(int fd, void *to, size_t size, int how)
{
    NEXT(ssize_t, "recv", (int, void *, size_t, int));
    int type = 0;
    socklen_t room = sizeof type;
    int (*asked)(int, int, int, void *, socklen_t *);
    *(void **)&asked = dlsym(RTLD_NEXT, "getsockopt");
    asked(fd, SOL_SOCKET, SO_TYPE, &type, &room);
    return type == SOCK_STREAM && fails("recv") ? -1 : next(fd, to, size, how);
}

DIR *opendir(const char *path)
{
    NEXT(DIR *, "opendir", (const char *));
    return fails("opendir") ? NULL : next(path);
}

struct dirent64 *readdir64(DIR *folder)
{
    NEXT(struct dirent64 *, "readdir64", (DIR *));
    return fails("readdir64") ? NULL : next(folder);
}

/* Of files alone: memory by itself is another matter. */
void *mmap64(void *where, size_t size, int use, int how, int fd, off64_t at_byte)
{
    NEXT(void *, "mmap64", (void *, size_t, int, int, int, off64_t));
    return fd >= 0 && fails("mmap") ? MAP_FAILED : next(where, size, use, how, fd, at_byte);
}

/* It gives the error itself. */
int posix_spawnp(pid_t *pid, const char *file, const posix_spawn_file_actions_t *actions, const posix_spawnattr_t *about, char *const words[], char *const names[])
{
    NEXT(int, "posix_spawnp", (pid_t *, const char *, const posix_spawn_file_actions_t *, const posix_spawnattr_t *, char *const[], char *const[]));
    return fails("spawn") ? (int)error : next(pid, file, actions, about, words, names);
}

int execvp(const char *file, char *const words[])
{
    NEXT(int, "execvp", (const char *, char *const[]));
    if (fails("execvp"))
        return -1;
    if (active && getpid() == process) {
        end();
        active = 1;
    }
    return next(file, words);
}

/* Of a child, on its way to become another program: its caller is ended just then. */
int prctl(int what, ...)
{
    NEXT(int, "prctl", (int, ...));
    va_list words;
    unsigned long word;
    pid_t caller = getppid();
    va_start(words, what);
    word = va_arg(words, unsigned long);
    va_end(words);
    if (fails("prctl")) {
        kill(caller, SIGKILL);
        while (getppid() == caller)
            usleep(1000);
    }
    return next(what, word);
}

int ioctl(int fd, unsigned long what, ...)
{
    NEXT(int, "ioctl", (int, unsigned long, ...));
    va_list words;
    void *word;
    va_start(words, what);
    word = va_arg(words, void *);
    va_end(words);
    return fails("ioctl") ? -1 : next(fd, what, word);
}

/* Some errors come only when a file is closed, and it is closed then all the same. */
int close(int fd)
{
    NEXT(int, "close", (int));
    int ended = next(fd);
    return fails("close") ? -1 : ended;
}

int open64(const char *path, int how, ...)
{
    NEXT(int, "open64", (const char *, int, ...));
    va_list words;
    mode_t mode;
    va_start(words, how);
    mode = va_arg(words, mode_t);
    va_end(words);
    return fails("open") ? -1 : next(path, how, mode);
}

int fcntl64(int fd, int what, ...)
{
    NEXT(int, "fcntl64", (int, int, ...));
    va_list words;
    long word;
    va_start(words, what);
    word = va_arg(words, long);
    va_end(words);
    return fails("fcntl") ? -1 : next(fd, what, word);
}

int fcntl(int fd, int what, ...)
{
    NEXT(int, "fcntl", (int, int, ...));
    va_list words;
    long word;
    va_start(words, what);
    word = va_arg(words, long);
    va_end(words);
    return fails("fcntl") ? -1 : next(fd, what, word);
}
