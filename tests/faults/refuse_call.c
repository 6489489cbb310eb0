/* Stands before the C library's calls for files: open, read, write, fsync, fchmod, fchown, statx, realpath, rename,
   unlink and close. CALL is the name of one of them, but that `write` is a write to standard output, and `file` one to
   another file than standard error; or it is `any`, for all of them. The call of that name whose number (from 1) is in
   REFUSE fails, or where NONE is set takes no byte; where INTERRUPT is set, it fails as if a signal came. Where KILL is
   set, the program is killed before it; where STOP is set, the program is stopped there, and the call is let through
   once it goes on. All other calls are let through. A close that fails has closed its file. Where STEP is set, each
   read and write moves one byte at most. It says on the file COUNTED how many such calls there were. A read or write
   that is to move no bytes is no such call. */
#define _GNU_SOURCE
#include <dlfcn.h>
#include <errno.h>
#include <fcntl.h>
#include <signal.h>
#include <stdarg.h>
#include <stdio.h>
#include <stdlib.h>
#include <string.h>
#include <sys/stat.h>
#include <unistd.h>

/* The C library's own call of this name. */
#define NEXT(name) \
    static __typeof__(name) *next; \
    if (!next) \
        next = (__typeof__(name) *)dlsym(RTLD_NEXT, #name)

static unsigned long calls;

static int refused(const char *call)
{
    const char *chosen = getenv("CALL");
    const char *number = getenv("REFUSE");
    if (!chosen || (strcmp(chosen, "any") != 0 && strcmp(chosen, call) != 0))
        return 0;
    calls++;
    if (!number || calls != strtoul(number, NULL, 10))
        return 0;
    if (getenv("KILL"))
        kill(getpid(), SIGKILL);
    if (getenv("STOP")) {
        raise(SIGSTOP);
        return 0;
    }
    return 1;
}

static ssize_t refusal(void)
{
    if (getenv("NONE"))
        return 0;
    errno = getenv("INTERRUPT") ? EINTR : EIO;
    return -1;
}

static size_t step(size_t count)
{
    return getenv("STEP") && count > 1 ? 1 : count;
}

int open(const char *name, int flags, ...)
{
    NEXT(open);
    va_list rest;
    va_start(rest, flags);
    mode_t mode = flags & O_CREAT ? va_arg(rest, mode_t) : 0;
    va_end(rest);
    return refused("open") ? (int)refusal() : next(name, flags, mode);
}

ssize_t read(int file, void *bytes, size_t count)
{
    NEXT(read);
    if (count > 0 && refused("read"))
        return refusal();
    return next(file, bytes, step(count));
}

ssize_t write(int file, const void *bytes, size_t count)
{
    NEXT(write);
    if (file == STDERR_FILENO)
        return next(file, bytes, count);
    if (count > 0 && refused(file == STDOUT_FILENO ? "write" : "file"))
        return refusal();
    return next(file, bytes, step(count));
}

int fsync(int file)
{
    NEXT(fsync);
    return refused("fsync") ? (int)refusal() : next(file);
}

int fchmod(int file, mode_t mode)
{
    NEXT(fchmod);
    return refused("fchmod") ? (int)refusal() : next(file, mode);
}

int fchown(int file, uid_t owner, gid_t group)
{
    NEXT(fchown);
    return refused("fchown") ? (int)refusal() : next(file, owner, group);
}

int statx(int folder, const char *restrict name, int flags, unsigned int mask, struct statx *restrict result)
{
    NEXT(statx);
    return refused("statx") ? (int)refusal() : next(folder, name, flags, mask, result);
}

char *realpath(const char *restrict name, char *restrict resolved)
{
    NEXT(realpath);
    if (refused("realpath")) {
        errno = EIO;
        return NULL;
    }
    return next(name, resolved);
}

int rename(const char *old, const char *new)
{
    NEXT(rename);
    return refused("rename") ? (int)refusal() : next(old, new);
}

int unlink(const char *name)
{
    NEXT(unlink);
    return refused("unlink") ? (int)refusal() : next(name);
}

int close(int file)
{
    NEXT(close);
    int is_refused = refused("close");
    int status = next(file);
    return is_refused ? (int)refusal() : status;
}

__attribute__((destructor)) static void tell(void)
{
    const char *name = getenv("COUNTED");
    unsigned long total = calls;
    FILE *file = name ? fopen(name, "w") : NULL;
    if (file) {
        fprintf(file, "%lu\n", total);
        fclose(file);
    }
}
