/* Looks on, for sessions/hosts, while a host that starts with no entry writes: it ends the program with the status 99 where more lines are to go to the
   standard output than lines of the log are synced. */
#define _GNU_SOURCE
#include <dlfcn.h>
#include <stddef.h>
#include <sys/types.h>
#include <unistd.h>

static size_t kept, synced, told;

static size_t lines_of(const char *bytes, ssize_t count)
{
    size_t lines = 0;
    for (ssize_t at = 0; at < count; at++)
        lines += bytes[at] == '\n';
    return lines;
}

ssize_t write(int descriptor, const void *bytes, size_t count)
{
    ssize_t (*to)(int, const void *, size_t) = (ssize_t (*)(int, const void *, size_t))dlsym(RTLD_NEXT, "write");
    if (descriptor == STDOUT_FILENO && told + lines_of(bytes, (ssize_t)count) > synced)
        _exit(99);
    ssize_t done = to(descriptor, bytes, count);
    *(descriptor == STDOUT_FILENO ? &told : &kept) += lines_of(bytes, done);
    return done;
}

int fdatasync(int descriptor)
{
    int (*call)(int) = (int (*)(int))dlsym(RTLD_NEXT, "fdatasync");
    int failed = call(descriptor);
    if (!failed)
        synced = kept;
    return failed;
}
