/*
 * Sends a program the signal STOP_SIGNAL right before the STOP-th of its calls that open, write, name or remove a file:
 * loaded before the C library (LD_PRELOAD), by ./stop_runs.
 */
#define _GNU_SOURCE
#include <dlfcn.h>
#include <fcntl.h>
#include <signal.h>
#include <stdarg.h>
#include <stdatomic.h>
#include <stdio.h>
#include <stdlib.h>
#include <sys/stat.h>
#include <unistd.h>

static atomic_ulong calls;

static void count_call(void)
{
    const char *number = getenv("STOP");
    const char *signal_number = getenv("STOP_SIGNAL");
    if (number == NULL || signal_number == NULL)
        return;
    if (atomic_fetch_add(&calls, 1) + 1 == strtoul(number, NULL, 10)) {
        kill(getpid(), atoi(signal_number));
        /* A thread that doesn't die by the signal at once waits for that. */
        pause();
    }
}

#define REAL(name) ((__typeof__(&name))dlsym(RTLD_NEXT, #name))

int open(const char *path, int flags, ...)
{
    va_list rest;
    va_start(rest, flags);
    mode_t mode = flags & O_CREAT ? va_arg(rest, mode_t) : 0;
    va_end(rest);
    count_call();
    return REAL(open)(path, flags, mode);
}

ssize_t write(int file, const void *bytes, size_t size)
{
    count_call();
    return REAL(write)(file, bytes, size);
}

int fchmod(int file, mode_t mode)
{
    count_call();
    return REAL(fchmod)(file, mode);
}

int rename(const char *from, const char *to)
{
    count_call();
    return REAL(rename)(from, to);
}

int unlink(const char *path)
{
    count_call();
    return REAL(unlink)(path);
}
