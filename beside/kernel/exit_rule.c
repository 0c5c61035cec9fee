/*
 * Which rule the exit of the kernel at hand has at a pending entry that the dying thread doesn't own: it prints `oldest`,
 * `middle` or `newest`, and a line with what was seen.
 *
 * The oldest rule wakes one sleeper only where the lock word is 0; the middle one where it has no owner; the newest one
 * also where it has an owner and no waiters bit (docs/linux.md, "The three rules"). So a free word with the waiters bit
 * tells the oldest rule from the others, and a word with an owner and no bit the newest one.
 */
#include "mesa_monitors.h"
#include <stdio.h>
#include <unistd.h>

static struct mesa_monitor lock;
static _Atomic int woke;

static int32_t sleeper(struct mesa_process *self, const int32_t *arguments)
{
    (void)self;
    mesa_futex_wait(&lock.lock, (uint32_t)arguments[0]);
    atomic_fetch_add(&woke, 1);
    return 0;
}

/* Dies with the lock as its pending entry. */
static int32_t dying(struct mesa_process *self, const int32_t *arguments)
{
    (void)arguments;
    atomic_store(&self->robust.pending, &lock.link);
    mesa_thread_exit();
    return 0;
}

/* Whether an exit wakes who sleeps on its pending entry, a lock word of this value. */
static bool wakes(struct mesa_process *self, uint32_t word)
{
    int32_t value = (int32_t)word;
    int before = atomic_load(&woke);
    atomic_store(&lock.lock, word);
    int32_t waiting = mesa_fork(self, sleeper, &value, 1);
    usleep(100000); /* it falls asleep */
    int32_t last = mesa_fork(self, dying, NULL, 0);
    mesa_join(self, last, NULL);
    usleep(100000);
    bool woken = atomic_load(&woke) != before;
    mesa_futex_wake(&lock.lock, 1);
    mesa_join(self, waiting, NULL);
    return woken;
}

static int32_t tell(struct mesa_process *self, const int32_t *arguments)
{
    (void)arguments;
    uint32_t other = self->thread + 1000000; /* nobody's number here, and not the dying thread's */
    bool zero = wakes(self, 0), flag = wakes(self, MESA_WAITERS), owned = wakes(self, other);
    bool marked = wakes(self, other | MESA_WAITERS);
    const char *rule = !zero || marked ? "unknown" : owned ? (flag ? "newest" : "unknown") : flag ? "middle" : "oldest";
    printf("%s\nwoken at 0: %d, at the waiters bit alone: %d, at another owner: %d, at another owner with the bit: %d\n",
           rule, zero, flag, owned, marked);
    fflush(stdout);
    _Exit(0);
}

int main(void)
{
    mesa_run(tell);
}
