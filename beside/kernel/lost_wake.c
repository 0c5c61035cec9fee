/*
 * A wake that is lost where one thread is killed, on the kernel at hand: four releases of a lock, in two schedules.
 * Thread 3 is asleep on the lock in the end; nobody else is left, and the lock is free. Thread 2 dies by exit(2) with
 * the lock as its pending entry, which does for its robust list what a kill does.
 *
 * `owed`: 2 gives the lock up and owes a wake; 1 takes the word before it; 2 dies; 1 gives the lock up.
 * `cleared`: 1 gives the lock up, and its wake finds nobody; before it clears the waiters bit, 2 takes the lock, 3
 * sleeps on it, and 2 gives it up and owes a wake; 1 clears the bit, takes the lock again, 2 dies, 1 gives it up.
 */
#include "mesa_monitors.h"
#include <stdio.h>
#include <stdlib.h>
#include <string.h>
#include <sys/wait.h>
#include <unistd.h>

/* DROPS is the header's own. */
enum release { SWAPS, CLEARS, KEEPS, DROPS };

static struct mesa_monitor lock;
static enum release release;
static bool cleared;
static _Atomic int stage, woke;

static void at(int number)
{
    while (atomic_load(&stage) != number)
        usleep(1000);
}

static void next(void)
{
    atomic_fetch_add(&stage, 1);
}

static void must(bool holds, const char *what)
{
    if (holds)
        return;
    fprintf(stderr, "not as planned: %s\n", what);
    _Exit(70);
}

/* Takes a lock that is free. */
static void take_free(struct mesa_process *self)
{
    must((atomic_load(&lock.lock) & MESA_OWNER) == 0, "free");
    must(!mesa_enter(self, &lock), "not abandoned");
}

/* Gives the lock word up by the release that is shown: answers what it was. */
static uint32_t release_word(struct mesa_process *self)
{
    switch (release) {
    case SWAPS:
        return atomic_exchange(&lock.lock, 0);
    case DROPS:
        return atomic_fetch_sub(&lock.lock, self->thread);
    default:
        return atomic_fetch_and(&lock.lock, MESA_WAITERS);
    }
}

/* Gives the lock up, but for the wake: answers whether one is owed. */
static bool give_up(struct mesa_process *self)
{
    atomic_store(&self->robust.pending, &lock.link);
    atomic_store(&self->robust.head.next, atomic_load(&lock.link.next));
    return (release_word(self) & MESA_WAITERS) != 0;
}

/* Gives the lock up with the wake, and, where the release clears, with the clearing behind a wake of nobody. */
static void leave(struct mesa_process *self, bool early)
{
    if (give_up(self)) {
        long woken = mesa_futex_wake(&lock.lock, 1);
        if (early) {
            next();
            at(6);
        }
        if (release == CLEARS && woken == 0)
            mesa_swap(&lock.lock, MESA_WAITERS, 0);
    } else {
        must(!early, "a wake is owed");
    }
    atomic_store(&self->robust.pending, NULL);
}

/* 2 gives the lock up and dies before its wake, once it may. */
static void die_owing(struct mesa_process *self, int then)
{
    must(give_up(self), "2 owes a wake");
    next();
    at(then);
    mesa_thread_exit();
}

static int32_t one(struct mesa_process *self, const int32_t *arguments)
{
    (void)arguments;
    if (cleared) {
        at(1); /* the lock is taken: TAKE leaves the bit */
        atomic_store(&self->robust.pending, &lock.link);
        must(mesa_swap(&lock.lock, 0, self->thread) != 0, "held");
        next();
        at(3);
        mesa_got(self, &lock, mesa_take(self, &lock));
        leave(self, true);
        take_free(self);
        next();
    } else {
        at(3);
        take_free(self);
        next();
    }
    mesa_join(self, 3, NULL);
    leave(self, false);
    return 0;
}

static int32_t two(struct mesa_process *self, const int32_t *arguments)
{
    (void)arguments;
    at(0);
    take_free(self);
    next();
    if (cleared) {
        at(2);
        leave(self, false);
        next();
        at(4);
        mesa_got(self, &lock, mesa_take(self, &lock));
        next();
        usleep(100000); /* 3 falls asleep */
        die_owing(self, 7);
    }
    at(2);
    usleep(100000);
    die_owing(self, 4);
    return 0;
}

static int32_t three(struct mesa_process *self, const int32_t *arguments)
{
    (void)arguments;
    at(cleared ? 5 : 1);
    if (!cleared)
        next();
    must(!mesa_enter(self, &lock), "not abandoned");
    mesa_exit(self, &lock);
    atomic_store(&woke, 1);
    return 0;
}

/* Process 1: it makes the others, numbered from 2, and tells what came of it. */
static int32_t tell(struct mesa_process *self, const int32_t *arguments)
{
    (void)arguments;
    mesa_fork(self, one, NULL, 0);
    mesa_fork(self, two, NULL, 0);
    mesa_fork(self, three, NULL, 0);
    sleep(1);
    _Exit(atomic_load(&woke) ? 0 : 1);
}

static void show(const char *name, enum release which, bool second)
{
    pid_t child = fork();
    int status = 0;
    if (child == 0) {
        release = which;
        cleared = second;
        mesa_run(tell);
    }
    waitpid(child, &status, 0);
    if (WEXITSTATUS(status) == 70)
        exit(70);
    printf("%s, %s: %s\n", second ? "cleared" : "owed", name, WEXITSTATUS(status) == 0 ? "woken" : "sleeps for ever");
    fflush(stdout);
}

int main(void)
{
    for (int second = 0; second < 2; second++) {
        if (second == 0)
            show("the word swapped for 0", SWAPS, second);
        show("the bit cleared behind a wake of nobody", CLEARS, second);
        show("the bit kept for good", KEEPS, second);
        show("the owner's number taken off", DROPS, second);
    }
    return 0;
}
