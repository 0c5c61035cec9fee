/*
 * Does on the kernel at hand what rows of crates/test_layers do on the machine: waits, wakes, requeues and exits over 512
 * words by threads that have numbers. It reads the rows on standard input, and prints each and what came of it, as the
 * program of test_layers does; check compares the two. An exit's steps can't be counted here.
 *
 * A word of the machine is the lock word of an entry here, whose link points where the word before it says: so the
 * entry of the machine at e is the link beside word e + 1. Thread 5's number stands for the kernel thread that exits
 * where `exit 5` is done. Who sleeps on a word is found by waking them one by one, after which they sleep again.
 */
#include "mesa_monitors.h"
#include <stdio.h>
#include <stdlib.h>
#include <string.h>
#include <sys/wait.h>
#include <unistd.h>

enum { WORDS = 512, THREADS = 64, AGAIN = -11, MOST_ROWS = 4096, WIDTH = 256 };

/* Where a sleeper stands. */
enum stand { NOT_MADE, AWAKE, CALLED, WAITS, REFUSED };

struct sleeper {
    int32_t handle;
    uint32_t on;
    uint32_t expected;
    _Atomic uint32_t stand;
};

/* Numbers of threads, in an order. */
struct threads {
    uint32_t count;
    uint32_t number[THREADS + 1];
};

static struct mesa_monitor cells[WORDS];
static struct sleeper sleepers[THREADS + 1];
static struct mesa_robust dying_robust;
static _Atomic uint32_t dying_id, dying_word;
static char rows[MOST_ROWS][WIDTH];
static int first_row, last_row;

/* ---- Threads ---- */

/* Waits on a word each time that it is called. */
static int32_t sleeper_body(struct mesa_process *self, const int32_t *arguments)
{
    struct sleeper *sleeper = &sleepers[arguments[0]];
    (void)self;
    for (;;) {
        uint32_t stand = atomic_load(&sleeper->stand);
        if (stand != CALLED) {
            mesa_futex_wait(&sleeper->stand, stand);
            continue;
        }
        atomic_store(&sleeper->stand, WAITS);
        long answer = mesa_futex_wait(&cells[sleeper->on].lock, sleeper->expected);
        atomic_store(&sleeper->stand, answer == AGAIN ? REFUSED : AWAKE);
    }
    return 0;
}

/* What /proc says of a thread of this process: `S` for one that sleeps, 0 for none. */
static char state_of(uint32_t thread)
{
    char name[64], line[128], *end;
    snprintf(name, sizeof name, "/proc/self/task/%u/stat", thread);
    FILE *file = fopen(name, "r");
    if (file == NULL)
        return 0;
    end = fgets(line, sizeof line, file);
    fclose(file);
    end = end == NULL ? NULL : strrchr(line, ')');
    return end == NULL ? 0 : end[2];
}

/* Waits until each sleeper sleeps, on a word or until it is called. */
static void settle(void)
{
    for (uint32_t number = 1; number <= THREADS; number++) {
        struct sleeper *it = &sleepers[number];
        uint32_t stand = atomic_load(&it->stand);
        while (stand != NOT_MADE
               && (stand == CALLED || state_of(mesa_processes[it->handle].thread) != 'S'
                   || stand != atomic_load(&it->stand))) {
            usleep(200);
            stand = atomic_load(&it->stand);
        }
    }
}

/* Has a thread wait on a word, and answers whether it sleeps. */
static bool put(struct mesa_process *self, uint32_t number, uint32_t on, uint32_t expected)
{
    struct sleeper *sleeper = &sleepers[number];
    int32_t argument = (int32_t)number;
    uint32_t before = atomic_load(&sleeper->stand);
    sleeper->on = on;
    sleeper->expected = expected;
    atomic_store(&sleeper->stand, CALLED);
    if (before == NOT_MADE)
        sleeper->handle = mesa_fork(self, sleeper_body, &argument, 1);
    mesa_futex_wake(&sleeper->stand, 1);
    settle();
    return atomic_load(&sleeper->stand) == WAITS;
}

static bool is_asleep(uint32_t number)
{
    return atomic_load(&sleepers[number].stand) == WAITS;
}

/* Those who sleep on a word, the first one first. */
static struct threads list(struct mesa_process *self, uint32_t on)
{
    struct threads found = {0};
    bool asleep[THREADS + 1];
    for (;;) {
        for (uint32_t number = 1; number <= THREADS; number++)
            asleep[number] = is_asleep(number);
        if (mesa_futex_wake(&cells[on].lock, 1) == 0)
            break;
        settle();
        for (uint32_t number = 1; number <= THREADS; number++)
            if (asleep[number] && !is_asleep(number))
                found.number[found.count++] = number;
    }
    for (uint32_t i = 0; i < found.count; i++)
        put(self, found.number[i], on, atomic_load(&cells[on].lock));
    return found;
}

/* Those of a list who sleep no longer. */
static struct threads woken_of(const struct threads *before)
{
    struct threads woken = {0};
    settle();
    for (uint32_t i = 0; i < before->count; i++)
        if (!is_asleep(before->number[i]))
            woken.number[woken.count++] = before->number[i];
    return woken;
}

/* ---- Exits ---- */

/* The entry of this number on the kernel; the list's end for 0. */
static struct mesa_link *entry_of(uint32_t entry, struct mesa_link *end)
{
    return entry == 0 ? end : &cells[entry + 1].link;
}

/* The word that a thread of this number owns is owned by a kernel thread. */
static void give(uint32_t entry, uint32_t number, uint32_t thread)
{
    uint32_t word = atomic_load(&cells[entry + 1].lock);
    if (entry != 0 && (word & MESA_OWNER) == number)
        atomic_store(&cells[entry + 1].lock, (word & ~MESA_OWNER) | thread);
}

/* Takes over a robust list and an id word, and ends once it may. */
static int32_t dying_body(struct mesa_process *self, const int32_t *arguments)
{
    (void)arguments;
    mesa_call(SYS_set_robust_list, (long)&dying_robust, sizeof dying_robust, 0, 0, 0, 0);
    mesa_call(SYS_set_tid_address, (long)&cells[atomic_load(&dying_word)].lock, 0, 0, 0, 0, 0);
    atomic_store(&dying_id, self->thread);
    while (atomic_load(&dying_id) != 0)
        mesa_futex_wait(&dying_id, self->thread);
    mesa_thread_exit();
}

/* Makes the list of the words of a thread, and lets a kernel thread exit that has it. */
static void exit_as(struct mesa_process *self, uint32_t number)
{
    uint32_t block = 1 + 6 * (number - 1), thread;
    atomic_store(&dying_word, block + 2);
    mesa_fork(self, dying_body, NULL, 0);
    while ((thread = atomic_load(&dying_id)) == 0)
        usleep(200);
    uint32_t head = atomic_load(&cells[block].lock), pending = atomic_load(&cells[block + 1].lock);
    dying_robust.lock_offset = offsetof(struct mesa_monitor, lock) - offsetof(struct mesa_monitor, link);
    atomic_store(&dying_robust.head.next, entry_of(head, &dying_robust.head));
    atomic_store(&dying_robust.pending, entry_of(pending, NULL));
    for (uint32_t entry = head; entry != 0; entry = atomic_load(&cells[entry].lock)) {
        struct mesa_link *next = entry_of(atomic_load(&cells[entry].lock), &dying_robust.head);
        atomic_store(&cells[entry + 1].link.next, next);
        give(entry, number, thread);
    }
    give(pending, number, thread);
    atomic_store(&dying_id, 0);
    mesa_futex_wake(&dying_id, 1);
    while (state_of(thread) != 0)
        usleep(200);
    settle();
}

/* ---- Rows ---- */

static void show(const struct threads *threads)
{
    printf("[");
    for (uint32_t i = 0; i < threads->count; i++)
        printf(i == 0 ? "%u" : ", %u", threads->number[i]);
    printf("]");
}

/* The machine's largest number means all; the kernel's numbers are signed. */
static uint32_t most(unsigned long number)
{
    return number > INT32_MAX ? INT32_MAX : (uint32_t)number;
}

static void requeue(struct mesa_process *self, const unsigned long *n)
{
    struct threads before = list(self, n[0]), moved = {0};
    long answer = mesa_futex_requeue(&cells[n[0]].lock, &cells[n[1]].lock, most(n[2]), most(n[3]), n[4]);
    if (answer == AGAIN) {
        printf("Again");
        return;
    }
    struct threads woken = woken_of(&before);
    for (uint32_t i = 0; i < before.count && woken.count + moved.count < answer; i++)
        if (is_asleep(before.number[i]))
            moved.number[moved.count++] = before.number[i];
    for (uint32_t i = 0; i < moved.count; i++)
        sleepers[moved.number[i]].on = n[1];
    show(&woken);
    printf(" moved ");
    show(&moved);
}

static void wake(struct mesa_process *self, const unsigned long *n)
{
    struct threads before = list(self, n[0]);
    mesa_futex_wake(&cells[n[0]].lock, most(n[1]));
    struct threads woken = woken_of(&before);
    show(&woken);
}

static void wait_on(struct mesa_process *self, const unsigned long *n)
{
    if (is_asleep(n[0]))
        printf("outside");
    else
        printf(put(self, n[0], n[1], n[2]) ? "Sleeps" : "Again");
}

/* Does a row of this name with these numbers. */
static void row(struct mesa_process *self, const char *name, const unsigned long *n)
{
    if (strcmp(name, "store") == 0)
        atomic_store(&cells[n[0]].lock, n[1]), printf("done");
    else if (strcmp(name, "load") == 0)
        printf("%u", atomic_load(&cells[n[0]].lock));
    else if (strcmp(name, "sleep") == 0)
        printf(put(self, n[0], n[1], atomic_load(&cells[n[1]].lock)) ? "done" : "outside");
    else if (strcmp(name, "wait") == 0)
        wait_on(self, n);
    else if (strcmp(name, "wake") == 0)
        wake(self, n);
    else if (strcmp(name, "requeue") == 0)
        requeue(self, n);
    else if (strcmp(name, "exit") == 0)
        exit_as(self, n[0]), printf("exited");
    else if (strcmp(name, "asleep") == 0)
        is_asleep(n[0]) ? printf("on %u", sleepers[n[0]].on) : printf("awake");
    else if (strcmp(name, "list") == 0) {
        struct threads found = list(self, n[0]);
        show(&found);
    } else
        printf(strcmp(name, "buckets") == 0 ? "done" : "no row");
}

/* Process 1 of a run: it does the rows from one that makes all anew to the next. */
static int32_t section(struct mesa_process *self, const int32_t *arguments)
{
    (void)arguments;
    for (int i = first_row; i < last_row; i++) {
        char name[WIDTH];
        unsigned long n[5] = {0};
        printf("%s\n", rows[i]);
        if (rows[i][0] == '#')
            continue;
        sscanf(rows[i], "%255s %lu %lu %lu %lu %lu", name, &n[0], &n[1], &n[2], &n[3], &n[4]);
        printf("  ");
        row(self, name, n);
        printf("\n");
    }
    fflush(stdout);
    _Exit(0);
}

int main(void)
{
    int count = 0;
    while (count < MOST_ROWS && fgets(rows[count], WIDTH, stdin) != NULL)
        rows[count][strcspn(rows[count], "\n")] = 0, count++;
    for (first_row = 0; first_row < count; first_row = last_row) {
        for (last_row = first_row + 1; last_row < count && strncmp(rows[last_row], "buckets", 7) != 0; last_row++)
            continue;
        pid_t child = fork();
        if (child == 0)
            mesa_run(section);
        waitpid(child, NULL, 0);
    }
    return 0;
}
