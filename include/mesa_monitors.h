/*
 * Mesa monitors over futex(2) and robust lists, for Linux on x64 and arm64. C11 with GNU attributes; one header.
 *
 * Locks, conditions, joins and exits go instruction by instruction as the templates of docs/lowering.md do, and each
 * function has its template's name. The points named beside the instructions are those of docs/protocol.md, where the
 * protocol is proved; of this file nothing is proved (docs/linux.md says what is tested).
 *
 * The kernel does the exit: it walks the robust list, looks at the pending entry, clears the id word and makes the
 * last wake (CLONE_CHILD_CLEARTID). It wakes as for futexes that processes share, so no call here is FUTEX_PRIVATE.
 *
 * Why the release keeps the waiters bit for good. The templates' release swaps the lock word for 0, and wakes one
 * sleeper where the old word had the bit. From Linux 6.2 on, at the pending entry of a thread that dies, the kernel
 * wakes a sleeper only where the lock word has no owner. So let 3 sleep on a lock that 2 holds. 2 gives it up: the word
 * is 0, and 2 owes a wake. 1 takes it by the first compare-and-swap, without the bit. 2 is killed before its wake; the
 * kernel finds 1's word at 2's pending entry and wakes nobody. 1 gives the lock up, finds no bit, and calls nobody: the
 * word is 0, and 3 sleeps for ever. Here 2 leaves the bit in the free word, so that 1 has to take it with the bit, and
 * owes the wake in its turn. Nobody may clear the bit afterwards, not even where a wake found nobody: another thread can
 * take the lock and get a sleeper between that wake and the clearing (beside/kernel/lost_wake.c shows both). It costs a
 * call of the kernel for each release, once a lock has had a waiter.
 *
 * Which kernels. Linux 6.2 and newer, and 6.1 from 6.1.183 on: their exits wake a sleeper at a pending lock word without
 * an owner, whatever else the word has. Older kernels (5.5 to 6.1.182, as far as changelogs tell) wake only where the
 * word is 0, and there a kill can lose a wake with this release. docs/linux.md has the three rules; beside/kernel/check
 * tries which one the kernel at hand has.
 */
#ifndef MESA_MONITORS_H
#define MESA_MONITORS_H

#ifndef _GNU_SOURCE
#define _GNU_SOURCE
#endif
#include <linux/futex.h>
#include <sched.h>
#include <stdatomic.h>
#include <stdbool.h>
#include <stddef.h>
#include <stdint.h>
#include <sys/mman.h>
#include <sys/syscall.h>

/* What is done before each shared instruction; a test puts its own in its place. */
#ifndef MESA_POINT
#define MESA_POINT(self, point) ((void)0)
#endif

/* An answer that no caller may drop: whether a monitor was found abandoned. */
#define MESA_MUST_LOOK __attribute__((warn_unused_result))

/* What may go unused in a program that was emitted. */
#define MESA_UNUSED __attribute__((unused))

/* The points before the shared instructions of the templates, by their names in crates/protocol. */
enum mesa_point {
    MESA_ENTER_PENDS, MESA_ENTER_TRIES,
    MESA_TAKE_READS, MESA_TAKE_MARKS, MESA_TAKE_SLEEPS, MESA_TAKE_TRIES,
    MESA_GOT_READS, MESA_GOT_LINKS, MESA_GOT_HEADS, MESA_GOT_UNPENDS,
    MESA_LEAVE_PENDS, MESA_LEAVE_READS, MESA_LEAVE_HEADS, MESA_LEAVE_DROPS, MESA_LEAVE_WAKES, MESA_HAS_LEFT,
    MESA_WAIT_READS, MESA_WAIT_SLEEPS,
    MESA_NOTIFY_ADDS, MESA_NOTIFY_WAKES,
    MESA_BROADCAST_ADDS, MESA_BROADCAST_MARKS, MESA_BROADCAST_READS, MESA_BROADCAST_MOVES,
    MESA_JOIN_CLAIMS, MESA_JOIN_READS, MESA_JOIN_SLEEPS, MESA_JOIN_LEARNS, MESA_JOIN_TAKES
};

/* ---- What the kernel reads ---- */

/* A lock word: the owner's kernel thread id, whether an owner died, and whether somebody may sleep on it. */
#define MESA_OWNER FUTEX_TID_MASK
#define MESA_DIED FUTEX_OWNER_DIED
#define MESA_WAITERS FUTEX_WAITERS

/* An entry of a robust list. */
struct mesa_link {
    _Atomic(struct mesa_link *) next;
};

/* What a thread hands to set_robust_list(2); struct robust_list_head with atomic pointers. */
struct mesa_robust {
    struct mesa_link head;
    long lock_offset;
    _Atomic(struct mesa_link *) pending;
};

/* A monitor: its link word, and its lock word behind it. All zero at the start. */
struct mesa_monitor {
    struct mesa_link link;
    _Atomic uint32_t lock;
};

/* A condition: its sequence word, which counts how often it was notified. */
struct mesa_condition {
    _Atomic uint32_t sequence;
};

_Static_assert(sizeof(struct mesa_robust) == sizeof(struct robust_list_head), "the kernel's layout");
_Static_assert(offsetof(struct mesa_robust, pending) == offsetof(struct robust_list_head, list_op_pending),
               "the kernel's layout");
_Static_assert(sizeof(_Atomic uint32_t) == 4, "a futex word has 32 bits");

/* ---- Processes ---- */

enum { MESA_MOST_PROCESSES = 1000, MESA_MOST_ARGUMENTS = 16, MESA_STACK = 1 << 20 };

/* How a process ended. */
enum mesa_outcome {
    MESA_NOT_YET = 0,
    MESA_RESULT_OUT_OF_RANGE = 1,
    MESA_DIVISION_BY_ZERO = 2,
    MESA_INDEX_OUT_OF_RANGE = 3,
    MESA_HANDLE_NOT_JOINABLE = 4,
    MESA_PROCESS_TABLE_FULL = 5,
    MESA_ABORTED = 6,
    MESA_ABANDONED_MONITOR = 7,
    MESA_JOINED_ABORTED = 8,
    MESA_ENDED = 16
};

struct mesa_process;

/* What a process does: it gets its arguments, and gives its result. */
typedef int32_t mesa_body(struct mesa_process *self, const int32_t *arguments);

/* A process, and the thread that it is. `id` holds the kernel's thread id from its making to its end, then 0. */
struct mesa_process {
    struct mesa_robust robust;
    _Atomic uint32_t id;
    _Atomic uint32_t claim;
    _Atomic uint32_t result;
    _Atomic uint32_t outcome;
    uint32_t thread;
    mesa_body *body;
    int32_t arguments[MESA_MOST_ARGUMENTS];
};

/* The processes by their numbers, from 1; how many were made; and how many of these haven't written their outcome. */
static struct mesa_process mesa_processes[MESA_MOST_PROCESSES + 1];
static _Atomic uint32_t mesa_made;
static _Atomic uint32_t mesa_running;

/* ---- Calls of the kernel. They leave errno alone: all threads have the first one's thread-local storage. ---- */

static inline long mesa_call(long number, long a, long b, long c, long d, long e, long f)
{
#if defined(__x86_64__)
    register long fourth __asm__("r10") = d;
    register long fifth __asm__("r8") = e;
    register long sixth __asm__("r9") = f;
    long answer;
    __asm__ volatile("syscall"
                     : "=a"(answer)
                     : "a"(number), "D"(a), "S"(b), "d"(c), "r"(fourth), "r"(fifth), "r"(sixth)
                     : "rcx", "r11", "memory");
    return answer;
#elif defined(__aarch64__)
    register long call __asm__("x8") = number;
    register long first __asm__("x0") = a;
    register long second __asm__("x1") = b;
    register long third __asm__("x2") = c;
    register long fourth __asm__("x3") = d;
    register long fifth __asm__("x4") = e;
    register long sixth __asm__("x5") = f;
    __asm__ volatile("svc 0"
                     : "+r"(first)
                     : "r"(call), "r"(second), "r"(third), "r"(fourth), "r"(fifth), "r"(sixth)
                     : "memory");
    return first;
#else
#error "mesa_monitors.h knows the calls of Linux on x64 and arm64 alone"
#endif
}

/* FUTEX_WAIT: sleeps where the word is as expected. It may return at any time. */
static inline long mesa_futex_wait(_Atomic uint32_t *word, uint32_t expected)
{
    return mesa_call(SYS_futex, (long)word, FUTEX_WAIT, expected, 0, 0, 0);
}

/* FUTEX_WAKE: wakes so many sleepers at most, and answers how many. */
static inline long mesa_futex_wake(_Atomic uint32_t *word, uint32_t most)
{
    return mesa_call(SYS_futex, (long)word, FUTEX_WAKE, most, 0, 0, 0);
}

/* FUTEX_CMP_REQUEUE: where the word is as expected, wakes so many sleepers, moves so many others to the other word. */
static inline long mesa_futex_requeue(_Atomic uint32_t *word, _Atomic uint32_t *to, uint32_t wake, uint32_t moves,
                                      uint32_t expected)
{
    return mesa_call(SYS_futex, (long)word, FUTEX_CMP_REQUEUE, wake, moves, (long)to, expected);
}

/* Compare-and-swap: answers the word as it was. */
static inline uint32_t mesa_swap(_Atomic uint32_t *word, uint32_t expected, uint32_t value)
{
    atomic_compare_exchange_strong(word, &expected, value);
    return expected;
}

/* Ends the thread; the kernel does the rest. What the thread wrote is seen before its id word is cleared. */
static inline _Noreturn void mesa_thread_exit(void)
{
    atomic_thread_fence(memory_order_seq_cst);
    for (;;)
        mesa_call(SYS_exit, 0, 0, 0, 0, 0, 0);
}

/* Writes a text in one call. */
static inline void mesa_write(int file, const char *text, size_t length)
{
    while (length > 0) {
        long written = mesa_call(SYS_write, file, (long)text, (long)length, 0, 0, 0);
        if (written <= 0)
            return;
        text += written;
        length -= (size_t)written;
    }
}

/* Ends all threads: the kernel refused what the machine never does. */
static inline _Noreturn void mesa_stop(const char *text, size_t length)
{
    mesa_write(2, text, length);
    for (;;)
        mesa_call(SYS_exit_group, 71, 0, 0, 0, 0, 0);
}

/* ---- Ends ---- */

/* Puts a signed number in decimal digits before `end`, and answers where it begins. */
static inline char *mesa_digits(char *end, int32_t number)
{
    int64_t rest = number < 0 ? -(int64_t)number : number;
    do {
        *--end = (char)('0' + rest % 10);
        rest /= 10;
    } while (rest > 0);
    if (number < 0)
        *--end = '-';
    return end;
}

/* Says on standard error which processes aborted, as `mesamon run` does; a number has at most four digits. */
static inline void mesa_account(void)
{
    uint32_t made = atomic_load(&mesa_made);
    for (uint32_t number = 1; number <= made; number++) {
        uint32_t outcome = atomic_load(&mesa_processes[number].outcome);
        char digits[4];
        char *begin = mesa_digits(digits + 4, (int32_t)number);
        if (outcome == MESA_ENDED)
            continue;
        mesa_write(2, "process ", 8);
        mesa_write(2, begin, (size_t)(digits + 4 - begin));
        mesa_write(2, " aborted: fault ", 16);
        mesa_digits(digits + 1, (int32_t)outcome);
        digits[1] = '\n';
        mesa_write(2, digits, 2);
    }
}

/* END and FAULT: writes the outcome, and exits. The last one tells how all have ended. */
static inline _Noreturn void mesa_finish(struct mesa_process *self, uint32_t outcome)
{
    atomic_store(&self->outcome, outcome);
    if (atomic_fetch_sub(&mesa_running, 1) == 1)
        mesa_account();
    mesa_thread_exit();
}

/* FAULT k: what the thread holds is left on its robust list, so that the kernel marks it as died. */
static inline _Noreturn void mesa_fault(struct mesa_process *self, enum mesa_outcome fault)
{
    mesa_finish(self, fault);
}

/* ---- Locks ---- */

/* TAKE: loads the lock word; marks it with waiters and sleeps on it while it has an owner; else takes it, with
 * waiters, as others may sleep there. Answers the word that it took. */
static inline uint32_t mesa_take(struct mesa_process *self, struct mesa_monitor *monitor)
{
    for (;;) {
        MESA_POINT(self, MESA_TAKE_READS);
        uint32_t seen = atomic_load(&monitor->lock);
        if ((seen & MESA_OWNER) != 0) {
            MESA_POINT(self, MESA_TAKE_MARKS);
            if (mesa_swap(&monitor->lock, seen, seen | MESA_WAITERS) != seen)
                continue;
            MESA_POINT(self, MESA_TAKE_SLEEPS);
            mesa_futex_wait(&monitor->lock, seen | MESA_WAITERS);
        } else {
            MESA_POINT(self, MESA_TAKE_TRIES);
            if (mesa_swap(&monitor->lock, seen, self->thread | MESA_WAITERS) == seen)
                return seen;
        }
    }
}

/* GOT: puts the entry at the front of the robust list: link, head, pending. Answers whether the monitor that was
 * taken was abandoned: then its RECOVER part comes next, or a fault. */
static inline bool mesa_got(struct mesa_process *self, struct mesa_monitor *monitor, uint32_t taken)
{
    MESA_POINT(self, MESA_GOT_READS);
    struct mesa_link *first = atomic_load(&self->robust.head.next);
    MESA_POINT(self, MESA_GOT_LINKS);
    atomic_store(&monitor->link.next, first);
    MESA_POINT(self, MESA_GOT_HEADS);
    atomic_store(&self->robust.head.next, &monitor->link);
    MESA_POINT(self, MESA_GOT_UNPENDS);
    atomic_store(&self->robust.pending, NULL);
    return (taken & MESA_DIED) != 0;
}

/* ENTER: pending; the lock word by one compare-and-swap, where it is 0; else TAKE; then GOT. */
MESA_MUST_LOOK static inline bool mesa_enter(struct mesa_process *self, struct mesa_monitor *monitor)
{
    MESA_POINT(self, MESA_ENTER_PENDS);
    atomic_store(&self->robust.pending, &monitor->link);
    MESA_POINT(self, MESA_ENTER_TRIES);
    uint32_t taken = mesa_swap(&monitor->lock, 0, self->thread);
    if (taken != 0)
        taken = mesa_take(self, monitor);
    return mesa_got(self, monitor, taken);
}

/* The release that drops the owner: its number is taken off the lock word by one fetch-and-subtract, so that the waiters
 * bit stays for good; where the bit was set, one sleeper is woken. Who gives a lock up owns it: the word's owner part is
 * self's number and no death is marked, so the difference is the waiters bit alone. */
static inline void mesa_release(struct mesa_process *self, struct mesa_monitor *monitor)
{
    MESA_POINT(self, MESA_LEAVE_DROPS);
    uint32_t seen = atomic_fetch_sub(&monitor->lock, self->thread);
    if ((seen & MESA_WAITERS) != 0) {
        MESA_POINT(self, MESA_LEAVE_WAKES);
        mesa_futex_wake(&monitor->lock, 1);
    }
}

/* LEAVE: pending, link, head, then the release. The innermost monitor is the one that is given up. */
static inline void mesa_leave(struct mesa_process *self, struct mesa_monitor *monitor)
{
    MESA_POINT(self, MESA_LEAVE_PENDS);
    atomic_store(&self->robust.pending, &monitor->link);
    MESA_POINT(self, MESA_LEAVE_READS);
    struct mesa_link *next = atomic_load(&monitor->link.next);
    MESA_POINT(self, MESA_LEAVE_HEADS);
    atomic_store(&self->robust.head.next, next);
    mesa_release(self, monitor);
}

/* EXIT: LEAVE, then pending is cleared. */
static inline void mesa_exit(struct mesa_process *self, struct mesa_monitor *monitor)
{
    mesa_leave(self, monitor);
    MESA_POINT(self, MESA_HAS_LEFT);
    atomic_store(&self->robust.pending, NULL);
}

/* ---- Conditions; the caller holds the monitor, as its innermost one. ---- */

/* WAIT: the sequence word, read under the lock; LEAVE; sleeps on the sequence word as it was read; TAKE; GOT. */
MESA_MUST_LOOK static inline bool mesa_wait(struct mesa_process *self, struct mesa_monitor *monitor,
                                            struct mesa_condition *condition)
{
    MESA_POINT(self, MESA_WAIT_READS);
    uint32_t sequence = atomic_load(&condition->sequence);
    mesa_leave(self, monitor);
    MESA_POINT(self, MESA_WAIT_SLEEPS);
    mesa_futex_wait(&condition->sequence, sequence);
    return mesa_got(self, monitor, mesa_take(self, monitor));
}

/* NOTIFY: the sequence word goes on by one; one that sleeps on it is woken. */
static inline void mesa_notify(struct mesa_process *self, struct mesa_condition *condition)
{
    (void)self;
    MESA_POINT(self, MESA_NOTIFY_ADDS);
    atomic_fetch_add(&condition->sequence, 1);
    MESA_POINT(self, MESA_NOTIFY_WAKES);
    mesa_futex_wake(&condition->sequence, 1);
}

/* BROADCAST: the sequence word goes on by one; the lock word is marked with waiters; all that sleep on the sequence
 * word are moved to the lock word. */
static inline void mesa_broadcast(struct mesa_process *self, struct mesa_monitor *monitor,
                                  struct mesa_condition *condition)
{
    (void)self;
    MESA_POINT(self, MESA_BROADCAST_ADDS);
    atomic_fetch_add(&condition->sequence, 1);
    MESA_POINT(self, MESA_BROADCAST_MARKS);
    atomic_fetch_or(&monitor->lock, MESA_WAITERS);
    MESA_POINT(self, MESA_BROADCAST_READS);
    uint32_t sequence = atomic_load(&condition->sequence);
    MESA_POINT(self, MESA_BROADCAST_MOVES);
    mesa_futex_requeue(&condition->sequence, &monitor->lock, 0, INT32_MAX, sequence);
}

/* ---- Processes that are made and joined ---- */

/* A thread begins: the kernel learns of its robust list, and its body runs to its end. */
static inline _Noreturn void mesa_begin(struct mesa_process *self)
{
    self->thread = atomic_load(&self->id);
    atomic_store(&self->robust.head.next, &self->robust.head);
    self->robust.lock_offset = offsetof(struct mesa_monitor, lock) - offsetof(struct mesa_monitor, link);
    if (mesa_call(SYS_set_robust_list, (long)&self->robust, sizeof self->robust, 0, 0, 0, 0) != 0)
        mesa_stop("no robust list\n", 15);
    atomic_store(&self->result, (uint32_t)self->body(self, self->arguments));
    mesa_finish(self, MESA_ENDED);
}

static inline int mesa_thread(void *self)
{
    mesa_begin(self);
}

/* FORK: a process of the next number, with its arguments; ProcessTableFull where all numbers are given out. */
static inline int32_t mesa_fork(struct mesa_process *self, mesa_body *body, const int32_t *arguments, size_t count)
{
    const int flags = CLONE_VM | CLONE_FS | CLONE_FILES | CLONE_SIGHAND | CLONE_THREAD | CLONE_SYSVSEM
                      | CLONE_PARENT_SETTID | CLONE_CHILD_CLEARTID;
    uint32_t made = atomic_load(&mesa_made);
    do {
        if (made == MESA_MOST_PROCESSES)
            mesa_fault(self, MESA_PROCESS_TABLE_FULL);
    } while (!atomic_compare_exchange_strong(&mesa_made, &made, made + 1));
    struct mesa_process *child = &mesa_processes[made + 1];
    child->body = body;
    for (size_t i = 0; i < count; i++)
        child->arguments[i] = arguments[i];
    atomic_fetch_add(&mesa_running, 1);
    long stack = mesa_call(SYS_mmap, 0, MESA_STACK, PROT_READ | PROT_WRITE,
                           MAP_PRIVATE | MAP_ANONYMOUS | MAP_NORESERVE | MAP_STACK, -1, 0);
    if (stack < 0 && stack > -4096)
        mesa_stop("no stack\n", 9);
    if (clone(mesa_thread, (char *)stack + MESA_STACK, flags, child, (pid_t *)&child->id, NULL, (pid_t *)&child->id) < 0)
        mesa_stop("no thread\n", 10);
    return (int32_t)(made + 1);
}

/* JOIN: claims the process, once for all; sleeps on its id word until the kernel has cleared it. Answers whether it
 * ended; then `result`, if any, is what it returned. */
static inline bool mesa_join(struct mesa_process *self, int32_t handle, int32_t *result)
{
    if (handle < 1 || handle > MESA_MOST_PROCESSES)
        mesa_fault(self, MESA_HANDLE_NOT_JOINABLE);
    struct mesa_process *child = &mesa_processes[handle];
    MESA_POINT(self, MESA_JOIN_CLAIMS);
    if (atomic_exchange(&child->claim, 1) != 0)
        mesa_fault(self, MESA_HANDLE_NOT_JOINABLE);
    for (;;) {
        MESA_POINT(self, MESA_JOIN_READS);
        uint32_t id = atomic_load(&child->id);
        if (id == 0)
            break;
        MESA_POINT(self, MESA_JOIN_SLEEPS);
        mesa_futex_wait(&child->id, id);
    }
    MESA_POINT(self, MESA_JOIN_LEARNS);
    if (atomic_load(&child->outcome) != MESA_ENDED)
        return false;
    MESA_POINT(self, MESA_JOIN_TAKES);
    uint32_t taken = atomic_load(&child->result);
    if (result != NULL)
        *result = (int32_t)taken;
    return true;
}

/* The calling thread, the process's first and only one, becomes process 1. It never returns: the program is over once
 * all its threads are, with status 0. */
static inline _Noreturn void mesa_run(mesa_body *body)
{
    struct mesa_process *first = &mesa_processes[1];
    first->body = body;
    atomic_store(&mesa_made, 1);
    atomic_store(&mesa_running, 1);
    atomic_store(&first->id, (uint32_t)mesa_call(SYS_set_tid_address, (long)&first->id, 0, 0, 0, 0, 0));
    mesa_begin(first);
}

/* ---- Values: signed 32-bit numbers; FALSE is 0, TRUE is 1, a handle is its process's number. ---- */

static inline int32_t mesa_add(struct mesa_process *self, int32_t left, int32_t right)
{
    int32_t value;
    if (__builtin_add_overflow(left, right, &value))
        mesa_fault(self, MESA_RESULT_OUT_OF_RANGE);
    return value;
}

static inline int32_t mesa_subtract(struct mesa_process *self, int32_t left, int32_t right)
{
    int32_t value;
    if (__builtin_sub_overflow(left, right, &value))
        mesa_fault(self, MESA_RESULT_OUT_OF_RANGE);
    return value;
}

static inline int32_t mesa_multiply(struct mesa_process *self, int32_t left, int32_t right)
{
    int32_t value;
    if (__builtin_mul_overflow(left, right, &value))
        mesa_fault(self, MESA_RESULT_OUT_OF_RANGE);
    return value;
}

/* Cuts toward zero. */
static inline int32_t mesa_divide(struct mesa_process *self, int32_t left, int32_t right)
{
    if (right == 0)
        mesa_fault(self, MESA_DIVISION_BY_ZERO);
    if (left == INT32_MIN && right == -1)
        mesa_fault(self, MESA_RESULT_OUT_OF_RANGE);
    return left / right;
}

/* With the sign of its left operand. */
static inline int32_t mesa_modulo(struct mesa_process *self, int32_t left, int32_t right)
{
    if (right == 0)
        mesa_fault(self, MESA_DIVISION_BY_ZERO);
    return right == -1 ? 0 : left % right;
}

static inline int32_t mesa_negate(struct mesa_process *self, int32_t value)
{
    return mesa_subtract(self, 0, value);
}

static inline int32_t mesa_equal(int32_t left, int32_t right) { return left == right; }
static inline int32_t mesa_not_equal(int32_t left, int32_t right) { return left != right; }
static inline int32_t mesa_less(int32_t left, int32_t right) { return left < right; }
static inline int32_t mesa_less_equal(int32_t left, int32_t right) { return left <= right; }
static inline int32_t mesa_greater(int32_t left, int32_t right) { return left > right; }
static inline int32_t mesa_greater_equal(int32_t left, int32_t right) { return left >= right; }
static inline int32_t mesa_and(int32_t left, int32_t right) { return left & right; }
static inline int32_t mesa_or(int32_t left, int32_t right) { return left | right; }
static inline int32_t mesa_not(int32_t value) { return value == 0; }

/* INDEX: the element of this number, of so many. */
static inline int32_t *mesa_element(struct mesa_process *self, int32_t *array, int32_t count, int32_t index)
{
    if (index < 0 || index >= count)
        mesa_fault(self, MESA_INDEX_OUT_OF_RANGE);
    return &array[index];
}

/* PRINT: a number on a line of its own, by one call. */
static inline void mesa_print(int32_t number)
{
    char line[12];
    line[sizeof line - 1] = '\n';
    char *begin = mesa_digits(line + sizeof line - 1, number);
    mesa_write(1, begin, (size_t)(line + sizeof line - begin));
}

#endif
