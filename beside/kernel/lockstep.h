/*
 * Included before a program that was emitted, for lockstep.py: it runs the program by one schedule after another, and
 * tells each shared instruction that a run has done: its process, its point, its address and its value as the machine
 * has them, and whom it woke.
 *
 * The threads go in turn, from one point to the next. Atomic operations are those of C, and are seen on their way. What
 * a futex call did is seen by who sleeps on which word before and behind it: a requeue to the word itself counts them.
 * What a turn woke is seen once everybody stands before a point, sleeps, or is gone.
 *
 * A line of standard input is a run: its seed; the process that is to be killed (0 for none), and from its point of which
 * number on; -1 where it is to be killed before a point, else after so many turns of others in its sleep; and of how many
 * turns one is a stray wake (0 for none).
 */
#ifndef _GNU_SOURCE
#define _GNU_SOURCE
#endif
#include <stdatomic.h>
#include <stdbool.h>
#include <stdint.h>
struct mesa_process;
static void lock_point(struct mesa_process *self, int point);
static void lock_saw(int name, const volatile void *word, uint64_t value);
#define MESA_POINT(self, point) lock_point(self, point)

/* ---- The operations on atomic words, seen on their way ---- */

enum { LOAD, STORE, SWAP, CAS, AOR, AADD, FWAIT, FWAKE, FREQ, PRINT, FORK, ENDS, DIE, EXIT, KILL, STRAY };

#define LOCK_ORDER memory_order_seq_cst
#define LOCK_SAW(name, word, operation) \
    ({ __auto_type lock_value = operation; lock_saw(name, word, (uintptr_t)lock_value); lock_value; })
#undef atomic_load
#undef atomic_store
#undef atomic_exchange
#undef atomic_fetch_or
#undef atomic_fetch_add
#undef atomic_fetch_sub
#undef atomic_compare_exchange_strong
#define atomic_load(word) LOCK_SAW(LOAD, word, *(word))
#define atomic_store(word, value) \
    ((void)({ __auto_type lock_value = value; lock_saw(STORE, word, (uintptr_t)lock_value); *(word) = lock_value; }))
#define atomic_exchange(word, value) LOCK_SAW(SWAP, word, atomic_exchange_explicit(word, value, LOCK_ORDER))
#define atomic_fetch_or(word, value) LOCK_SAW(AOR, word, atomic_fetch_or_explicit(word, value, LOCK_ORDER))
#define atomic_fetch_add(word, value) LOCK_SAW(AADD, word, atomic_fetch_add_explicit(word, value, LOCK_ORDER))
#define atomic_fetch_sub(word, value) LOCK_SAW(AADD, word, atomic_fetch_sub_explicit(word, value, LOCK_ORDER))
#define atomic_compare_exchange_strong(word, expected, value) \
    ({ bool lock_done = atomic_compare_exchange_strong_explicit(word, expected, value, LOCK_ORDER, LOCK_ORDER); \
       lock_saw(CAS, word, *(expected)); lock_done; })
#include "mesa_monitors.h"
#include <fcntl.h>
#include <pthread.h>
#include <signal.h>
#include <stdio.h>
#include <stdlib.h>
#include <string.h>
#include <sys/prctl.h>
#include <sys/wait.h>
#include <unistd.h>

enum { MOST_TURNS = 3000, MOST_SEEN = 16384, MOST_HERE = 63, MOST_LOCKS = 16, SECONDS = 60, KILLED = 9 };

/* Where a thread stands that isn't before a point: at its beginning; before it writes how it ended; nowhere. */
enum { AT_BEGIN = 1 << 20, AT_END, NOWHERE };

/* The monitors' words and the conditions', and their addresses in the machine; the last one is NULL. lockstep.py writes
 * it behind the program. */
extern const struct lock_place {
    const volatile void *word;
    uint32_t address;
    char kind; /* of a link, a lock, a sequence word or a member: e, L, s, m */
} lock_places[];

static struct {
    unsigned long seed;
    uint32_t process, number, strays;
    int delay;
} plan;

/* What was done: the operation, its point, address and value, and sets of whom it woke and moved. */
struct seen {
    uint32_t process, address, value;
    int point, name;
    uint64_t woken, moved;
};

/* Where a process stands: before the point `at - 1`, or on its way, asleep or gone where that is 0; its last point, what it
 * does there and with which word, to how many it came; on which word it sleeps, and since when;
 * the words that it touched last; its futex call of this turn; and what its exit left. */
static struct seat {
    _Atomic uint32_t at;
    bool dies, begun, over, gone;
    int point, name;
    const volatile void *word;
    uint32_t count, since, entries;
    const volatile void *asleep, *lock, *sequence, *id;
    struct seen *call;
    uint32_t locks[MOST_LOCKS];
} seats[MOST_HERE + 1];

static struct seen seen[MOST_SEEN];
static uint32_t seen_count, holder, turns;
static int stands_at = NOWHERE;
static _Atomic uint32_t news;
static uint64_t drawn;

static uint32_t draw(void)
{
    drawn = drawn * 6364136223846793005u + 1442695040888963407u;
    return (uint32_t)(drawn >> 33);
}

/* ---- Words as the machine has them ---- */

static const struct lock_place *place_of(const volatile void *word)
{
    const struct lock_place *place = lock_places;
    while (place->word != NULL && place->word != word)
        place++;
    return place->word == NULL ? NULL : place;
}

/* The process that has a word, 0 for none. */
static uint32_t process_of(const volatile void *word)
{
    uintptr_t at = (uintptr_t)word, first = (uintptr_t)mesa_processes;
    return at < first || at >= first + sizeof mesa_processes ? 0 : (uint32_t)((at - first) / sizeof *mesa_processes);
}

static uint32_t address_of(const volatile void *word)
{
    uint32_t number = process_of(word);
    struct mesa_process *process = &mesa_processes[number];
    const volatile void *words[] = {&process->robust.head.next, &process->robust.pending, &process->id, &process->claim,
                                    &process->result, &process->outcome};
    const struct lock_place *place = place_of(word);
    for (uint32_t i = 0; number > 0 && i < 6; i++)
        if (words[i] == word)
            return 1 + 6 * (number - 1) + i;
    return place == NULL ? 0 : place->address;
}

/* A thread's id as its process's number. */
static uint32_t number_of(uint32_t thread)
{
    uint32_t number = MOST_HERE;
    while (number > 0 && (thread == 0 || mesa_processes[number].thread != thread))
        number--;
    return thread != 0 && number == 0 ? MESA_OWNER : number;
}

/* What a word holds, as the machine has it: an entry of a list by its address, a thread by its process's number. */
static uint32_t value_of(const volatile void *word, uint64_t value)
{
    uint32_t number = process_of(word);
    struct mesa_process *process = &mesa_processes[number];
    const struct lock_place *place = place_of(word);
    const void *entry = (const void *)(uintptr_t)value;
    if (place != NULL ? place->kind == 'e' : word == &process->robust.head.next || word == &process->robust.pending)
        return process_of(entry) > 0 ? 0 : address_of(entry);
    if (place != NULL ? place->kind == 'L' : word == &process->id)
        return ((uint32_t)value & ~(uint32_t)MESA_OWNER) | number_of((uint32_t)value & MESA_OWNER);
    return (uint32_t)value;
}

/* ---- On the threads of the program: nothing here may use thread-local storage ---- */

static struct seen *add_seen(uint32_t process, int name, const volatile void *word, uint32_t value)
{
    struct seen *it = &seen[seen_count < MOST_SEEN - 1 ? seen_count++ : seen_count];
    *it = (struct seen){process, word == NULL ? 0 : address_of(word), value, stands_at, name, 0, 0};
    stands_at = NOWHERE;
    return it;
}

/* Waits for the turn. */
static void wait_turn(uint32_t number, int stand)
{
    struct seat *seat = &seats[number];
    seat->at = (uint32_t)stand + 1;
    news++;
    mesa_futex_wake(&news, 1);
    while (seat->at != 0)
        mesa_futex_wait(&seat->at, (uint32_t)stand + 1);
    if (seat->dies)
        mesa_fault(&mesa_processes[number], (enum mesa_outcome)KILLED);
}

/* How often of 32 times a thread keeps its turn, by the seed. */
static const uint32_t keeps[] = {0, 16, 28, 31};

/* A thread comes to a point: it waits for its turn, where it doesn't keep it. What a futex call did is told later. */
static void stand(uint32_t number, int point, int name, const volatile void *word)
{
    struct seat *seat = &seats[number];
    seat->count++;
    seat->point = point;
    seat->name = name;
    seat->word = word;
    bool stops = name == FWAIT || name == FREQ || seat->call != NULL
                 || (number == plan.process && seat->count == plan.number);
    if (number != holder || stops || draw() % 32 >= keeps[plan.seed % 4])
        wait_turn(number, point);
    else
        turns++;
    stands_at = point;
    seat->call = name == FWAIT || name == FWAKE || name == FREQ ? add_seen(number, name, word, 0) : NULL;
}

static void lock_point(struct mesa_process *self, int point)
{
    uint32_t number = (uint32_t)(self - mesa_processes);
    struct seat *seat = &seats[number];
    switch (point) {
    case MESA_TAKE_SLEEPS:
        return stand(number, point, FWAIT, seat->lock);
    case MESA_WAIT_SLEEPS:
        return stand(number, point, FWAIT, seat->sequence);
    case MESA_JOIN_SLEEPS:
        return stand(number, point, FWAIT, seat->id);
    case MESA_LEAVE_WAKES:
        return stand(number, point, FWAKE, seat->lock);
    case MESA_NOTIFY_WAKES:
        return stand(number, point, FWAKE, seat->sequence);
    case MESA_BROADCAST_MOVES:
        return stand(number, point, FREQ, seat->sequence);
    default:
        return stand(number, point, LOAD, NULL);
    }
}

/* A thread begins where it stores its head for the first time. */
static void begin(uint32_t number)
{
    seats[number].begun = true;
    seats[number].count++;
    wait_turn(number, AT_BEGIN);
}

/* A thread ends: what it does then is a turn of its own. */
static void end(uint32_t number, uint32_t outcome)
{
    struct mesa_process *process = &mesa_processes[number];
    if (!seats[number].dies)
        wait_turn(number, AT_END);
    if (outcome != MESA_ENDED)
        add_seen(number, DIE, NULL, outcome);
    else
        add_seen(number, ENDS, NULL, process->result);
    for (struct mesa_link *it = process->robust.head.next; it != NULL && it != &process->robust.head; it = it->next)
        seats[number].entries++;
    seats[number].over = true;
}

/* An operation on a word was seen, of the thread that has the turn. */
static void lock_saw(int name, const volatile void *word, uint64_t value)
{
    uint32_t number = process_of(word);
    struct mesa_process *process = &mesa_processes[number];
    struct seat *seat = &seats[holder];
    const struct lock_place *place = place_of(word);
    if (number > 0 && !seats[number].begun) {
        if (name == STORE && word == &process->robust.head.next)
            begin(number);
    } else if (name == STORE && word == &process->outcome) {
        end(number, (uint32_t)value);
    } else if (!seat->over && (number > 0 || place != NULL) && !(name == STORE && word == &process->result)
               && !(name == LOAD && seat->call != NULL && seat->word == word)) {
        seat->lock = place != NULL && place->kind == 'L' ? word : seat->lock;
        seat->sequence = place != NULL && place->kind == 's' ? word : seat->sequence;
        seat->id = number > 0 && word == &process->id ? word : seat->id;
        add_seen(holder, name, word, value_of(word, value));
    }
}

MESA_UNUSED static void lock_print(int32_t number)
{
    add_seen(holder, PRINT, NULL, (uint32_t)number);
}

/* A fork, until the new thread stands at its beginning. */
MESA_UNUSED static int32_t lock_fork(struct mesa_process *self, mesa_body *body, const int32_t *arguments, size_t count)
{
    if (mesa_made == MOST_HERE)
        mesa_stop("too many processes\n", 19);
    int32_t number = mesa_fork(self, body, arguments, count);
    add_seen(holder, FORK, NULL, (uint32_t)number);
    while (seats[number].at == 0)
        mesa_call(SYS_sched_yield, 0, 0, 0, 0, 0, 0);
    return number;
}

/* The signal that kills a thread in its sleep, and the one that wakes it. */
static void die_asleep(int signal)
{
    uint32_t thread = (uint32_t)mesa_call(SYS_gettid, 0, 0, 0, 0, 0, 0);
    (void)signal;
    mesa_fault(&mesa_processes[number_of(thread)], (enum mesa_outcome)KILLED);
}

static void wake_up(int signal)
{
    (void)signal;
}

/* ---- On the thread that gives the turns, which has storage of its own ---- */

/* Whether the thread of a process is gone: the kernel has then done all that its exit does. */
static bool is_gone(uint32_t number)
{
    char path[64], text[512];
    snprintf(path, sizeof path, "/proc/self/task/%u/stat", mesa_processes[number].thread);
    int file = open(path, O_RDONLY);
    ssize_t length = file < 0 ? 0 : read(file, text, sizeof text - 1);
    text[length < 0 ? 0 : length] = 0;
    if (file >= 0)
        close(file);
    char *behind = strrchr(text, ')');
    return behind == NULL || behind[2] == 'X' || behind[2] == 'Z';
}

/* How many sleep on a word: as many as a requeue to the word itself leaves there. */
static uint32_t sleepers_of(const volatile void *word)
{
    _Atomic uint32_t *here = (_Atomic uint32_t *)(uintptr_t)word;
    long found;
    do
        found = mesa_futex_requeue(here, here, 0, INT32_MAX, *here);
    while (found < 0);
    return (uint32_t)found;
}

static uint32_t booked_on(const volatile void *word)
{
    uint32_t count = 0;
    for (uint32_t i = 1; i <= mesa_made; i++)
        count += seats[i].asleep == word;
    return count;
}

/* Whether a process stands or is gone, or is booked as asleep. Who was booked and stands was woken. */
static bool is_placed(uint32_t number, uint64_t *woken)
{
    struct seat *seat = &seats[number];
    if (seat->at != 0 && seat->asleep != NULL)
        *woken |= (uint64_t)1 << number;
    if (seat->at != 0 || seat->over)
        seat->asleep = NULL;
    if (seat->at == 0 && seat->over && !seat->gone)
        seat->gone = is_gone(number);
    return seat->at != 0 || seat->asleep != NULL || seat->gone;
}

/* Whether all stand, are gone, or sleep on the words where they are booked. */
static bool is_settled(uint64_t *woken)
{
    bool all = true;
    for (uint32_t i = 1; i <= mesa_made; i++)
        all = is_placed(i, woken) && all;
    for (uint32_t i = 1; all && i <= mesa_made; i++)
        all = seats[i].asleep == NULL || sleepers_of(seats[i].asleep) == booked_on(seats[i].asleep);
    return all;
}

/* Waits until all are settled; answers who was woken. */
static uint64_t settle(void)
{
    uint64_t woken = 0;
    for (;;) {
        uint32_t before = news;
        struct timespec time = {0, 20000};
        if (is_settled(&woken))
            return woken;
        mesa_call(SYS_futex, (long)&news, FUTEX_WAIT, before, (long)&time, 0, 0);
    }
}

static void give_turn(uint32_t number)
{
    seats[number].call = NULL;
    holder = number;
    turns++;
    seats[number].at = 0;
    mesa_futex_wake(&seats[number].at, 1);
}

/* Those of a word who have slept longest are booked on another word, so many as have come there. */
static uint64_t book_moves(const volatile void *from, const volatile void *to)
{
    uint64_t moved = 0;
    for (uint32_t count = sleepers_of(to) - booked_on(to); count > 0 && booked_on(from) > 0; count--) {
        uint32_t first = 0;
        for (uint32_t i = 1; i <= mesa_made; i++)
            if (seats[i].asleep == from && (first == 0 || seats[i].since < seats[first].since))
                first = i;
        seats[first].asleep = to;
        moved |= (uint64_t)1 << first;
    }
    return moved;
}

/* What an exit has done: whom it woke, and each lock word behind it. */
static void tell_exit(uint32_t number, uint64_t woken)
{
    uint32_t count = 0;
    add_seen(number, EXIT, NULL, seats[number].entries)->woken = woken;
    for (const struct lock_place *place = lock_places; place->word != NULL; place++)
        if (place->kind == 'L' && count < MOST_LOCKS)
            seats[number].locks[count++] = value_of(place->word, *(const volatile uint32_t *)place->word);
}

/* Gives a process its turn, and tells what its futex call did. */
static void let_go(uint32_t number)
{
    struct seat *seat = &seats[number];
    const volatile void *word = seat->word;
    bool calls = seat->at <= AT_BEGIN, sleeps = calls && seat->name == FWAIT, moves = calls && seat->name == FREQ;
    uint64_t moved = 0;
    if (sleeps) {
        seat->asleep = word;
        seat->since = turns;
    }
    give_turn(number);
    while (moves && seat->at == 0 && !seat->over)
        usleep(20);
    if (moves)
        moved = book_moves(word, seat->lock);
    uint64_t woken = settle();
    if (seat->call != NULL && sleeps) {
        seat->call->value = seat->asleep == NULL;
    } else if (seat->call != NULL) {
        seat->call->value = (uint32_t)__builtin_popcountll(woken | moved);
        seat->call->woken = woken;
        seat->call->moved = moved;
    }
    if (seat->over)
        tell_exit(number, woken);
}

/* Kills a process where it stands or sleeps. */
static void kill_it(uint32_t number)
{
    struct seat *seat = &seats[number];
    stands_at = seat->at != AT_BEGIN + 1 ? seat->point : NOWHERE;
    add_seen(number, KILL, NULL, 1);
    seat->dies = true;
    if (seat->asleep == NULL) {
        give_turn(number);
    } else {
        holder = number;
        mesa_call(SYS_tgkill, getpid(), mesa_processes[number].thread, SIGUSR1, 0, 0, 0);
    }
    while (!seat->over)
        usleep(20);
    tell_exit(number, settle() & ~((uint64_t)1 << number));
}

/* Calls a process out of its sleep. */
static void rouse(uint32_t number)
{
    add_seen(number, STRAY, seats[number].asleep, address_of(seats[number].asleep))->woken = (uint64_t)1 << number;
    mesa_call(SYS_tgkill, getpid(), mesa_processes[number].thread, SIGUSR2, 0, 0, 0);
    while (seats[number].at == 0)
        usleep(20);
    settle();
}

/* One of those who stand, or of those who sleep; 0 where there is none. */
static uint32_t one_of(bool asleep)
{
    uint32_t able[MOST_HERE], count = 0;
    for (uint32_t number = 1; number <= mesa_made; number++)
        if (asleep ? seats[number].asleep != NULL : seats[number].at != 0)
            able[count++] = number;
    return count == 0 ? 0 : able[draw() % count];
}

/* Whether the process that is to be killed is where it is to be killed, with this one to go next. */
static bool is_due(uint32_t next)
{
    struct seat *victim = &seats[plan.process];
    if (plan.process == 0 || victim->dies || victim->over || victim->count < plan.number || victim->at == AT_END + 1)
        return false;
    return plan.delay < 0 ? next == plan.process : victim->asleep != NULL && (next == 0 || plan.delay-- <= 0);
}

static void tell_set(const char *name, uint64_t set)
{
    if (set != 0)
        printf(" %s", name);
    for (int number = 1; set != 0 && number < 64; number++)
        if (set >> number & 1)
            printf(" %d", number);
}

static uint32_t lock_count(void)
{
    uint32_t count = 0;
    for (const struct lock_place *place = lock_places; place->word != NULL; place++)
        count += place->kind == 'L';
    return count < MOST_LOCKS ? count : MOST_LOCKS;
}

static void tell_all(bool cut)
{
    static const char *names[] = {"LOAD", "STORE", "SWAP", "CAS", "AOR", "AADD", "FWAIT", "FWAKE",
                                  "FREQ", "PRINT", "FORK", "END", "DIE", "EXIT", "KILL", "STRAY"};
    for (struct seen *it = seen; it < seen + seen_count; it++) {
        printf("%u %d %s %u %u", it->process, it->point, names[it->name], it->address, it->value);
        for (uint32_t i = 0; it->name == EXIT && i < lock_count(); i++)
            printf("%s%u", i == 0 ? " words " : ",", seats[it->process].locks[i]);
        tell_set("woke", it->woken);
        tell_set("moved", it->moved);
        printf("\n");
    }
    printf("end %lu %u %u %d %u", plan.seed, plan.process, plan.number, cut, turns);
    for (uint32_t i = 1; i <= mesa_made; i++)
        printf(" %u:%s%u", seats[i].count, seats[i].over ? "over" : seats[i].asleep != NULL ? "at" : "stands",
               seats[i].asleep != NULL ? address_of(seats[i].asleep) : 0);
    printf("\n");
    fflush(stdout);
}

/* Gives the turns until nobody can go on, and kills and wakes as it is planned. */
static void *conduct(void *none)
{
    (void)none;
    while (mesa_made == 0)
        usleep(20);
    for (settle(); turns < MOST_TURNS;) {
        uint32_t next = one_of(false), sleeper = plan.strays == 0 || draw() % plan.strays != 0 ? 0 : one_of(true);
        if (is_due(next))
            kill_it(plan.process);
        else if (next == 0)
            break;
        else if (sleeper != 0)
            rouse(sleeper);
        else
            let_go(next);
    }
    tell_all(turns >= MOST_TURNS);
    _Exit(0);
}

/* Does one run in a process of its own; answers whether this is it. */
static bool run_once(void)
{
    int status = 0;
    cpu_set_t one;
    pthread_t thread;
    pid_t child = fork();
    if (child != 0) {
        if (waitpid(child, &status, 0) != child || status != 0)
            printf("failed %lu %u %u %d\n", plan.seed, plan.process, plan.number, status);
        fflush(stdout);
        return false;
    }
    alarm(SECONDS);
    prctl(PR_SET_TIMERSLACK, 1, 0, 0, 0);
    CPU_ZERO(&one);
    CPU_SET(sched_getcpu(), &one);
    sched_setaffinity(0, sizeof one, &one);
    drawn = plan.seed * 0x9e3779b97f4a7c15u + 1;
    struct sigaction dies = {.sa_handler = die_asleep}, wakes = {.sa_handler = wake_up};
    sigaction(SIGUSR1, &dies, NULL);
    sigaction(SIGUSR2, &wakes, NULL);
    if (pthread_create(&thread, NULL, conduct, NULL) != 0)
        _Exit(70);
    return true;
}

__attribute__((constructor)) static void lockstep_main(void)
{
    while (scanf("%lu %u %u %d %u", &plan.seed, &plan.process, &plan.number, &plan.delay, &plan.strays) == 5)
        if (run_once())
            return;
    exit(0);
}

/* What the program that comes behind calls. */
#define mesa_print lock_print
#define mesa_fork lock_fork
