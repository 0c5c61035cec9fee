/*
 * Included before a program that was emitted: it runs the program again and again, and in each run kills one process at
 * another of its shared instructions: the first one, the second, and so on until it has no more. Its word is how many
 * schedules each is tried in.
 *
 * The threads go in turn, one shared instruction after another, as a drawn number says. So whoever is killed is killed
 * while all others stand before an instruction or sleep, and what it leaves is seen before anybody goes on. A process
 * that stands before an instruction dies by exit(2), which does for its robust list, its pending entry and its id word
 * what any death of a thread does; one that sleeps is called out of its sleep by a signal, and dies so in the handler.
 * Of each run a line of JSON is printed behind what the program printed; kills.py judges it.
 */
struct mesa_process;
static void kills_point(struct mesa_process *self, int point);
#define MESA_POINT(self, point) kills_point(self, point)
#include "mesa_monitors.h"
#include <fcntl.h>
#include <pthread.h>
#include <signal.h>
#include <stdio.h>
#include <stdlib.h>
#include <string.h>
#include <sys/wait.h>
#include <time.h>
#include <unistd.h>

enum { KILLS_MOST_POINTS = 4096, KILLS_MOST_MONITORS = 8, KILLS_SECONDS = 60, KILLED = 9 };

/* What came of a run, as its status: the process was killed, also before an instruction that may sleep; it had ended
 * before, or didn't sleep there. */
enum { KILLS_KILLED = 0, KILLS_AT_SLEEP = 10, KILLS_NOT_MET = 11 };

/* Whom to kill in a run, and where: before its instruction of this number; or, where it is not to die awake, after so
 * many instructions of others since it fell asleep there (or once nobody can go on). */
static struct {
    uint32_t process, number, delay;
    bool asleep;
    uint64_t seed;
} plan;

/* Where a process stands: before the point `at - 1`, or on its way or asleep where that is 0; all points that it came
 * to; and when it last went on. */
static struct seat {
    _Atomic uint32_t at;
    bool dies;
    uint32_t count, since;
    unsigned char points[KILLS_MOST_POINTS];
} seats[MESA_MOST_PROCESSES + 1];

static struct mesa_monitor *monitors[KILLS_MOST_MONITORS];
static uint32_t monitor_count, holder, now;
static _Atomic uint32_t news;
static uint64_t drawn;

/* ---- On the threads of the program: nothing here may use thread-local storage ---- */

static uint32_t draw(void)
{
    drawn = drawn * 6364136223846793005u + 1442695040888963407u;
    return (uint32_t)(drawn >> 33);
}

/* Whether a thread may sleep in the instruction at a point. */
static bool may_sleep(int point)
{
    return point == MESA_TAKE_SLEEPS || point == MESA_WAIT_SLEEPS || point == MESA_JOIN_SLEEPS;
}

/* The number of the monitor whose link this is; it is a new one where none is known. */
static uint32_t monitor_of(struct mesa_link *link)
{
    uint32_t i = 0;
    while (i < monitor_count && &monitors[i]->link != link)
        i++;
    if (i == monitor_count && monitor_count < KILLS_MOST_MONITORS)
        monitors[monitor_count++] = (struct mesa_monitor *)link;
    return i;
}

/* How often of 32 times a thread keeps its turn, by the seed. */
static const uint32_t keeps[] = {0, 16, 28, 31};

/* Before each shared instruction: who holds the turn keeps it as often as the seed says, else waits to be given it. */
static void kills_point(struct mesa_process *self, int point)
{
    uint32_t number = (uint32_t)(self - mesa_processes), stand = (uint32_t)point + 1;
    struct seat *seat = &seats[number];
    seat->points[seat->count++ % KILLS_MOST_POINTS] = (unsigned char)point;
    struct mesa_link *pending = atomic_load(&self->robust.pending);
    bool stops = may_sleep(point) || (number == plan.process && seat->count == plan.number);
    if (number == holder) {
        if (pending != NULL)
            monitor_of(pending);
        if (!stops && draw() % 32 < keeps[plan.seed % 4])
            return;
    }
    atomic_store(&seat->at, stand);
    atomic_fetch_add(&news, 1);
    mesa_futex_wake(&news, 1);
    while (atomic_load(&seat->at) != 0)
        mesa_futex_wait(&seat->at, stand);
    if (seat->dies)
        mesa_fault(self, (enum mesa_outcome)KILLED);
}

/* The signal that kills a thread in its sleep. */
static void die_asleep(int signal)
{
    uint32_t thread = (uint32_t)mesa_call(SYS_gettid, 0, 0, 0, 0, 0, 0);
    (void)signal;
    for (uint32_t number = 1; number <= MESA_MOST_PROCESSES; number++)
        if (mesa_processes[number].thread == thread)
            mesa_fault(&mesa_processes[number], (enum mesa_outcome)KILLED);
}

/* ---- On the thread that gives the turns, which has storage of its own ---- */

/* What a file of /proc has on a thread of this process; nothing where the thread is gone. */
static char *told_of(uint32_t thread, const char *name, char *text, size_t size)
{
    char path[64];
    snprintf(path, sizeof path, "/proc/self/task/%u/%s", thread, name);
    int file = open(path, O_RDONLY);
    ssize_t length = file < 0 ? 0 : read(file, text, size - 1);
    text[length < 0 ? 0 : length] = 0;
    if (file >= 0)
        close(file);
    return text;
}

/* `S` for a thread that sleeps, `Z` for one that is gone. */
static char state_of(uint32_t thread)
{
    char text[512], *end = strrchr(told_of(thread, "stat", text, sizeof text), ')');
    return end == NULL || end[2] == 'X' ? 'Z' : end[2];
}

static uint32_t last_point(uint32_t number)
{
    return seats[number].points[(seats[number].count - 1) % KILLS_MOST_POINTS];
}

static bool is_over(uint32_t number)
{
    return atomic_load(&mesa_processes[number].outcome) != MESA_NOT_YET;
}

static bool is_asleep(uint32_t number)
{
    return atomic_load(&seats[number].at) == 0 && !is_over(number);
}

/* Whether a process stands, sleeps or is gone: the kernel has then done all that its exit does. */
static bool is_settled(uint32_t number)
{
    struct mesa_process *process = &mesa_processes[number];
    if (atomic_load(&seats[number].at) != 0)
        return true;
    if (process->thread == 0)
        return false;
    if (is_over(number))
        return state_of(process->thread) == 'Z';
    return seats[number].count > 0 && may_sleep((int)last_point(number)) && state_of(process->thread) == 'S'
           && atomic_load(&seats[number].at) == 0 && !is_over(number);
}

/* Waits until all are settled, seen twice: who was woken meanwhile isn't asleep at the second look. */
static void settle(void)
{
    for (int seen = 0; seen < 2;) {
        uint32_t before = atomic_load(&news), number = 1;
        struct timespec time = {0, 200000};
        while (number <= atomic_load(&mesa_made) && is_settled(number))
            number++;
        seen = number > atomic_load(&mesa_made) ? seen + 1 : 0;
        if (seen == 0)
            mesa_call(SYS_futex, (long)&news, FUTEX_WAIT, before, (long)&time, 0, 0);
    }
}

/* How many sleep on a word: as many as a requeue to the word itself leaves there. */
static long sleepers_of(_Atomic uint32_t *word)
{
    return mesa_futex_requeue(word, word, 0, INT32_MAX, atomic_load(word));
}

/* Whether a process that fell asleep on a condition's word was moved to the lock word since. Those who are left on the
 * condition's word are the ones who fell asleep last: a requeue moves all. */
static bool was_moved(uint32_t number)
{
    char text[512];
    unsigned long word = 0, other;
    uint32_t later = 0;
    if (sscanf(told_of(mesa_processes[number].thread, "syscall", text, sizeof text), "%*s %lx", &word) != 1)
        return false;
    for (uint32_t i = 1; i <= mesa_made; i++)
        later += is_asleep(i) && seats[i].since > seats[number].since
                 && sscanf(told_of(mesa_processes[i].thread, "syscall", text, sizeof text), "%*s %lx", &other) == 1
                 && other == word;
    return later >= sleepers_of((_Atomic uint32_t *)word);
}

/* The process that a lock word names as its owner, 0 for none. */
static uint32_t owner_of(uint32_t word)
{
    uint32_t number = MESA_MOST_PROCESSES;
    while (number > 0 && ((word & MESA_OWNER) == 0 || mesa_processes[number].thread != (word & MESA_OWNER)))
        number--;
    return (word & MESA_OWNER) != 0 && number == 0 ? 99 : number;
}

/* Who stands or sleeps where, and each monitor's owner, marks, and how many sleep on its lock word. */
static void tell_state(const char *name)
{
    const char *comma = "";
    printf(", \"%s\": {\"processes\": {", name);
    for (uint32_t i = 1; i <= mesa_made; i++, comma = ", ") {
        printf("%s\"%u\": ", comma, i);
        if (is_over(i))
            printf("%u", atomic_load(&mesa_processes[i].outcome));
        else
            printf("[%u, \"%s\"]", last_point(i),
                   !is_asleep(i) ? "stands" : last_point(i) == MESA_WAIT_SLEEPS && was_moved(i) ? "moved" : "sleeps");
    }
    printf("}, \"monitors\": [");
    for (uint32_t i = 0; i < monitor_count; i++) {
        uint32_t word = atomic_load(&monitors[i]->lock);
        printf("%s[%u, %d, %d, %ld]", i == 0 ? "" : ", ", owner_of(word), (word & MESA_DIED) != 0,
               (word & MESA_WAITERS) != 0, sleepers_of(&monitors[i]->lock));
    }
    printf("]}");
}

/* What a process that is about to be killed has in its list and as its pending entry, and to which points it came. */
static void tell_victim(uint32_t number)
{
    struct mesa_process *process = &mesa_processes[number];
    struct mesa_link *pending = atomic_load(&process->robust.pending), *link = atomic_load(&process->robust.head.next);
    const char *comma = "";
    printf(", \"pending\": %d, \"list\": [", pending == NULL ? -1 : (int)monitor_of(pending));
    for (; link != &process->robust.head; link = atomic_load(&link->next), comma = ", ")
        printf("%s%u", comma, monitor_of(link));
    printf("], \"points\": [");
    for (uint32_t i = 0; i < seats[number].count; i++)
        printf(i == 0 ? "%u" : ", %u", seats[number].points[i]);
    printf("]");
}

static void go_on(uint32_t number)
{
    holder = number;
    seats[number].since = ++now;
    atomic_store(&seats[number].at, 0);
    mesa_futex_wake(&seats[number].at, 1);
}

/* Kills the process that is to be killed, and tells what was before, and what is behind. */
static void kill_it(void)
{
    uint32_t number = plan.process;
    bool asleep = is_asleep(number);
    tell_victim(number);
    tell_state("before");
    if (asleep) {
        holder = 0; /* who is woken waits for its turn */
        mesa_call(SYS_tgkill, getpid(), mesa_processes[number].thread, SIGUSR1, 0, 0, 0);
    } else {
        seats[number].dies = true;
        go_on(number);
    }
    while (!is_over(number) || !is_settled(number))
        usleep(50);
    settle();
    tell_state("after");
    printf(", \"id\": %u", atomic_load(&mesa_processes[number].id));
}

/* One of those who can go on, 0 where there is none. */
static uint32_t next_one(void)
{
    uint32_t able[MESA_MOST_PROCESSES], count = 0;
    for (uint32_t number = 1; number <= mesa_made; number++)
        if (atomic_load(&seats[number].at) != 0)
            able[count++] = number;
    return count == 0 ? 0 : able[draw() % count];
}

/* Gives the turns until nobody can go on, and kills as it is planned. */
static void *conduct(void *none)
{
    struct seat *victim = &seats[plan.process];
    bool killed = false, at_sleep = false;
    (void)none;
    while (atomic_load(&mesa_made) == 0)
        usleep(50);
    for (;;) {
        settle();
        uint32_t next = next_one();
        bool is_there = !killed && victim->count == plan.number && plan.process <= mesa_made && !is_over(plan.process);
        if (is_there && (plan.asleep ? is_asleep(plan.process) && (next == 0 || plan.delay-- == 0)
                                     : next == plan.process && !is_asleep(next))) {
            at_sleep = may_sleep((int)last_point(plan.process));
            killed = true;
            kill_it();
        } else if (next == 0 || (plan.asleep && !killed && victim->count > plan.number)) {
            break;
        } else {
            go_on(next);
        }
    }
    if (killed || !plan.asleep)
        tell_state("end");
    printf(", \"killed\": %s}\n", killed ? "true" : "false");
    fflush(stdout);
    _Exit(!killed ? KILLS_NOT_MET : at_sleep && !plan.asleep ? KILLS_AT_SLEEP : KILLS_KILLED);
}

/* Does one run in a process of its own; answers its status in the parent, and returns in the child to run main. */
static int run_once(bool *is_child)
{
    int status = 0;
    fflush(stdout);
    pid_t child = fork();
    *is_child = child == 0;
    if (child != 0) {
        waitpid(child, &status, 0);
        if (!WIFEXITED(status) || (WEXITSTATUS(status) != KILLS_KILLED && WEXITSTATUS(status) != KILLS_AT_SLEEP
                                   && WEXITSTATUS(status) != KILLS_NOT_MET)) {
            printf("{\"process\": %u, \"number\": %u, \"seed\": %llu, \"failed\": %d}\n", plan.process, plan.number,
                   (unsigned long long)plan.seed, status);
            exit(1);
        }
        return WEXITSTATUS(status);
    }
    pthread_t thread;
    alarm(KILLS_SECONDS);
    drawn = plan.seed * 0x9e3779b97f4a7c15u + 1;
    signal(SIGUSR1, die_asleep);
    printf("{\"process\": %u, \"number\": %u, \"seed\": %llu, \"asleep\": %s", plan.process, plan.number,
           (unsigned long long)plan.seed, plan.asleep ? "true" : "false");
    if (pthread_create(&thread, NULL, conduct, NULL) != 0)
        _Exit(70);
    return 0;
}

/* All runs of a seed and a process; answers whether it has a first instruction. A child returns at once to run main. */
static bool run_process(bool *is_child)
{
    for (plan.number = 1;; plan.number++) {
        plan.asleep = false;
        int status = run_once(is_child);
        if (*is_child || status == KILLS_NOT_MET)
            return !*is_child && plan.number > 1;
        for (uint32_t i = 0; status == KILLS_AT_SLEEP && i < 3; i++) {
            plan.asleep = true;
            plan.delay = i == 0 ? 0 : i == 1 ? 1 + (plan.seed * 7 + plan.number * 5) % 16 : UINT32_MAX;
            run_once(is_child);
            if (*is_child)
                return false;
        }
    }
}

__attribute__((constructor)) static void kills_main(int argc, char **argv)
{
    unsigned long seeds = argc > 1 ? strtoul(argv[1], NULL, 10) : 1;
    bool is_child = false;
    for (plan.seed = 0; plan.seed < seeds && !is_child; plan.seed++) {
        plan.process = 1;
        while (run_process(&is_child))
            plan.process++;
        if (is_child)
            return;
    }
    exit(0);
}
