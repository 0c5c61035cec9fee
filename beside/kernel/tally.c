/* The header in use: two processes add to a tally, and process 1 waits for both. It prints 7. */
#include "mesa_monitors.h"

static struct mesa_monitor tally_lock;
static struct mesa_condition tally_changed;
static int32_t tally;

/* A process that adds one, and tells who waits. */
static int32_t add(struct mesa_process *self, const int32_t *arguments)
{
    if (mesa_enter(self, &tally_lock))
        mesa_fault(self, MESA_ABANDONED_MONITOR);
    tally += arguments[0];
    mesa_notify(self, &tally_changed);
    mesa_exit(self, &tally_lock);
    return 0;
}

/* Process 1: it makes two, and waits until both have added. */
static int32_t start(struct mesa_process *self, const int32_t *arguments)
{
    (void)arguments;
    mesa_fork(self, add, (int32_t[]){3}, 1);
    mesa_fork(self, add, (int32_t[]){4}, 1);
    bool abandoned = mesa_enter(self, &tally_lock);
    while (!abandoned && tally < 7)
        abandoned = mesa_wait(self, &tally_lock, &tally_changed);
    if (abandoned)
        mesa_fault(self, MESA_ABANDONED_MONITOR);
    mesa_print(tally);
    mesa_exit(self, &tally_lock);
    return 0;
}

int main(void)
{
    mesa_run(start);
}
