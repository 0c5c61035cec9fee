/*
 * Included before a program that was emitted: before some of the shared instructions the thread pauses, or lets another
 * one go first, so that threads meet in more ways than they would by themselves. Which ones is another choice in each
 * run: it follows from where the program lies in memory.
 */
struct mesa_process;
static inline void mesa_pause(void);
#define MESA_POINT(self, point) ((void)(self), mesa_pause())
#include "mesa_monitors.h"
#include <time.h>

static _Atomic uint64_t mesa_pauses;

static inline void mesa_pause(void)
{
    uint64_t drawn = atomic_fetch_add(&mesa_pauses, 1) + (uint64_t)(uintptr_t)&mesa_pauses;
    drawn = (drawn ^ (drawn >> 30)) * 0xbf58476d1ce4e5b9u;
    drawn = (drawn ^ (drawn >> 27)) * 0x94d049bb133111ebu;
    drawn ^= drawn >> 31;
    if (drawn % 8 == 0) {
        struct timespec time = {0, (long)(drawn / 8 % 200000)};
        mesa_call(SYS_nanosleep, (long)&time, 0, 0, 0, 0, 0);
    } else if (drawn % 8 < 4) {
        mesa_call(SYS_sched_yield, 0, 0, 0, 0, 0, 0);
    }
}
