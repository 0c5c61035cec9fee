/* The semaphore of examples/protocols/semaphore.asm: N threads take, and as many give, the first thread among these. Each
   access to a word and each futex call is one step, as on the machine; a wake takes any sleeper. */
#ifndef N
#define N 2
#endif

byte count, waiters;
/* Who sleeps on count: takers by their numbers from 0, as bits. */
byte asleep;

/* Any sleeper is woken, and nobody only where nobody sleeps. */
inline wake_one() {
    atomic {
        if
        :: asleep == 0
        :: asleep & 1 -> asleep = asleep & 254
        :: asleep & 2 -> asleep = asleep & 253
        :: asleep & 4 -> asleep = asleep & 251
        :: asleep & 8 -> asleep = asleep & 247
        fi
    }
}

inline post() {
    count++;
    if
    :: waiters > 0 -> wake_one()
    :: else
    fi
}

proctype taker(byte me) {
    byte c;
down:
    atomic { c = count; if :: c == 0 -> goto sleep :: else fi };
    atomic { if :: count == c -> count = c - 1; goto done :: else -> goto down fi };
sleep:
    waiters++;
    atomic { if :: count == 0 -> asleep = asleep | (1 << me) :: else fi };
    !(asleep & (1 << me)) -> waiters--;
    goto down;
done:
    skip
}

proctype poster() {
    post()
}

/* The first thread makes the others one by one, and gives too. */
init {
    byte i;
    do
    :: i < N -> run taker(i); i++
    :: i == N -> break
    od;
    i = 1;
    do
    :: i < N -> run poster(); i++
    :: i == N -> break
    od;
    post()
}
