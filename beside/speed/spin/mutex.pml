/* The mutex of examples/protocols/mutex_three_states.asm, with N threads: 0 is free, 1 taken, 2 taken and somebody may wait.
   Each access to a word and each futex call is one step, as on the machine; a wake takes any sleeper. */
#ifndef N
#define N 3
#endif

byte val, inside;
/* Who sleeps on val, as bits. */
byte asleep;

inline wake_one() {
    atomic {
        if
        :: asleep == 0
        :: asleep & 1 -> asleep = asleep & 254
        :: asleep & 2 -> asleep = asleep & 253
        :: asleep & 4 -> asleep = asleep & 251
        :: asleep & 8 -> asleep = asleep & 247
        :: asleep & 16 -> asleep = asleep & 239
        fi
    }
}

inline work(me) {
    atomic { c = val; if :: c == 0 -> val = 1; goto taken :: else fi };
again:
    if
    :: c == 2 -> goto wait
    :: else
    fi;
    atomic { if :: val == 1 -> val = 2 :: val == 0 -> goto retry :: else fi };
wait:
    atomic { if :: val == 2 -> asleep = asleep | (1 << me) :: else fi };
    !(asleep & (1 << me));
retry:
    atomic { c = val; if :: c == 0 -> val = 2; goto taken :: else -> goto again fi };
taken:
    atomic { assert(inside == 0); inside++ };
    inside--;
    atomic { val--; if :: val == 0 -> goto freed :: else fi };
    val = 0;
    wake_one();
freed:
    skip
}

proctype worker(byte me) {
    byte c;
    work(me)
}

/* The first thread makes the others one by one, and works too. */
init {
    byte c, i;
    i = 1;
    do
    :: i < N -> run worker(i); i++
    :: i == N -> break
    od;
    work(0)
}
