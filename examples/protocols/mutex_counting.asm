-- Drepper, "Futexes Are Tricky", mutex 1, with two threads: 0 is free, all else is taken. The word has no bound: who waits
-- adds to it, and so wakes the others that wait.
VERSION 1
WORD val inside
LOCAL c
START main
main:   FORK worker -> _
        CALL work
        RET
worker: CALL work
        RET
work:   CALL lock
        AADD inside 1 -> c; EQ c 0; ASSERT
        AADD inside -1 -> _
        CALL unlock
        RET
lock:   AADD val 1 -> c
        JZ c done
        ADD c 1 ; SETL c
        FWAIT val c -> _
        JUMP lock
done:   RET
unlock: STORE val 0
        FWAKE val 1 -> _
        RET
