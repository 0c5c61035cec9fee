-- Drepper, "Futexes Are Tricky", mutex 2, with three threads: 0 is free, 1 taken, 2 taken and somebody may wait.
VERSION 1
WORD val inside
LOCAL c
START main
main:   FORK work -> _
        FORK work -> _
        JUMP work
work:   CALL lock
        AADD inside 1 ; EQ 0; ASSERT         -- nobody else is inside
        AADD inside -1 -> _
        CALL unlock
        RET

lock:   CAS val 0 1 -> c                     -- 0 free, 1 taken, 2 taken and somebody may wait
        JZ c done
again:  EQ c 2; JNZ wait
        CAS val 1 2 ; JZ retry
wait:   FWAIT val 2 -> _
retry:  CAS val 0 2 -> c
        JNZ c again
done:   RET
unlock: AADD val -1 ; EQ 1; JNZ freed
        STORE val 0
        FWAKE val 1 -> _
freed:  RET
