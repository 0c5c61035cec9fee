-- WRONG: mutex 2 in which who was woken takes the word with 1, as if nobody else slept. The wrong line is at retry.
VERSION 1
WORD val inside
LOCAL c
START main
main:   FORK work -> _
        FORK work -> _
        JUMP work
work:   CALL lock
        AADD inside 1 ; EQ 0; ASSERT         -- nobody else is inside
        AADD inside -1 -> _
        CALL unlock
        RET

lock:   CAS val 0 1 -> c                     -- 0 free, 1 taken, 2 taken and somebody may wait
        JZ c done
again:  EQ c 2; JNZ wait
        CAS val 1 2 ; JZ retry
wait:   FWAIT val 2 -> _
retry:  CAS val 0 1 -> c                     -- wrong: 2 in the right one
        JNZ c again
done:   RET
unlock: AADD val -1 ; EQ 1; JNZ freed
        STORE val 0
        FWAKE val 1 -> _
freed:  RET
