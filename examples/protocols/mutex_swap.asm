-- Drepper, "Futexes Are Tricky", mutex 3, with three threads: as mutex 2, with a SWAP where that compares.
VERSION 1
WORD val inside
LOCAL c
START main
main:   FORK worker -> _
        FORK worker -> _
        CALL work
        RET
worker: CALL work
        RET
work:   CALL lock
        AADD inside 1 -> c; EQ c 0; ASSERT
        AADD inside -1 -> _
        CALL unlock
        RET
lock:   CAS val 0 1 -> c
        JZ c done
        EQ c 2; JNZ sleep
        SWAP val 2 -> c
next:   JZ c done
sleep:  FWAIT val 2 -> _
        SWAP val 2 -> c
        JUMP next
done:   RET
unlock: AADD val -1 ; EQ 1; JNZ freed
        STORE val 0
        FWAKE val 1 -> _
freed:  RET
