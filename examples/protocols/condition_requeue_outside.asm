-- A condition variable whose broadcast is made without the mutex: the requeue compares the number, and where that has gone
-- on all are woken. Who was moved is woken by the unlock of who is woken first, which marks the mutex.
VERSION 1
WORD val seq flag
LOCAL c s
START main
main:   FORK waiter -> _
        FORK waiter -> _
        CALL lock
        STORE flag 1
        CALL unlock
        CALL broadcast
        RET
waiter: CALL lock
look:   LOAD flag ; JNZ seen
        CALL wait
        JUMP look
seen:   CALL unlock
        CALL signal
        RET
signal: AADD seq 1 -> _
        FWAKE seq 1 -> _
        RET
wait:   LOAD seq -> s
        CALL unlock
        FWAIT seq s -> _
again:  SWAP val 2 -> c                      -- others may sleep there too
        JZ c got
        FWAIT val 2 -> _
        JUMP again
got:    RET
broadcast: AADD seq 1 -> s; ADD s 1 -> s
        FREQ seq val 1 1000 s -> c           -- one is woken, and takes the mutex with 2
        EQ c -1; JZ made
        FWAKE seq 1000 -> _
made:   RET
lock:   CAS val 0 1 -> c
        JZ c done
        EQ c 2; JNZ sleep
        SWAP val 2 -> c
next:   JZ c done
sleep:  FWAIT val 2 -> _
        SWAP val 2 -> c
        JUMP next
done:   RET
unlock: AADD val -1 ; EQ 1; JNZ freed
        STORE val 0
        FWAKE val 1 -> _
freed:  RET
