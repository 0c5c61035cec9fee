-- A condition variable by a sequence word, which is read while the mutex is held; a broadcast wakes all.
VERSION 1
WORD val seq flag
LOCAL c s
START main
main:   FORK waiter -> _
        FORK waiter -> _
        CALL lock
        STORE flag 1
        CALL broadcast
        CALL unlock
        RET
waiter: CALL lock
look:   LOAD flag ; JNZ seen
        CALL wait
        JUMP look
seen:   CALL unlock
        RET
wait:   LOAD seq -> s                        -- under the mutex
        CALL unlock
        FWAIT seq s -> _
        CALL lock
        RET
broadcast: AADD seq 1 -> _
        FWAKE seq 1000 -> _
        RET
lock:   CAS val 0 1 -> c
        JZ c done
        EQ c 2; JNZ sleep
        SWAP val 2 -> c
next:   JZ c done
sleep:  FWAIT val 2 -> _
        SWAP val 2 -> c
        JUMP next
done:   RET
unlock: AADD val -1 ; EQ 1; JNZ freed
        STORE val 0
        FWAKE val 1 -> _
freed:  RET
