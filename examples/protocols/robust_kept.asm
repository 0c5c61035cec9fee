-- A robust lock for Linux: its release keeps the waiters flag.
LOCK m
CONST WAITERS 0x80000000
CONST OWNER 0x3fffffff
LOCAL v w
START main
main:   FORK worker -> _
        FORK worker -> _
        CALL work; CALL work
        RET
worker: CALL work
        RET
work:   CALL enter
        CALL leave
        RET

enter:  STORE @pending m
        CAS m.lock 0 SELF ; JZ got
take:   LOAD m.lock -> v
        BAND v OWNER ; JZ free
        BOR v WAITERS -> w
        CAS m.lock v w ; EQ v; JZ take
        FWAIT m.lock w -> _
        JUMP take
free:   BOR SELF WAITERS -> w
        CAS m.lock v w ; EQ v; JZ take
got:    LOAD @head -> v
        STORE m v
        STORE @head m
        STORE @pending 0
        RET

leave:  STORE @pending m
        LOAD m -> v
        STORE @head v
again:  LOAD m.lock -> v
        BAND v WAITERS -> w
        CAS m.lock v w ; EQ v; JZ again
        BAND v WAITERS ; JZ left
        FWAKE m.lock 1 -> _
left:   STORE @pending 0
        RET
