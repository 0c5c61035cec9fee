-- A robust lock whose release clears its word: right where an exit always wakes at the pending entry, as by this machine's rule.
-- WRONG by Linux's (--exits linux), where it loses a wake with one kill. The wrong line is the SWAP of leave.
LOCK m
CONST WAITERS 0x80000000
CONST OWNER 0x3fffffff
LOCAL v w
START main
main:   FORK worker -> _
        FORK worker -> _
        CALL work; CALL work
        RET
worker: CALL work
        RET
work:   CALL enter
        CALL leave
        RET

enter:  STORE @pending m
        CAS m.lock 0 SELF ; JZ got
take:   LOAD m.lock -> v
        BAND v OWNER ; JZ free
        BOR v WAITERS -> w
        CAS m.lock v w ; EQ v; JZ take
        FWAIT m.lock w -> _
        JUMP take
free:   BOR SELF WAITERS -> w
        CAS m.lock v w ; EQ v; JZ take
got:    LOAD @head -> v
        STORE m v
        STORE @head m
        STORE @pending 0
        RET

leave:  STORE @pending m
        LOAD m -> v
        STORE @head v
        SWAP m.lock 0 -> v
        BAND v WAITERS ; JZ left
        FWAKE m.lock 1 -> _
left:   STORE @pending 0
        RET
