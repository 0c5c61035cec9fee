-- WRONG by Linux's rule (--exits linux) with --kills 1: a robust lock that clears its word, and says in another word that a
-- wake is owed, until it is made. The wrong line is at none: who was woken may be killed before it takes the lock, or
-- another thread owes a wake by now.
-- explore --kills 1 --exits linux finds it stuck.
LOCK m
WORD inside owed
CONST WAITERS 0x80000000
CONST OWNER 0x3fffffff
LOCAL v w
START main
main:   FORK worker -> _
        FORK worker -> _
        CALL work; CALL work
        RET
worker: CALL work
        RET
work:   CALL enter
        STORE inside SELF
        LOAD inside ; EQ SELF; ASSERT
        CALL leave
        RET

enter:  STORE @pending m
        CAS m.lock 0 SELF ; JZ got
take:   LOAD m.lock -> v
        BAND v OWNER ; JZ free
        BOR v WAITERS -> w
        CAS m.lock v w ; EQ v; JZ take
        FWAIT m.lock w -> _
        JUMP take
free:   BOR SELF WAITERS -> w
        CAS m.lock v w ; EQ v; JZ take
got:    LOAD @head -> v
        STORE m v
        STORE @head m
        STORE @pending 0
        RET

leave:  STORE @pending m
        LOAD m -> v
        STORE @head v
        LOAD owed -> w
        STORE owed 1
        SWAP m.lock 0 ; BAND WAITERS; BOR w; JZ none
        FWAKE m.lock 1 -> _
none:   STORE owed 0                         -- wrong: a wake may be owed still
left:   STORE @pending 0
        RET
