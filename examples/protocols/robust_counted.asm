-- WRONG by Linux's rule (--exits linux) with --kills 2: a robust lock that counts its waiters. A release clears the word, and
-- wakes where the count isn't 0. With one kill no wake is lost, but the count of a waiter that was killed stays, and each
-- release is a call from then on. The wrong line is the first CAS: it takes the word without the waiters flag though
-- somebody may sleep, whose wake is owed. Where who owes it dies, and then the owner, Linux wakes nobody.
-- explore --kills 2 --exits linux finds it stuck.
LOCK m
WORD inside waiters
CONST WAITERS 0x80000000
CONST OWNER 0x3fffffff
LOCAL v w
START main
main:   FORK worker -> _
        FORK worker -> _
        CALL work; CALL work
        RET
worker: CALL work
        RET
work:   CALL enter
        STORE inside SELF
        LOAD inside ; EQ SELF; ASSERT
        CALL leave
        RET

enter:  STORE @pending m
        CAS m.lock 0 SELF ; JZ got           -- wrong: no flag, though somebody may sleep
take:   LOAD m.lock -> v
        BAND v OWNER ; JZ free
        AADD waiters 1 -> _
        BOR v WAITERS -> w
        CAS m.lock v w ; EQ v; JZ awake
        FWAIT m.lock w -> _
awake:  AADD waiters -1 -> _
        JUMP take
free:   BOR SELF WAITERS -> w
        CAS m.lock v w ; EQ v; JZ take
got:    LOAD @head -> v
        STORE m v
        STORE @head m
        STORE @pending 0
        RET

leave:  STORE @pending m
        LOAD m -> v
        STORE @head v
        SWAP m.lock 0 -> _
        LOAD waiters ; JZ left
        FWAKE m.lock 1 -> _
left:   STORE @pending 0
        RET
