-- A robust lock for Linux that makes no call of the kernel once nobody waits. A release that finds the waiters flag asks,
-- while it still owns the lock, whether anybody sleeps: it makes a wake. Where that woke nobody, and nobody has come to
-- sleep since the lock was taken, it clears the flag with the word. In an owned word the died flag says that somebody has
-- come: who is about to sleep sets it, and the release takes it off.
-- explore --kills 2 --states 2000000 finds nothing with --exits linux.
LOCK m
WORD inside
CONST WAITERS 0x80000000
CONST DIED 0x40000000
CONST FLAGS 0xc0000000
CONST OWNER 0x3fffffff
LOCAL v w
START main
main:   FORK worker -> _
        FORK worker -> _
        CALL work; CALL work
        RET
worker: CALL work
        RET
work:   CALL enter
        STORE inside SELF
        LOAD inside ; EQ SELF; ASSERT
        CALL leave
        RET

enter:  STORE @pending m
        CAS m.lock 0 SELF ; JZ got
take:   LOAD m.lock -> v
        BAND v OWNER ; JZ free
        BOR v FLAGS -> w                     -- waiters, and that somebody came while it was owned
        EQ v w; JNZ sleep
        CAS m.lock v w ; EQ v; JZ take
sleep:  FWAIT m.lock w -> _
        JUMP take
free:   BAND v WAITERS; BOR SELF -> w
        CAS m.lock v w ; EQ v; JZ take
got:    LOAD @head -> v
        STORE m v
        STORE @head m
        STORE @pending 0
        RET

leave:  STORE @pending m
        LOAD m -> v
        STORE @head v
        CAS m.lock SELF 0 -> v
        EQ v SELF; JNZ left
        BAND v DIED; JNZ keep
        FWAKE m.lock 1 ; JNZ keep            -- asks: who slept here before the lock was taken?
        BOR SELF WAITERS -> w
        CAS m.lock w 0 ; EQ w; JNZ left      -- nobody came since: so nobody sleeps
keep:   SWAP m.lock WAITERS -> _
        FWAKE m.lock 1 -> _
left:   STORE @pending 0
        RET
