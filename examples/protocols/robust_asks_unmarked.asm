-- WRONG: robust_asks.asm in which who comes to sleep doesn't mark a word that has the waiters flag already. So the flag is
-- cleared though somebody has come to sleep since the wake that found nobody. The wrong line is the CAS before keep.
-- explore finds it stuck without a kill.
LOCK m
WORD inside
CONST WAITERS 0x80000000
CONST OWNER 0x3fffffff
LOCAL v w
START main
main:   FORK worker -> _
        FORK worker -> _
        CALL work; CALL work
        RET
worker: CALL work
        RET
work:   CALL enter
        STORE inside SELF
        LOAD inside ; EQ SELF; ASSERT
        CALL leave
        RET

enter:  STORE @pending m
        CAS m.lock 0 SELF ; JZ got
take:   LOAD m.lock -> v
        BAND v OWNER ; JZ free
        BOR v WAITERS -> w
        CAS m.lock v w ; EQ v; JZ take
        FWAIT m.lock w -> _
        JUMP take
free:   BOR SELF WAITERS -> w
        CAS m.lock v w ; EQ v; JZ take
got:    LOAD @head -> v
        STORE m v
        STORE @head m
        STORE @pending 0
        RET

leave:  STORE @pending m
        LOAD m -> v
        STORE @head v
        CAS m.lock SELF 0 -> v
        EQ v SELF; JNZ left
        FWAKE m.lock 1 ; JNZ keep
        BOR SELF WAITERS -> w
        CAS m.lock w 0 ; EQ w; JNZ left      -- wrong: somebody may have come behind the FWAKE
keep:   SWAP m.lock WAITERS -> _
        FWAKE m.lock 1 -> _
left:   STORE @pending 0
        RET
