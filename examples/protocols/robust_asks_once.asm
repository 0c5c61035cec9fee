-- WRONG by Linux's rule (--exits linux) with --kills 1: robust_asks.asm in which the wake that asks counts as the release's
-- own. Who was woken by it may be killed while the lock is owned still, and then Linux wakes nobody else. The wrong line is
-- at woke. By this machine's rule no wake is lost.
-- explore --kills 1 --exits linux --states 2000000 finds it stuck.
LOCK m
CONST WAITERS 0x80000000
CONST DIED 0x40000000
CONST FLAGS 0xc0000000
CONST OWNER 0x3fffffff
LOCAL v w
START main
main:   CALL enter
        FORK worker -> _
        FORK holder -> _
        FORK holder -> _
        CALL leave
        RET
worker: CALL enter
        CALL leave
        RET
holder: CALL enter
        RET

enter:  STORE @pending m
        CAS m.lock 0 SELF ; JZ got
take:   LOAD m.lock -> v
        BAND v OWNER ; JZ free
        BOR v FLAGS -> w
        EQ v w; JNZ sleep
        CAS m.lock v w ; EQ v; JZ take
sleep:  FWAIT m.lock w -> _
        JUMP take
free:   BAND v WAITERS; BOR SELF -> w
        CAS m.lock v w ; EQ v; JZ take
got:    LOAD @head -> v
        STORE m v
        STORE @head m
        STORE @pending 0
        RET

leave:  STORE @pending m
        LOAD m -> v
        STORE @head v
        CAS m.lock SELF 0 -> v
        EQ v SELF; JNZ left
        BAND v DIED; JNZ keep
        FWAKE m.lock 1 -> v
        BOR SELF WAITERS -> w
        JNZ v woke
        CAS m.lock w 0 ; EQ w; JNZ left
        JUMP keep
woke:   CAS m.lock w WAITERS ; EQ w; JNZ left -- wrong: who was woken may have died
keep:   SWAP m.lock WAITERS -> _
        FWAKE m.lock 1 -> _
left:   STORE @pending 0
        RET
