-- A robust lock for Linux that makes no call of the kernel once nobody waits, by a second lock. Who has to wait takes g
-- first, so one thread at most sleeps on m. When that thread takes m nobody sleeps there, and it takes the word without
-- the waiters flag. The release of m keeps the flag, so nobody else takes m meanwhile. The flag of g stays for good, but
-- only who has to wait comes to g.
-- explore --kills 1 --exits linux --states 2000000 finds nothing.
LOCK m
LOCK g
WORD inside
CONST WAITERS 0x80000000
CONST OWNER 0x3fffffff
LOCAL v w
START main
main:   FORK worker -> _
        FORK worker -> _
        CALL work; CALL work
        RET
worker: CALL work
        RET
work:   CALL enter
        STORE inside SELF
        LOAD inside ; EQ SELF; ASSERT
        CALL leave
        RET

enter:  STORE @pending m
        CAS m.lock 0 SELF ; JZ got
        STORE @pending g
        CAS g.lock 0 SELF ; JZ first
queue:  LOAD g.lock -> v
        BAND v OWNER ; JZ open
        BOR v WAITERS -> w
        CAS g.lock v w ; EQ v; JZ queue
        FWAIT g.lock w -> _
        JUMP queue
open:   BOR SELF WAITERS -> w
        CAS g.lock v w ; EQ v; JZ queue
first:  LOAD @head -> v
        STORE g v
        STORE @head g
        STORE @pending m
take:   LOAD m.lock -> v
        BAND v OWNER ; JZ free
        BOR v WAITERS -> w
        CAS m.lock v w ; EQ v; JZ take
        FWAIT m.lock w -> _
        JUMP take
free:   CAS m.lock v SELF ; EQ v; JZ take    -- without the flag: only who holds g can sleep on m
        STORE m g                            -- the list is m, g, and what was there before
        STORE @head m
        STORE @pending g
        LOAD g -> v
        STORE m v
        SUB 0 SELF -> w
        AADD g.lock w ; BAND WAITERS; JZ done
        FWAKE g.lock 1 -> _
done:   STORE @pending 0
        RET
got:    LOAD @head -> v
        STORE m v
        STORE @head m
        STORE @pending 0
        RET

leave:  STORE @pending m
        LOAD m -> v
        STORE @head v
        SUB 0 SELF -> w
        AADD m.lock w ; BAND WAITERS; JZ left
        FWAKE m.lock 1 -> _
left:   STORE @pending 0
        RET
