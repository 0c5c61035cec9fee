-- robust_asks.asm, whose first thread takes the lock once more when the others have ended, and looks whether the word is 0
-- then: so no release after that makes a call. With the release of robust_kept.asm it fails here.
-- explore --kills 2 --exits linux finds nothing.
LOCK m
WORD inside
CONST WAITERS 0x80000000
CONST DIED 0x40000000
CONST FLAGS 0xc0000000
CONST OWNER 0x3fffffff
LOCAL v w
START main
main:   FORK worker -> v
        FORK worker -> w
        CALL work
        CALL over v
        CALL over w
        CALL work
        LOAD m.lock ; EQ 0; ASSERT
        RET
worker: CALL work
        RET
over:   PADDR 2 -> w
joins:  LOAD w -> v
        JZ v ended
        FWAIT w v -> _
        JUMP joins
ended:  RET
work:   CALL enter
        STORE inside SELF
        LOAD inside ; EQ SELF; ASSERT
        CALL leave
        RET

enter:  STORE @pending m
        CAS m.lock 0 SELF ; JZ got
take:   LOAD m.lock -> v
        BAND v OWNER ; JZ free
        BOR v FLAGS -> w
        EQ v w; JNZ sleep
        CAS m.lock v w ; EQ v; JZ take
sleep:  FWAIT m.lock w -> _
        JUMP take
free:   BAND v WAITERS; BOR SELF -> w
        CAS m.lock v w ; EQ v; JZ take
got:    LOAD @head -> v
        STORE m v
        STORE @head m
        STORE @pending 0
        RET

leave:  STORE @pending m
        LOAD m -> v
        STORE @head v
        CAS m.lock SELF 0 -> v
        EQ v SELF; JNZ left
        BAND v DIED; JNZ keep
        FWAKE m.lock 1 ; JNZ keep
        BOR SELF WAITERS -> w
        CAS m.lock w 0 ; EQ w; JNZ left
keep:   SWAP m.lock WAITERS -> _
        FWAKE m.lock 1 -> _
left:   STORE @pending 0
        RET
