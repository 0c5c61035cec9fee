-- A monitor over the lock of robust_asks.asm: a broadcast sets both flags, and moves who sleeps on the sequence word to the lock.
-- With --kills 2 both setters may die before they set the flag; then the waiter sleeps on, as it should.
-- explore --kills 1 --exits linux finds nothing.
LOCK m
WORD seq flag
CONST WAITERS 0x80000000
CONST DIED 0x40000000
CONST FLAGS 0xc0000000
CONST OWNER 0x3fffffff
LOCAL v w
START main
main:   FORK sets -> _
        FORK sets -> _
        CALL enter
check:  LOAD flag ; JNZ seen
        LOAD seq -> v
        CALL gives
        FWAIT seq v -> _
        CALL take
        JUMP check
seen:   CALL leave
        RET
sets:   CALL enter
        STORE flag 1
        AADD seq 1 -> _
        AOR m.lock FLAGS -> _                -- they are moved here while the lock is owned
        LOAD seq -> v
        FREQ seq m.lock 0 0x7fffffff v -> _
        CALL leave
        RET

enter:  STORE @pending m
        CAS m.lock 0 SELF ; JZ got
take:   LOAD m.lock -> v
        BAND v OWNER ; JZ free
        BOR v FLAGS -> w
        EQ v w; JNZ sleep
        CAS m.lock v w ; EQ v; JZ take
sleep:  FWAIT m.lock w -> _
        JUMP take
free:   BAND v WAITERS; BOR SELF -> w
        CAS m.lock v w ; EQ v; JZ take
got:    LOAD @head -> v
        STORE m v
        STORE @head m
        STORE @pending 0
        RET

leave:  CALL gives
        STORE @pending 0
        RET
gives:  STORE @pending m
        LOAD m -> v
        STORE @head v
        CAS m.lock SELF 0 -> v
        EQ v SELF; JNZ given
        BAND v DIED; JNZ keep
        FWAKE m.lock 1 ; JNZ keep
        BOR SELF WAITERS -> w
        CAS m.lock w 0 ; EQ w; JNZ given
keep:   SWAP m.lock WAITERS -> _
        FWAKE m.lock 1 -> _
given:  RET
