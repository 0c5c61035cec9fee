-- pthread_cond_wait and pthread_cond_signal as glibc had them from 2.25 to 2.40 (nptl/pthread_cond_wait.c and
-- pthread_cond_common.c), written from memory of them. The signal is made under the user's mutex, so that the internal lock
-- isn't needed; there are no time limits, no cancellation and no destruction.
-- WRONG: a signal can go to a group that nobody waits in any more. The wrong step is that of undo.
VERSION 1
WORD val tokens wseq g1start orig sig[2] refs[2] size[2]
LOCAL w g seq s q r o st x n
START main

main:   FORK taker1 -> _
        FORK taker2 -> _
        FORK taker3 -> _
        PUSH 6 -> n
give:   CALL lock
        AADD tokens 1 -> _
        CALL signal
        STORE val 0
        SUB n 1 -> n
        JNZ n give
        RET
taker1: CALL take
        RET
taker2: CALL take; CALL take
        RET
taker3: CALL take; CALL take; CALL take
        RET
take:   CALL lock
look:   LOAD tokens ; JNZ some
        CALL wait
        JUMP look
some:   AADD tokens -1 -> _
        STORE val 0
        RET
lock:   CAS val 0 1 ; JNZ lock
        RET

wait:   AADD wseq 2 -> w
        BAND w 1 -> g
        DIV w 2 -> seq
        PUSH 0 -> w
        STORE val 0                          -- the user's mutex
        ADD sig g ; LOAD -> s
loop:   BAND s 1; JNZ done
        JNZ s grab
        ADD refs g; PUSH 2; AADD -> _
        ADD sig g; LOAD; PUSH 1; BAND; JNZ closed
        LOAD g1start; PUSH 2; DIV -> x
        LT seq x; JNZ closed
        PUSH 0 -> x
        ADD sig g; PUSH 0; FWAIT -> _
        CALL decrefs g
        ADD sig g; LOAD -> s
        JUMP loop
closed: PUSH 0 -> x
        PUSH 0 -> s
        CALL decrefs g
        JUMP done
grab:   ADD sig g; GETL s; SUB s 2; CAS -> x
        EQ x s; JNZ got
        PUSH x -> s
        PUSH 0 -> x
        JUMP loop
got:    PUSH 0 -> s
        PUSH 0 -> x
        LOAD g1start -> q
        DIV q 2 -> x
        LT seq x; JZ done
        PUSH 0 -> x
        BAND q 1; GETL g; EQ; JNZ done         -- the slot of G1 is 1 - (q AND 1)
        ADD sig g; LOAD -> s
undo:   LOAD g1start; GETL q; EQ; JZ done
        BAND s 1; JNZ wake
        ADD sig g; GETL s; ADD s 2; CAS -> x
        EQ x s; JNZ wake
        PUSH x -> s
        PUSH 0 -> x
        JUMP undo
wake:   ADD sig g; PUSH 1; FWAKE -> _
done:   PUSH 0 -> s
        CALL lock
        RET

decrefs: SETL g
        ADD refs g; PUSH -2; AADD; PUSH 3; EQ; JZ fine
clear:  ADD refs g; LOAD -> r
        ADD refs g; GETL r; BAND r -2; CAS; GETL r; EQ; JZ clear
        PUSH 0 -> r
        ADD refs g; PUSH 1000; FWAKE -> _
fine:   RET

signal: LOAD wseq -> w
        BAND w 1; NOT -> g                   -- g is g1
        ADD size g; LOAD; JNZ add
        DIV w 2 -> w
        LOAD orig -> o
        LOAD g1start; PUSH 2; DIV -> st
        SUB w st; GETL o; SUB -> x
        NOT g -> q
        ADD size q; LOAD; GETL x; ADD; JZ none
        PUSH 0 -> x
        PUSH 0 -> q
        ADD sig g; PUSH 1; AOR -> _
        ADD refs g; LOAD -> r
quiesce: DIV r 2; JZ quiet
        ADD refs g; PUSH 1; AOR; PUSH 1; BOR -> r
        DIV r 2; JZ quiet
        ADD refs g; GETL r; FWAIT -> _
        ADD refs g; LOAD -> r
        JUMP quiesce
quiet:  PUSH 0 -> r
        MUL g 2; PUSH 1; SUB -> x            -- 1 where g1 is 1, else -1
        MUL o 2; GETL x; ADD -> x
        PUSH g1start; GETL x; AADD -> _
        ADD sig g; PUSH 0; STORE
        MUL g 2; PUSH 1; SUB -> x            -- wseq's lowest bit is 1 - g1: flipped by + 1 where g1 is 1, else by - 1
        PUSH wseq; GETL x; AADD; PUSH 2; DIV -> w
        NOT g -> g
        SUB w st; GETL o; SUB -> x
        STORE orig x
        ADD size g; GETL x; AADD; GETL x; ADD; JZ none
        PUSH 0 -> x
add:    PUSH 0 -> w; PUSH 0 -> o; PUSH 0 -> st; PUSH 0 -> x
        ADD sig g; PUSH 2; AADD -> _
        ADD size g; PUSH -1; AADD -> _
        ADD sig g; PUSH 1; FWAKE -> _
none:   RET
