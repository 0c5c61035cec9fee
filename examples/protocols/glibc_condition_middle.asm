-- glibc_condition.asm, begun in the middle: waiter 0 of group 0 was passed over twice, and stands before its first look at the
-- signals; waiter 2 stands there too. From here the loss of a wake takes 128 steps.
-- WRONG: the same step.
VERSION 1
WORD val tokens wseq g1start orig sig[2] refs[2] size[2]
LOCAL w g seq s q r o st x n
START main

-- begun in the middle: waiter 0 of group slot 0 has been passed over (it stands before its first look at the signals) while
-- two signals were made and taken; waiter 2 stands before its first look too
main:   STORE wseq 6
        STORE g1start 2
        STORE orig 1
        FORK taker1 -> _
        FORK taker2 -> _
        FORK taker3 -> _
        PUSH 4 -> n
give:   CALL lock
        AADD tokens 1 -> _
        CALL signal
        STORE val 0
        SUB n 1 -> n
        JNZ n give
        RET
taker1: CALL take1
        RET
take1:  CALL mid1
        JUMP reget
taker2: CALL take2
        RET
take2:  CALL mid2
        JUMP reget
taker3: CALL take; CALL take
        RET
mid1:   PUSH 0 -> g
        PUSH 0 -> seq
        JUMP first
mid2:   PUSH 0 -> g
        PUSH 2 -> seq
        JUMP first
reget:  JUMP look
take:   CALL lock
look:   LOAD tokens ; JNZ some
        CALL wait
        JUMP look
some:   AADD tokens -1 -> _
        STORE val 0
        RET
lock:   CAS val 0 1 ; JNZ lock
        RET

wait:   AADD wseq 2 -> w
        BAND w 1 -> g
        DIV w 2 -> seq
        PUSH 0 -> w
        STORE val 0                          -- the user's mutex
first:  ADD sig g ; LOAD -> s
loop:   BAND s 1; JNZ done
        JNZ s grab
        ADD refs g; PUSH 2; AADD -> _
        ADD sig g; LOAD; PUSH 1; BAND; JNZ closed
        LOAD g1start; PUSH 2; DIV -> x
        LT seq x; JNZ closed
        PUSH 0 -> x
        ADD sig g; PUSH 0; FWAIT -> _
        CALL decrefs g
        ADD sig g; LOAD -> s
        JUMP loop
closed: PUSH 0 -> x
        PUSH 0 -> s
        CALL decrefs g
        JUMP done
grab:   ADD sig g; GETL s; SUB s 2; CAS -> x
        EQ x s; JNZ got
        PUSH x -> s
        PUSH 0 -> x
        JUMP loop
got:    PUSH 0 -> s
        PUSH 0 -> x
        LOAD g1start -> q
        DIV q 2 -> x
        LT seq x; JZ done
        PUSH 0 -> x
        BAND q 1; GETL g; EQ; JNZ done         -- the slot of G1 is 1 - (q AND 1)
        ADD sig g; LOAD -> s
undo:   LOAD g1start; GETL q; EQ; JZ done
        BAND s 1; JNZ wake
        ADD sig g; GETL s; ADD s 2; CAS -> x
        EQ x s; JNZ wake
        PUSH x -> s
        PUSH 0 -> x
        JUMP undo
wake:   ADD sig g; PUSH 1; FWAKE -> _
done:   PUSH 0 -> s
        CALL lock
        RET

decrefs: SETL g
        ADD refs g; PUSH -2; AADD; PUSH 3; EQ; JZ fine
clear:  ADD refs g; LOAD -> r
        ADD refs g; GETL r; BAND r -2; CAS; GETL r; EQ; JZ clear
        PUSH 0 -> r
        ADD refs g; PUSH 1000; FWAKE -> _
fine:   RET

signal: LOAD wseq -> w
        BAND w 1; NOT -> g                   -- g is g1
        ADD size g; LOAD; JNZ add
        DIV w 2 -> w
        LOAD orig -> o
        LOAD g1start; PUSH 2; DIV -> st
        SUB w st; GETL o; SUB -> x
        NOT g -> q
        ADD size q; LOAD; GETL x; ADD; JZ none
        PUSH 0 -> x
        PUSH 0 -> q
        ADD sig g; PUSH 1; AOR -> _
        ADD refs g; LOAD -> r
quiesce: DIV r 2; JZ quiet
        ADD refs g; PUSH 1; AOR; PUSH 1; BOR -> r
        DIV r 2; JZ quiet
        ADD refs g; GETL r; FWAIT -> _
        ADD refs g; LOAD -> r
        JUMP quiesce
quiet:  PUSH 0 -> r
        MUL g 2; PUSH 1; SUB -> x            -- 1 where g1 is 1, else -1
        MUL o 2; GETL x; ADD -> x
        PUSH g1start; GETL x; AADD -> _
        ADD sig g; PUSH 0; STORE
        MUL g 2; PUSH 1; SUB -> x            -- wseq's lowest bit is 1 - g1: flipped by + 1 where g1 is 1, else by - 1
        PUSH wseq; GETL x; AADD; PUSH 2; DIV -> w
        NOT g -> g
        SUB w st; GETL o; SUB -> x
        STORE orig x
        ADD size g; GETL x; AADD; GETL x; ADD; JZ none
        PUSH 0 -> x
add:    PUSH 0 -> w; PUSH 0 -> o; PUSH 0 -> st; PUSH 0 -> x
        ADD sig g; PUSH 2; AADD -> _
        ADD size g; PUSH -1; AADD -> _
        ADD sig g; PUSH 1; FWAKE -> _
none:   RET
