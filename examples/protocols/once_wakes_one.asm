-- WRONG: once, in which one is woken where several may wait. The wrong line is the third of mine.
-- 0 is new, 1 somebody does it, 2 the same and somebody waits, 3 done.
VERSION 1
WORD state done
LOCAL s
START main
main:   FORK worker -> _
        FORK worker -> _
        CALL once
        RET
worker: CALL once
        RET
once:   CAS state 0 1 -> s
        JZ s mine
look:   EQ s 3; JNZ over
        EQ s 2; JNZ sleep
        CAS state 1 2 -> s
        EQ s 3; JNZ over
sleep:  FWAIT state 2 -> _
        LOAD state -> s
        JUMP look
mine:   AADD done 1 -> _
        SWAP state 3 ; EQ 2; JZ over
        FWAKE state 1 -> _                   -- wrong: all of them
over:   LOAD done ; EQ 1; ASSERT
        RET
