-- WRONG: a ticket lock that wakes one, who may not be the next. The wrong line is the second of unlock.
VERSION 1
WORD next serving inside
LOCAL t s
START main
main:   FORK work -> _
        FORK work -> _
        JUMP work
work:   CALL lock
        AADD inside 1 ; EQ 0; ASSERT
        AADD inside -1 -> _
        CALL unlock
        RET
lock:   AADD next 1 -> t
look:   LOAD serving -> s
        EQ s t; JNZ got
        FWAIT serving s -> _
        JUMP look
got:    RET
unlock: AADD serving 1 -> _
        FWAKE serving 1 -> _                 -- wrong: all of them
        RET
