-- A barrier for three that is used twice: how many have come, and the round.
VERSION 1
WORD come round
LOCAL r n
START main
main:   FORK worker -> _
        FORK worker -> _
        CALL work
        RET
worker: CALL work
        RET
work:   CALL meet; CALL meet
        RET
meet:   LOAD round -> r
        AADD come 1 -> n
        EQ n 2; JNZ last
stay:   FWAIT round r -> _
        LOAD round ; EQ r; JNZ stay
        RET
last:   STORE come 0
        AADD round 1 -> _
        FWAKE round 1000 -> _
        RET
