-- WRONG: a barrier that is made empty when its round is over already, so that who comes again is forgotten. The wrong line
-- is the second of last.
VERSION 1
WORD come round
LOCAL r n
START main
main:   FORK worker -> _
        FORK worker -> _
        CALL work
        RET
worker: CALL work
        RET
work:   CALL meet; CALL meet
        RET
meet:   LOAD round -> r
        AADD come 1 -> n
        EQ n 2; JNZ last
stay:   FWAIT round r -> _
        LOAD round ; EQ r; JNZ stay
        RET
last:   AADD round 1 -> _
        STORE come 0                         -- wrong: too late
        FWAKE round 1000 -> _
        RET
