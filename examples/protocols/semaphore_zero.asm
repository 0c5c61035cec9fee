-- WRONG: a semaphore that wakes only where the count was 0: of two that give, one wakes nobody. The wrong line is at post.
VERSION 1
WORD count waiters
LOCAL c n
START main
main:   FORK taker -> _
        FORK taker -> _
        FORK poster -> _
        CALL post
        RET
poster: CALL post
        RET
taker:  CALL down
        RET
down:   LOAD count -> c
        JZ c sleep
        SUB c 1 -> n
        CAS count c n ; EQ c; JZ down
        RET
sleep:  FWAIT count 0 -> _
        JUMP down
post:   AADD count 1 ; JNZ nobody            -- wrong
        FWAKE count 1 -> _
nobody: RET
