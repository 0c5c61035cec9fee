-- A semaphore whose count stays below a bound, which is asserted.
VERSION 1
WORD count waiters
LOCAL c n
CONST LIMIT 2
START main
main:   FORK taker -> _
        FORK taker -> _
        FORK poster -> _
        CALL post
        RET
poster: CALL post
        RET
taker:  CALL down
        RET
down:   LOAD count -> c
        JZ c sleep
        SUB c 1 -> n
        CAS count c n ; EQ c; JZ down
        RET
sleep:  AADD waiters 1 -> _
        FWAIT count 0 -> _
        AADD waiters -1 -> _
        JUMP down
post:   AADD count 1 -> c
        LT c LIMIT ; ASSERT                  -- the bound
        LOAD waiters ; JZ nobody
        FWAKE count 1 -> _
nobody: RET
