-- WRONG: a semaphore that reads how many wait before it raises the count. The wrong line is at post.
VERSION 1
WORD count waiters
LOCAL c n
START main
main:   FORK taker -> _
        FORK taker -> _
        FORK poster -> _
        CALL post
        RET
poster: CALL post
        RET
taker:  CALL down
        RET
down:   LOAD count -> c
        JZ c sleep
        SUB c 1 -> n
        CAS count c n ; EQ c; JZ down
        RET
sleep:  AADD waiters 1 -> _
        FWAIT count 0 -> _
        AADD waiters -1 -> _
        JUMP down
post:   LOAD waiters -> n                    -- wrong: before the count is raised
        AADD count 1 -> _
        JZ n nobody
        FWAKE count 1 -> _
nobody: RET
