-- WRONG: an event count whose number is noted behind the last look. The wrong line is marked in await.
VERSION 1
WORD number waiters flag
LOCAL n
START main
main:   FORK await -> _
        FORK await -> _
        JUMP signal
await:  LOAD flag ; JNZ seen
        AADD waiters 1 -> _
        LOAD flag ; JNZ leave
        LOAD number -> n                     -- wrong: too late
        FWAIT number n -> _
leave:  AADD waiters -1 -> _
        JUMP await
seen:   RET
signal: STORE flag 1
        AADD number 1 -> _
        LOAD waiters ; JZ nobody
        FWAKE number 1000 -> _
nobody: RET
