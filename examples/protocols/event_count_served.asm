-- WRONG, as event_count_late.asm: a server goes on for ever beside it, so it isn't stuck, but who waits sleeps for good.
VERSION 1
WORD number waiters flag requests
LOCAL n
START main
main:   FORK await -> _
        FORK signal -> _
serve:  LOAD requests -> _
        JUMP serve
await:  LOAD flag ; JNZ seen
        AADD waiters 1 -> _
        LOAD flag ; JNZ leave
        LOAD number -> n                     -- wrong: too late
        FWAIT number n -> _
leave:  AADD waiters -1 -> _
        JUMP await
seen:   RET
signal: STORE flag 1
        AADD number 1 -> _
        LOAD waiters ; JZ nobody
        FWAKE number 1000 -> _
nobody: RET
