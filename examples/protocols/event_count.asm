-- An event count: who waits notes the number, looks once more, and sleeps only while the number is the same.
VERSION 1
WORD number waiters flag
LOCAL n
START main
main:   FORK await -> _
        FORK await -> _
        JUMP signal
await:  LOAD flag ; JNZ seen
        AADD waiters 1 -> _
        LOAD number -> n
        LOAD flag ; JNZ leave
        FWAIT number n -> _
leave:  AADD waiters -1 -> _
        JUMP await
seen:   RET
signal: STORE flag 1
        AADD number 1 -> _
        LOAD waiters ; JZ nobody
        FWAKE number 1000 -> _
nobody: RET
