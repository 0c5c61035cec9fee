-- Readers and writers: how many read, or WRITES where one writes; and how many wait or are about to.
VERSION 1
WORD state waiters writing
CONST WRITES 1000
LOCAL s n
START main
main:   FORK read -> _
        FORK write -> _
        JUMP write
read:   CALL rlock
        LOAD writing ; EQ 0; ASSERT
        CALL runlock
        RET
write:  CALL wlock
        AADD writing 1 ; EQ 0; ASSERT
        AADD writing -1 -> _
        CALL wunlock
        RET

rlock:  LOAD state -> s
        EQ s WRITES; JNZ rsleep
        ADD s 1 -> n
        CAS state s n ; EQ s; JZ rlock
        RET
rsleep: AADD waiters 1 -> _
        FWAIT state WRITES -> _
        AADD waiters -1 -> _
        JUMP rlock
runlock: AADD state -1 ; EQ 1; JZ rdone
        LOAD waiters ; JZ rdone
        FWAKE state 1000 -> _
rdone:  RET

wlock:  CAS state 0 WRITES -> s
        JZ s wgot
        AADD waiters 1 -> _
        FWAIT state s -> _
        AADD waiters -1 -> _
        JUMP wlock
wgot:   RET
wunlock: STORE state 0
        LOAD waiters ; JZ wdone
        FWAKE state 1000 -> _
wdone:  RET
