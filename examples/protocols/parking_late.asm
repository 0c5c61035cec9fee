-- WRONG: a parker whose token is stored apart from the look at the state: in between the thread may have parked. The wrong
-- line is at unpark.
VERSION 1
WORD state
LOCAL s
START main
main:   FORK park -> _
        FORK unpark -> _
        JUMP unpark
park:   CAS state 1 0 -> s
        EQ s 1; JNZ done
        CAS state 0 2 -> s
        EQ s 1; JNZ park
sleep:  FWAIT state 2 -> _
        CAS state 1 0 -> s
        EQ s 1; JZ sleep
done:   RET
unpark: LOAD state -> s
        STORE state 1
        EQ s 2; JZ nobody
        FWAKE state 1 -> _
nobody: RET
