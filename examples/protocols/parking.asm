-- A parker, as the threads of a language runtime have one: who parks sleeps until another unparks it, and a token that came
-- before counts. The state is 1 where the token is there, and 2 while the thread parks. Two unpark it.
VERSION 1
WORD state
LOCAL s
START main
main:   FORK park -> _
        FORK unpark -> _
        JUMP unpark
park:   CAS state 1 0 -> s
        EQ s 1; JNZ done
        CAS state 0 2 -> s
        EQ s 1; JNZ park
sleep:  FWAIT state 2 -> _
        CAS state 1 0 -> s
        EQ s 1; JZ sleep
done:   RET
unpark: SWAP state 1 -> s
        EQ s 2; JZ nobody
        FWAKE state 1 -> _
nobody: RET
