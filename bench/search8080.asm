; Searches a directory 10,000 times for a file that it hasn't, so each search looks at every entry.
BDOS    EQU  5
SEARCH  EQU  17
TIMES   EQU  10000

        ORG  100H
        LXI  H,TIMES
NEXT:   PUSH H
        LXI  D,FCB
        MVI  C,SEARCH
        CALL BDOS
        POP  H
        DCX  H
        MOV  A,H
        ORA  L
        JNZ  NEXT
        HLT

FCB:    DB   0,'NOTTHERETXT',0,0,0,0
        DS   20
        END
