; Writes a file of 1,000 records and reads it back, 100 times.
BDOS    EQU  5
OPEN    EQU  15
CLOSE   EQU  16
ERASE   EQU  19
READ    EQU  20
WRITE   EQU  21
MAKE    EQU  22
RECORDS EQU  1000
TIMES   EQU  100

        ORG  100H
AGAIN:  MVI  C,ERASE
        CALL ON
        MVI  C,MAKE
        CALL FIRST
        MVI  C,WRITE
        CALL EACH
        MVI  C,CLOSE
        CALL ON
        MVI  C,OPEN
        CALL FIRST
        MVI  C,READ
        CALL EACH
        LXI  H,LEFT
        DCR  M
        JNZ  AGAIN
        HLT

; The function in C for each record, from the first on. One that fails ends the program early, with another count.
EACH:   XRA  A
        STA  FCB+32
        LXI  H,RECORDS
NEXT:   PUSH H
        PUSH B
        CALL ON
        ORA  A
        JNZ  FAILED
        POP  B
        POP  H
        DCX  H
        MOV  A,H
        ORA  L
        JNZ  NEXT
        RET

; The function in C on the file's first extent.
FIRST:  XRA  A
        STA  FCB+12
; The function in C on the file.
ON:     LXI  D,FCB
        JMP  BDOS

FAILED: HLT

LEFT:   DB   TIMES
FCB:    DB   0,'RECORDS DAT',0,0,0,0
        DS   20
        END
