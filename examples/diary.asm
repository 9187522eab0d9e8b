; DIARY writes the lines that are typed to the file DIARY.TXT, and then reads the file back and shows it.
;
;   A>DIARY
;
; It shows how a text is written character by character: they are collected in a record of 128 bytes, which function 21
; writes each time that it is full. The end of the text is marked by 1Ah, and what is left of the last record is filled
; with it.

BDOS    EQU  5
PUTCHR  EQU  2          ; show the character in E
PRINT   EQU  9          ; show the text at DE, up to the $
GETLIN  EQU  10         ; read a line into the buffer at DE
OPEN    EQU  15         ; these take a file control block at DE
CLOSE   EQU  16
ERASE   EQU  19
READ    EQU  20
WRITE   EQU  21
MAKE    EQU  22
RECORD  EQU  80H        ; where records are read to and written from
ENDTXT  EQU  1AH

        ORG  100H
        LXI  D,FCB
        MVI  C,ERASE
        CALL BDOS       ; the diary of yesterday, if there is one
        LXI  D,FCB
        MVI  C,MAKE
        CALL BDOS
        INR  A
        JZ   FULL
        LXI  H,RECORD
        SHLD PLACE
        LXI  D,INTRO
        CALL SAY

; ---- write

LINE:   LXI  D,PROMPT
        CALL SAY
        LXI  D,BUFFER
        MVI  C,GETLIN
        CALL BDOS
        LDA  BUFFER+1
        ORA  A
        JZ   FINISH     ; an empty line
        MOV  B,A
        LXI  H,BUFFER+2
STORE:  MOV  A,M
        CALL KEEP
        INX  H
        DCR  B
        JNZ  STORE
        MVI  A,13
        CALL KEEP
        MVI  A,10
        CALL KEEP
        JMP  LINE

FINISH: MVI  A,ENDTXT   ; at least one, and then up to the end of the record
        CALL KEEP
        LDA  PLACE
        CPI  RECORD
        JNZ  FINISH
        LXI  D,FCB
        MVI  C,CLOSE
        CALL BDOS

; ---- read back

        LXI  D,AGAIN
        CALL SAY
        XRA  A
        STA  FCB+12     ; the first extent
        STA  FCB+32     ; and in it the first record
        LXI  D,FCB
        MVI  C,OPEN
        CALL BDOS
NEXT:   LXI  D,FCB
        MVI  C,READ
        CALL BDOS
        ORA  A
        RNZ
        LXI  H,RECORD
SHOW:   MOV  A,M
        CPI  ENDTXT
        RZ
        PUSH H
        MOV  E,A
        MVI  C,PUTCHR
        CALL BDOS
        POP  H
        INR  L
        JNZ  SHOW       ; up to 00FFh
        JMP  NEXT

; Puts the character in A into the record, and writes the record where that fills it. Keeps B and HL.
KEEP:   PUSH H
        LHLD PLACE
        MOV  M,A
        INR  L          ; behind 00FFh comes 0
        JNZ  KEPT
        PUSH B
        LXI  D,FCB
        MVI  C,WRITE
        CALL BDOS
        POP  B
        ORA  A
        JNZ  FULL
        LXI  H,RECORD
KEPT:   SHLD PLACE
        POP  H
        RET

FULL:   LXI  D,NOROOM
        CALL SAY
        JMP  0          ; a warm boot ends a program from wherever it stands

SAY:    MVI  C,PRINT
        JMP  BDOS

INTRO:  DB   13,10,'Dear diary, (an empty line ends it)$'
PROMPT: DB   13,10,': $'
AGAIN:  DB   13,10,'DIARY.TXT has:',13,10,'$'
NOROOM: DB   13,10,'The disk is full$'
PLACE:  DW   0          ; where in the record the next character goes
BUFFER: DB   70,0
        DS   70
FCB:    DB   0,'DIARY   TXT'
        DS   21         ; of 33 bytes
        END
