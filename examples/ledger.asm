; LEDGER keeps numbered entries in the file LEDGER.DAT, one in each record.
;
;   A>LEDGER
;   :A Rent 420         adds an entry
;   :G 0                gets entry 0
;   :C 0 Rent 440       changes entry 0
;   :L                  lists all entries
;   :Q                  ends
;
; It shows random access: functions 33 and 34 read and write the record of which the number stands in three bytes at the
; end of the file control block. Function 35 puts the number of the file's records there, which is where the next entry
; goes, and function 36 the number of the record that would be read next in sequence.

BDOS    EQU  5
PUTCHR  EQU  2          ; show the character in E
PRINT   EQU  9          ; show the text at DE, up to the $
GETLIN  EQU  10         ; read a line into the buffer at DE
OPEN    EQU  15         ; these take a file control block at DE
CLOSE   EQU  16
READ    EQU  20         ; the next record in sequence
MAKE    EQU  22
GETREC  EQU  33         ; read the record of this number: A isn't 0 where there is none
PUTREC  EQU  34         ; write it: A isn't 0 where there is no room
SIZE    EQU  35
NUMREC  EQU  36
RECORD  EQU  80H        ; where records are read to and written from

        ORG  100H
        LXI  D,FCB
        MVI  C,OPEN
        CALL BDOS
        INR  A
        JNZ  ASK
        LXI  D,FCB
        MVI  C,MAKE
        CALL BDOS
        INR  A
        JZ   FULL

ASK:    LXI  D,PROMPT
        CALL SAY
        LXI  D,BUFFER
        MVI  C,GETLIN
        CALL BDOS
        LXI  H,LINE
        LDA  BUFFER+1
        MOV  E,A
        MVI  D,0
        DAD  D
        MVI  M,0        ; a mark behind the line
        LXI  H,LINE
        MOV  A,M
        INX  H
        ANI  5FH        ; a small letter as a capital one
        CPI  'A'
        JZ   ANOTHR
        CPI  'G'
        JZ   GET
        CPI  'C'
        JZ   CHANGE
        CPI  'L'
        JZ   LIST
        CPI  'Q'
        RZ              ; back to the command processor
WHAT:   LXI  D,HELP
        JMP  TELL

; ---- A text: the new entry's number is that of the records that there are.

ANOTHR: PUSH H
        LXI  D,FCB
        MVI  C,SIZE
        CALL BDOS
        POP  H
STORE:  CALL SKIP
        LXI  D,RECORD   ; the text at HL, and then 0 up to the record's end
        MVI  B,128
STORE1: MOV  A,M
        STAX D
        ORA  A
        JZ   STORE2
        INX  H
STORE2: INX  D
        DCR  B
        JNZ  STORE1
        LXI  D,FCB
        MVI  C,PUTREC
        CALL BDOS
        ORA  A
        JNZ  FULL
        LXI  D,FCB      ; after each change the directory knows it, so SIZE is right
        MVI  C,CLOSE
        CALL BDOS
        LXI  D,STORED
        CALL SAY
        LHLD NUMBER
        CALL DECIML
        JMP  ASK

; ---- G number

GET:    CALL VALUE
        JC   WHAT
        CALL FETCH
        JNZ  NOENT
        CALL SHOW
        JMP  ASK

; ---- C number text

CHANGE: CALL VALUE
        JC   WHAT
        PUSH H
        CALL FETCH      ; it has to be there
        POP  H
        JZ   STORE
NOENT:  LXI  D,NONE
TELL:   CALL SAY
        JMP  ASK

; Reads the record of the number: Z is set where there is one.
FETCH:  LXI  D,FCB
        MVI  C,GETREC
        CALL BDOS
        ORA  A
        RET

; ---- L: all records in sequence, from the first on

LIST:   XRA  A
        STA  FCB+12
        STA  FCB+32
        LXI  D,FCB
        MVI  C,OPEN
        CALL BDOS
LIST1:  LXI  D,FCB
        MVI  C,NUMREC   ; the number of the one that comes, for SHOW
        CALL BDOS
        LXI  D,FCB
        MVI  C,READ
        CALL BDOS
        ORA  A
        JNZ  ASK
        CALL SHOW
        JMP  LIST1

; Shows the entry that was read, with its number.
SHOW:   LXI  D,NEWLIN
        CALL SAY
        LHLD NUMBER
        CALL DECIML
        MVI  A,' '
        LXI  H,RECORD
SHOW1:  CALL PUT
        MOV  A,M
        INX  H
        ORA  A
        JNZ  SHOW1
        RET

FULL:   LXI  D,NOROOM   ; ends LEDGER, since the RET of the BDOS is then its own
SAY:    MVI  C,PRINT
        JMP  BDOS

; Shows the character in A, and keeps HL.
PUT:    PUSH H
        MOV  E,A
        MVI  C,PUTCHR
        CALL BDOS
        POP  H
        RET

; Leaves HL at what isn't a blank.
SKIP:   MOV  A,M
        CPI  ' '
        RNZ
        INX  H
        JMP  SKIP

; Makes the decimal number at HL the record's number, and leaves HL behind it. The carry is set where there is none.
VALUE:  CALL SKIP
        CALL DIGIT
        RC
        LXI  D,0
VALUE1: PUSH H          ; ten times DE, and the digit
        MOV  H,D
        MOV  L,E
        DAD  H
        DAD  H
        DAD  D
        DAD  H
        MOV  E,A
        MVI  D,0
        DAD  D
        XCHG
        POP  H
        INX  H
        MOV  A,M
        CALL DIGIT
        JNC  VALUE1
        XCHG
        SHLD NUMBER
        XCHG
        XRA  A          ; which leaves no carry either
        STA  NUMBER+2
        RET

; The number of the digit in A. The carry is set where it is no digit.
DIGIT:  SUI  '0'
        RC
        CPI  10
        CMC
        RET

; Shows HL as a decimal number: first what stands before its last digit, by a call of itself.
DECIML: LXI  B,-10
        LXI  D,-1
TENTH:  INX  D          ; DE counts how often 10 goes into HL
        DAD  B
        JC   TENTH
        LXI  B,10
        DAD  B          ; HL is the last digit
        XCHG            ; now E is, and HL the number before it
        PUSH D
        MOV  A,H
        ORA  L
        CNZ  DECIML
        POP  D
        MVI  A,'0'
        ADD  E
        JMP  PUT

PROMPT: DB   13,10,':$'
HELP:   DB   13,10,'A text, G number, C number text, L or Q$'
STORED: DB   13,10,'entry $'
NONE:   DB   13,10,'there is no such entry$'
NOROOM: DB   13,10,'there is no room$'
NEWLIN: DB   13,10,'$'
FCB:    DB   0,'LEDGER  DAT'
        DS   21         ; up to the 33 bytes that every file has
NUMBER: DB   0,0,0      ; and the record's number behind them
BUFFER: DB   100,0
LINE:   DS   101        ; one more than the buffer takes, for the mark
        END
