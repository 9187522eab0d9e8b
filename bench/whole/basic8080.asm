; BASIC80 NAME: reads NAME.BAS, a program in a small BASIC, and runs it.
;
; Lines have numbers that rise. Statements, more of them in a line by colons:
;
;   LET V=e, or V=e     PRINT, of values and "texts", with ; or , between      REM
;   IF e THEN line, or a statement      GOTO e      GOSUB e      RETURN      END      STOP
;   FOR V=e TO e STEP e      NEXT V
;
; Values are numbers from -32768 to 32767, in the variables A to Z and the array @(0) to @(4095). Operators are
; * / + - and = < > <= >= <>, which give 1 or 0. A fault ends it:
;
;   S syntax   L no such line   I index   G too many GOSUBs   R no GOSUB   F no FOR   Z division by 0   T line too long

BDOS    EQU  5
FILE    EQU  5CH
INBUF   EQU  80H
CR      EQU  13
LF      EQU  10
TAB     EQU  9
EOF     EQU  1AH
DQUOTE  EQU  22H
PUTCHR  EQU  2
PRINT   EQU  9
OPEN    EQU  15
READ    EQU  20

VARS    EQU  1000H      ; A to Z, a word each
LOOPS   EQU  1100H      ; for each of them: limit, step, where its loop begins, the line there
CALLS   EQU  1200H      ; for each GOSUB: where it goes on, the line there
ARRAY   EQU  1300H
WORDS   EQU  4096
PROG    EQU  ARRAY+2*WORDS

KREM    EQU  88H        ; keywords in a line, by their place in KEYS
KTHEN   EQU  8BH
KTO     EQU  8CH
KSTEP   EQU  8DH

        ORG  100H
        LXI  H,FILE+9
        MVI  M,'B'
        INX  H
        MVI  M,'A'
        INX  H
        MVI  M,'S'
        LXI  D,FILE
        MVI  C,OPEN
        CALL BDOS
        INR  A
        LXI  D,NOFILE
        JZ   QUIT
        LXI  H,VARS     ; all is 0
CLEAR:  MVI  M,0
        INX  H
        MOV  A,H
        CPI  PROG/256+1
        JNZ  CLEAR
        LXI  H,100H
        SHLD POS
LOAD:   CALL GETLIN
        JC   RUN
        CALL CRUNCH
        JMP  LOAD

; ---- the program is read

; The next character of the file in A, 1Ah at its end. Keeps BC and DE.
GETCHR: LHLD POS
        MOV  A,H
        ORA  A
        JZ   GETCH2
        PUSH B
        PUSH D
        LXI  D,FILE
        MVI  C,READ
        CALL BDOS
        POP  D
        POP  B
        LXI  H,INBUF
        ORA  A
        JZ   GETCH2
        MVI  M,EOF
GETCH2: MOV  A,M
        INX  H
        SHLD POS
        RET

; The next line to LINE, in capital letters outside of texts, with 0 behind it. C is set where there is none.
GETLIN: LXI  D,LINE
        MVI  B,127
        MVI  C,0        ; 1 in a text
GETLI1: CALL GETCHR
        CPI  LF
        JZ   GETLI4
        CPI  CR
        JZ   GETLI1
        CPI  EOF
        JZ   GETLI5
        CPI  DQUOTE
        JZ   GETLI3
        CPI  'a'
        JC   GETLI2
        CPI  'z'+1
        JNC  GETLI2
        DCR  C
        INR  C
        JNZ  GETLI2
        ANI  5FH
GETLI2: STAX D
        INX  D
        DCR  B
        JNZ  GETLI1
        MVI  A,'T'
        JMP  FAULT
GETLI3: MOV  A,C
        XRI  1
        MOV  C,A
        MVI  A,DQUOTE
        JMP  GETLI2
GETLI4: XRA  A
        STAX D
        RET
GETLI5: DCX  H          ; it is found again
        SHLD POS
        MOV  A,B
        CPI  127
        JNZ  GETLI4
        STC
        RET

; Puts the line behind the program: its length, its number, its text with a byte for each keyword and without blanks, and 0.
CRUNCH: LXI  H,LINE
CRUNC1: MOV  A,M
        INX  H
        CPI  ' '
        JZ   CRUNC1
        DCX  H
        ORA  A
        RZ
        CALL NUMBER
        PUSH H
        LHLD FREE
        SHLD CURLIN
        INX  H
        MOV  M,E
        INX  H
        MOV  M,D
        INX  H
        XCHG
        POP  H
CRUNC2: MOV  A,M
        ORA  A
        JZ   CRUNC5
        CPI  DQUOTE
        JZ   CRUNC4
        CALL KEYWRD
        JC   CRUNC3
        STAX D
        INX  D
        CPI  KREM
        JNZ  CRUNC2
        JMP  CRUNC5     ; what it remarks isn't kept
CRUNC3: MOV  A,M
        INX  H
        CPI  ' '
        JZ   CRUNC2
        STAX D
        INX  D
        JMP  CRUNC2
CRUNC4: STAX D          ; a text
        INX  D
        INX  H
        MOV  A,M
        ORA  A
        JZ   SYNTAX
        CPI  DQUOTE
        JNZ  CRUNC4
        STAX D
        INX  D
        INX  H
        JMP  CRUNC2
CRUNC5: XRA  A
        STAX D
        INX  D
        LHLD FREE
        MOV  A,E
        SUB  L
        MOV  M,A
        XCHG
        SHLD FREE
        MVI  M,0        ; the end of the program
        RET

; The keyword at HL, in A, and HL behind it. C is set where there is none.
KEYWRD: PUSH D
        LXI  D,KEYS
        MVI  C,80H
KEYWR1: PUSH H
KEYWR2: LDAX D
        ORA  A
        JZ   KEYWR4
        CMP  M
        INX  H
        INX  D
        JZ   KEYWR2
        DCX  D
        POP  H
KEYWR3: LDAX D
        INX  D
        ORA  A
        JNZ  KEYWR3
        INR  C
        LDAX D
        ORA  A
        JNZ  KEYWR1
        POP  D
        STC
        RET
KEYWR4: POP  D          ; (where the word began)
        POP  D
        MOV  A,C
        ORA  A
        RET

KEYS:   DB   'LET',0,'PRINT',0,'IF',0,'GOTO',0,'GOSUB',0,'RETURN',0,'FOR',0,'NEXT',0,'REM',0,'END',0,'STOP',0
        DB   'THEN',0,'TO',0,'STEP',0,0
PARTS:  DW   LET,PRINTS,IFS,GOTOS,GOSUBS,RETURN,FORS,NEXTS,SKIPLN,0,0       ; (END and STOP boot)
STATES  EQU  11

; ---- it is run; HL goes on in its text

RUN:    CALL NEWLN
        LXI  H,PROG
NEXTLN: MOV  A,M
        ORA  A
        JZ   0
        SHLD CURLIN
        INX  H
        INX  H
        INX  H
STATE:  MOV  A,M
        INX  H
        SUI  80H
        JC   LET1
        CPI  STATES
        JNC  SYNTAX
        ADD  A
        MOV  E,A
        MVI  D,0
        PUSH H
        LXI  H,PARTS
        DAD  D
        MOV  E,M
        INX  H
        MOV  D,M
        POP  H
        PUSH D
        RET

; Behind a statement.
GOON:   MOV  A,M
        INX  H
        CPI  ':'
        JZ   STATE
        ORA  A
        JZ   NEXTLN
SYNTAX: MVI  A,'S'
        JMP  FAULT

; On with the next line.
SKIPLN: LHLD CURLIN
        MOV  C,M
        MVI  B,0
        DAD  B
        JMP  NEXTLN

LET1:   ADI  80H        ; no keyword
        JZ   NEXTLN
        CPI  ':'
        JZ   STATE
        DCX  H
LET:    CALL ASSIGN
        JMP  GOON

ASSIGN: CALL PLACE
        PUSH D
        MOV  A,M
        INX  H
        CPI  '='
        JNZ  SYNTAX
        CALL EXPR
        XTHL
        MOV  M,E
        INX  H
        MOV  M,D
        POP  H
        RET

; Where a variable is, or an element: in DE.
PLACE:  MOV  A,M
        INX  H
        CPI  '@'
        JZ   PLACE1
        SUI  'A'
        CPI  26
        JNC  SYNTAX
        ADD  A
        MOV  E,A
        MVI  D,VARS/256
        RET
PLACE1: CALL PAREN
        MOV  A,D
        CPI  WORDS/256
        MVI  A,'I'
        JNC  FAULT
        XCHG
        DAD  H
        LXI  B,ARRAY
        DAD  B
        XCHG
        RET

PRINTS: MOV  A,M
        ORA  A
        JZ   PRINT5
        CPI  ':'
        JZ   PRINT5
        CPI  DQUOTE
        JZ   PRINT1
        CALL EXPR
        PUSH H
        CALL SIGNED
        POP  H
        JMP  PRINT3
PRINT1: INX  H
PRINT2: MOV  A,M
        INX  H
        CPI  DQUOTE
        JZ   PRINT3
        CALL SHOW
        JMP  PRINT2
PRINT3: MOV  A,M
        CPI  ';'
        JZ   PRINT4
        CPI  ','
        JNZ  PRINT5
        MVI  A,TAB
        CALL SHOW
PRINT4: INX  H
        MOV  A,M
        ORA  A
        JZ   GOON
        CPI  ':'
        JZ   GOON
        JMP  PRINTS
PRINT5: PUSH H
        CALL NEWLN
        POP  H
        JMP  GOON

IFS:    CALL EXPR
        MOV  A,D
        ORA  E
        JZ   SKIPLN
        MOV  A,M
        CPI  KTHEN
        JNZ  SYNTAX
        INX  H
        MOV  A,M
        SUI  '0'
        CPI  10
        JNC  STATE
GOTOS:  CALL EXPR
        CALL FIND
        JMP  NEXTLN

; The line of number DE.
FIND:   LXI  H,PROG
        MVI  B,0
FIND1:  MOV  A,M
        ORA  A
        JZ   FIND3
        MOV  C,A
        INX  H
        MOV  A,M
        CMP  E
        JNZ  FIND2
        INX  H
        MOV  A,M
        DCX  H
        CMP  D
        JNZ  FIND2
        DCX  H
        RET
FIND2:  DCX  H
        DAD  B
        JMP  FIND1
FIND3:  MVI  A,'L'
        JMP  FAULT

GOSUBS: CALL EXPR
        PUSH D
        XCHG
        LHLD CURLIN
        MOV  B,H
        MOV  C,L
        LHLD LEVEL
        MOV  M,E
        INX  H
        MOV  M,D
        INX  H
        MOV  M,C
        INX  H
        MOV  M,B
        INR  L
        MVI  A,'G'
        JZ   FAULT
        SHLD LEVEL
        POP  D
        CALL FIND
        JMP  NEXTLN

RETURN: LHLD LEVEL
        MOV  A,L
        ORA  A
        MVI  A,'R'
        JZ   FAULT
        DCX  H
        MOV  B,M
        DCX  H
        MOV  C,M
        DCX  H
        MOV  D,M
        DCX  H
        MOV  E,M
        SHLD LEVEL
RETUR1: MOV  H,B        ; on at DE, in the line at BC
        MOV  L,C
        SHLD CURLIN
        XCHG
        JMP  GOON

FORS:   MOV  A,M
        SUI  'A'
        CPI  26
        JNC  SYNTAX
        ADD  A
        ADD  A
        ADD  A
        STA  LOOP
        CALL ASSIGN
        MOV  A,M
        CPI  KTO
        JNZ  SYNTAX
        INX  H
        CALL EXPR
        PUSH D
        LXI  D,1
        MOV  A,M
        CPI  KSTEP
        JNZ  FORS1
        INX  H
        CALL EXPR
FORS1:  POP  B
        PUSH H
        LHLD LOOP
        MVI  H,LOOPS/256
        MOV  M,C
        INX  H
        MOV  M,B
        INX  H
        MOV  M,E
        INX  H
        MOV  M,D
        INX  H
        POP  D
        PUSH D
        MOV  M,E
        INX  H
        MOV  M,D
        INX  H
        XCHG
        LHLD CURLIN
        XCHG
        MOV  M,E
        INX  H
        MOV  M,D
        POP  H
        JMP  GOON

NEXTS:  MOV  A,M
        INX  H
        SUI  'A'
        CPI  26
        JNC  SYNTAX
        PUSH H
        ADD  A
        MOV  L,A
        MVI  H,VARS/256
        PUSH H
        MOV  E,M
        INX  H
        MOV  D,M
        ADD  A
        ADD  A
        ADI  2
        MOV  L,A
        MVI  H,LOOPS/256
        MOV  C,M        ; the step
        INX  H
        MOV  B,M
        XCHG
        DAD  B
        XCHG
        XTHL
        MOV  M,E
        INX  H
        MOV  M,D
        POP  H
        DCX  H
        DCX  H
        DCX  H
        PUSH H
        MOV  A,M
        INX  H
        MOV  H,M
        MOV  L,A        ; the limit
        MOV  A,B
        ORA  A
        JP   NEXTS1
        XCHG
NEXTS1: CALL ORDER      ; of limit and variable
        POP  H
        DCR  A
        JZ   NEXTS2     ; the variable is past the limit
        LXI  D,4
        DAD  D
        MOV  E,M
        INX  H
        MOV  D,M
        INX  H
        MOV  C,M
        INX  H
        MOV  B,M
        POP  H
        MOV  A,D
        ORA  A
        JNZ  RETUR1
        MVI  A,'F'
        JMP  FAULT
NEXTS2: POP  H
        JMP  GOON

; ---- values, in DE

EXPR:   CALL SUM
        MOV  A,M
        SUI  '<'
        CPI  3
        RNC
        MVI  C,0        ; 1 for <, 2 for =, 4 for >
EXPR1:  INR  A
        CPI  3
        JNZ  EXPR2
        INR  A
EXPR2:  ORA  C
        MOV  C,A
        INX  H
        MOV  A,M
        SUI  '<'
        CPI  3
        JC   EXPR1
        PUSH D
        PUSH B
        CALL SUM
        POP  B
        XTHL
        CALL ORDER
        LXI  D,0
        ANA  C
        JZ   EXPR3
        INX  D
EXPR3:  POP  H
        RET

; How HL stands to DE: A is 1 where it is less, 2 where both are the same, 4 where it is more. Keeps BC.
ORDER:  MOV  A,H
        XRA  D
        JM   ORDER1
        MOV  A,L
        SUB  E
        MOV  L,A
        MOV  A,H
        SBB  D
        JC   ORDER2
        ORA  L
        MVI  A,2
        RZ
        MVI  A,4
        RET
ORDER1: MOV  A,D        ; one of them is less than 0
        ORA  A
        MVI  A,4
        RM
ORDER2: MVI  A,1
        RET

SUM:    CALL TERM
SUM1:   MOV  A,M
        CPI  '+'
        JZ   SUM2
        CPI  '-'
        RNZ
        INX  H
        PUSH D
        CALL TERM
        CALL NEGATE
        JMP  SUM3
SUM2:   INX  H
        PUSH D
        CALL TERM
SUM3:   POP  B
        XCHG
        DAD  B
        XCHG
        JMP  SUM1

TERM:   CALL FACTOR
TERM1:  MOV  A,M
        CPI  '*'
        JZ   TERM2
        CPI  '/'
        RNZ
        INX  H
        PUSH D
        CALL FACTOR
        POP  B
        PUSH H
        CALL DIVIDE
        POP  H
        JMP  TERM1
TERM2:  INX  H
        PUSH D
        CALL FACTOR
        POP  B
        PUSH H
        CALL TIMES
        POP  H
        JMP  TERM1

FACTOR: MOV  A,M
        SUI  'A'
        CPI  26
        JC   FACTO1
        MOV  A,M
        CPI  '('
        JZ   PAREN
        CPI  '@'
        JZ   FACTO2
        CPI  '-'
        JNZ  NUMBER
        INX  H
        CALL FACTOR
NEGATE: XRA  A
        SUB  E
        MOV  E,A
        MVI  A,0
        SBB  D
        MOV  D,A
        RET
FACTO1: INX  H
        PUSH H
        ADD  A
        MOV  L,A
        MVI  H,VARS/256
        MOV  E,M
        INX  H
        MOV  D,M
        POP  H
        RET
FACTO2: CALL PLACE
        XCHG
        MOV  A,M
        INX  H
        MOV  H,M
        MOV  L,A
        XCHG
        RET

PAREN:  MOV  A,M
        INX  H
        CPI  '('
        JNZ  SYNTAX
        CALL EXPR
        MOV  A,M
        INX  H
        CPI  ')'
        JNZ  SYNTAX
        RET

NUMBER: MOV  A,M
        SUI  '0'
        CPI  10
        JNC  SYNTAX
        LXI  D,0
NUMBE1: INX  H
        PUSH H
        MOV  H,D
        MOV  L,E
        DAD  H
        DAD  H
        DAD  D
        DAD  H
        MOV  E,A
        MVI  D,0
        DAD  D
        XCHG
        POP  H
        MOV  A,M
        SUI  '0'
        CPI  10
        JC   NUMBE1
        RET

; DE = BC * DE
TIMES:  LXI  H,0
        MVI  A,16
TIMES1: DAD  H
        XCHG
        DAD  H
        XCHG
        JNC  TIMES2
        DAD  B
TIMES2: DCR  A
        JNZ  TIMES1
        XCHG
        RET

; DE = BC / DE, to 0
DIVIDE: MOV  A,D
        ORA  E
        MVI  A,'Z'
        JZ   FAULT
        MOV  A,D
        XRA  B
        PUSH PSW        ; the sign of the quotient
        MOV  A,D
        ORA  A
        CM   NEGATE
        MOV  A,B
        ORA  A
        JP   DIVID1
        XRA  A
        SUB  C
        MOV  C,A
        MVI  A,0
        SBB  B
        MOV  B,A
DIVID1: LXI  H,0        ; HL is the rest; the quotient comes into BC from below
        MVI  A,16
DIVID2: PUSH PSW
        MOV  A,C
        ADD  A
        MOV  C,A
        MOV  A,B
        RAL
        MOV  B,A
        MOV  A,L
        RAL
        MOV  L,A
        MOV  A,H
        RAL
        MOV  H,A
        MOV  A,L
        SUB  E
        MOV  A,H
        SBB  D
        JC   DIVID3
        MOV  H,A
        MOV  A,L
        SUB  E
        MOV  L,A
        INR  C
DIVID3: POP  PSW
        DCR  A
        JNZ  DIVID2
        MOV  D,B
        MOV  E,C
        POP  PSW
        JM   NEGATE
        RET

; ---- what is shown

FAULT:  STA  LETTR
        LXI  D,SAYFLT
        CALL SAY
        LHLD CURLIN
        INX  H
        MOV  E,M
        INX  H
        MOV  D,M
        CALL SIGNED
        JMP  0
QUIT:   CALL SAY
        JMP  0
NEWLN:  LXI  D,CRLF
SAY:    MVI  C,PRINT
        JMP  BDOS

; Shows A. Keeps HL.
SHOW:   PUSH H
        MOV  E,A
        MVI  C,PUTCHR
        CALL BDOS
        POP  H
        RET

; Shows DE.
SIGNED: MOV  A,D
        ORA  A
        JP   SIGNE1
        CALL NEGATE
        PUSH D
        MVI  A,'-'
        CALL SHOW
        POP  D
SIGNE1: XCHG

; Shows HL as a decimal number: first what stands before its last digit, by a call of itself.
DECIML: LXI  B,-10
        LXI  D,-1
TENTH:  INX  D
        DAD  B
        JC   TENTH
        LXI  B,10
        DAD  B
        XCHG
        PUSH D
        MOV  A,H
        ORA  L
        CNZ  DECIML
        POP  D
        MVI  A,'0'
        ADD  E
        MOV  E,A
        MVI  C,PUTCHR
        JMP  BDOS

NOFILE: DB   CR,LF,'No such program$'
SAYFLT: DB   CR,LF
LETTR:  DB   '? in line $'
CRLF:   DB   CR,LF,'$'
FREE:   DW   PROG       ; where the next line goes
CURLIN: DW   NOLINE     ; the line that is read or run
NOLINE: DB   0,0,0
LEVEL:  DW   CALLS      ; where the next GOSUB goes
POS:    DS   2          ; the next character of the file
LOOP:   DS   2
LINE:   DS   128
        END
