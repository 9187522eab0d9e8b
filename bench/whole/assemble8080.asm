; ASSEMBLE8080 NAME: reads NAME.ASM, a source of the 8080, in two passes, and writes NAME.COM.
;
; Its language is a part of that of `cpmhost asm`: all instructions, labels with or without colon, comments,
; several statements by !, ORG EQU DB DW DS END, and values of numbers, texts, names, $, brackets, * / + and -.
; The first fault ends it: its letter, its line.
;
;   S syntax   O no operation   D defined twice   U undefined   P other in the second pass   V value   N number
;   L line too long   M memory

BDOS    EQU  5
TOP     EQU  6          ; the word here: how far memory is free
COMMND  EQU  5CH
INBUF   EQU  80H
CR      EQU  13
LF      EQU  10
TAB     EQU  9
EOF     EQU  1AH
QUOTE   EQU  27H
PUTCHR  EQU  2
PRINT   EQU  9
OPEN    EQU  15
CLOSE   EQU  16
ERASE   EQU  19
READ    EQU  20
WRITE   EQU  21
MAKE    EQU  22
SETDMA  EQU  26
KEQU    EQU  15         ; the kind of EQU
HEADS   EQU  128        ; lists of names

        ORG  100H
        LXI  D,SOURCE
        CALL NAMED
        LXI  D,OBJECT
        CALL NAMED
        CALL PASSES
        LXI  D,OBJECT
        MVI  C,ERASE
        CALL BDOS
        LXI  D,OBJECT
        MVI  C,MAKE
        CALL BDOS
        INR  A
        JZ   FULL
        MVI  A,1
        STA  PASS
        CALL PASSES
REST:   LDA  OUTLFT     ; fill the last record
        CPI  128
        JZ   DONE
        MVI  A,EOF
        CALL PUT
        JMP  REST
DONE:   LXI  D,OBJECT
        MVI  C,CLOSE
        CALL BDOS
        LXI  D,NEWLIN
        CALL SAY
        LHLD LINES
        CALL DECIML
        LXI  D,SAYLIN
        CALL SAY
        LHLD PC
        LXI  D,-100H
        DAD  D
        CALL DECIML
        LXI  D,SAYBYT
        JMP  SAY

; Copies the name of the command line to the file control block at DE.
NAMED:  LXI  H,COMMND
        MVI  B,9
NAMED1: MOV  A,M
        STAX D
        INX  H
        INX  D
        DCR  B
        JNZ  NAMED1
        RET

; One pass over the source.
PASSES: XRA  A
        STA  SOURCE+12  ; from its first record on
        STA  SOURCE+14
        STA  SOURCE+32
        STA  ENDED
        LXI  D,SOURCE
        MVI  C,OPEN
        CALL BDOS
        INR  A
        LXI  D,NOFILE
        JZ   QUIT
        LXI  H,100H     ; the buffer is used up
        SHLD POS
        SHLD PC
        LXI  H,0
        SHLD LINES
PASS1:  CALL GETLIN
        RC
        CALL STATE
        LDA  ENDED
        ORA  A
        JZ   PASS1
        RET

; ---- the source

; The next character of the source in A, 1Ah at its end. Keeps BC and DE.
GETCHR: LHLD POS
        MOV  A,H
        ORA  A
        JZ   GETCH2
        PUSH B
        PUSH D
        LXI  D,SOURCE
        MVI  C,READ
        CALL BDOS
        POP  D
        POP  B
        LXI  H,INBUF
        ORA  A
        JZ   GETCH2
        MVI  M,EOF
GETCH2: MOV  A,M
        INX  H
        SHLD POS
        RET

; The next line to LINE, in capital letters outside of quotes, with 0 behind it. C is set where there is none.
GETLIN: LHLD LINES
        INX  H
        SHLD LINES
        LXI  D,LINE
        MVI  B,127
        MVI  C,0        ; 1 in quotes
GETLI1: CALL GETCHR
        CPI  LF
        JZ   GETLI4
        CPI  CR
        JZ   GETLI1
        CPI  EOF
        JZ   GETLI5
        CPI  QUOTE
        JZ   GETLI3
        CPI  'a'
        JC   GETLI2
        CPI  'z'+1
        JNC  GETLI2
        DCR  C
        INR  C
        JNZ  GETLI2
        ANI  5FH
GETLI2: STAX D
        INX  D
        DCR  B
        JNZ  GETLI1
        MVI  A,'L'
        JMP  FAULT
GETLI3: MOV  A,C
        XRI  1
        MOV  C,A
        MVI  A,QUOTE
        JMP  GETLI2
GETLI4: XRA  A
        STAX D
        RET
GETLI5: DCX  H          ; it is found again
        SHLD POS
        MOV  A,B
        CPI  127
        JNZ  GETLI4
        LHLD LINES
        DCX  H
        SHLD LINES
        STC
        RET

; ---- a statement

STATE:  LXI  H,LINE
        MOV  A,M
        CPI  '*'
        RZ
STATE1: XCHG
        LHLD PC
        SHLD HERE
        XCHG
        XRA  A
        STA  LABEL      ; no label
        CALL SKIP
        JZ   STATE9
        CALL WORD
        MOV  A,M
        CPI  ':'
        JZ   STATE2
        CALL FINDOP
        JNC  STATE4
        DCX  H
STATE2: INX  H
        PUSH H
        LXI  D,LABEL
        LXI  H,NAME
        MOV  B,M
        INR  B
STATE3: MOV  A,M
        STAX D
        INX  H
        INX  D
        DCR  B
        JNZ  STATE3
        POP  H
        CALL SKIP
        JZ   STATE8
        CALL WORD
        CALL FINDOP
        MVI  A,'O'
        JC   FAULT
STATE4: LDA  KIND
        CPI  KEQU
        JZ   EQUATE
        CALL DEFPC
        LXI  D,STATE9
        PUSH D          ; where the kind's part returns to
        ADD  A
        MOV  E,A
        MVI  D,0
        PUSH H
        LXI  H,PARTS
        DAD  D
        MOV  E,M
        INX  H
        MOV  D,M
        POP  H
        PUSH D
        LDA  OPCODE
        RET             ; to the part, with the code in A
STATE8: CALL DEFPC
STATE9: CALL SKIP
        JNZ  SYNTAX
        CPI  '!'
        INX  H
        JZ   STATE1
        RET

EQUATE: CALL KNOWN
        CALL DEFINE
        JMP  STATE9

PARTS:  DW   EMIT,REGLOW,REGMID,MOVES,MOVEI,BYTES,WORDS,PAIRS
        DW   LXIS,RSTS,ORGS,DBS,DWS,DSS,ENDS

REGLOW: MOV  B,A
        CALL REG
        ORA  B
        JMP  EMIT

REGMID: MOV  B,A
        CALL REG8
        ORA  B
        JMP  EMIT

MOVES:  MOV  B,A
        CALL REG8
        ORA  B
        MOV  B,A
        CALL COMMA
        CALL REG
        ORA  B
        CPI  76H        ; MOV M,M
        JZ   SYNTAX
        JMP  EMIT

MOVEI:  MOV  B,A
        CALL REG8
        ORA  B
        CALL EMIT
        CALL COMMA
        JMP  BYTE

BYTES:  CALL EMIT
BYTE:   CALL EXPR
BYTE1:  LDA  PASS       ; emits E, which has to be all of DE
        ORA  A
        JZ   BYTE2
        MOV  A,D
        ORA  A
        JZ   BYTE2
        INR  A
        JNZ  VALUE
        MOV  A,E
        ORA  A
        JP   VALUE
BYTE2:  MOV  A,E
        JMP  EMIT

WORDS:  CALL EMIT
WORD16: CALL EXPR
        MOV  A,E
        CALL EMIT
        MOV  A,D
        JMP  EMIT

PAIRS:  MOV  B,A
        CALL PAIR
        ORA  B
        JMP  EMIT

LXIS:   MOV  B,A
        CALL PAIR
        ORA  B
        CALL EMIT
        CALL COMMA
        JMP  WORD16

RSTS:   CALL KNOWN
        MOV  A,D
        ORA  A
        JNZ  VALUE
        MOV  A,E
        CPI  8
        JNC  VALUE
        RLC
        RLC
        RLC
        ORI  0C7H
        JMP  EMIT

ORGS:   CALL KNOWN
        PUSH H
        LHLD PC
        MOV  A,E        ; DE is how far it is
        SUB  L
        MOV  E,A
        MOV  A,D
        SBB  H
        MOV  D,A
        POP  H
        JC   VALUE
        JMP  ZEROS
DSS:    CALL KNOWN
ZEROS:  MOV  A,D        ; DE zeros
        ORA  E
        RZ
        XRA  A
        CALL EMIT
        DCX  D
        JMP  ZEROS

ENDS:   MVI  A,1
        STA  ENDED
        RET

DWS:    CALL WORD16
        CALL SKIP
        CPI  ','
        RNZ
        INX  H
        JMP  DWS

DBS:    CALL SKIP
        CPI  QUOTE
        JNZ  DBS4
        PUSH H          ; is it all of the operand?
        INX  H
DBS1:   CALL QCHAR
        JNC  DBS1
        CALL SKIP
        POP  H
        JZ   DBS2
        CPI  ','
        JNZ  DBS4
DBS2:   INX  H          ; a text
DBS3:   CALL QCHAR
        JC   DBS5
        CALL EMIT
        JMP  DBS3
DBS4:   CALL BYTE
DBS5:   CALL SKIP
        CPI  ','
        RNZ
        INX  H
        JMP  DBS

; ---- parts of a statement; HL goes on in the line

; To what isn't blank: it is in A, and Z is set at the statement's end.
SKIP:   MOV  A,M
        INX  H
        CPI  ' '
        JZ   SKIP
        CPI  TAB
        JZ   SKIP
        DCX  H
        CPI  ';'
        RZ
        CPI  '!'
        RZ
        ORA  A
        RET

COMMA:  CALL SKIP
        CPI  ','
        INX  H
        RZ
SYNTAX: MVI  A,'S'
        JMP  FAULT
VALUE:  MVI  A,'V'
        JMP  FAULT

; Whether A is a letter or digit: C is set where it is neither.
ALNUM:  CPI  '0'
        RC
        CPI  '9'+1
        CMC
        RNC
LETTER: CPI  '?'
        RC
        CPI  'Z'+1
        CMC
        RET

; A name to NAME: its length, its characters, and spaces.
WORD:   PUSH B
        PUSH D
        LXI  D,NAME+1
        MVI  B,0
        MOV  A,M
        CALL LETTER
        JC   SYNTAX
WORD1:  CPI  '$'
        JZ   WORD2
        STAX D
        INX  D
        INR  B
WORD2:  INX  H
        MOV  A,M
        CPI  '$'
        JZ   WORD1
        CALL ALNUM
        JNC  WORD1
        MOV  A,B
        STA  NAME
        CPI  17
        JNC  SYNTAX
        MVI  B,5
        MVI  A,' '
WORD3:  STAX D
        INX  D
        DCR  B
        JNZ  WORD3
        POP  D
        POP  B
        RET

; The operation of NAME: its OPCODE and KIND. C is set where it is none.
FINDOP: PUSH H
        LDA  NAME
        CPI  6
        CMC
        JC   FINDO9
        LDA  NAME+1
        SUI  'A'
        CPI  26
        CMC
        JC   FINDO9
        ADD  A
        MOV  E,A
        MVI  D,0
        LXI  H,LISTS
        DAD  D
        MOV  E,M
        INX  H
        MOV  D,M
        XCHG
FINDO1: MOV  A,M
        ORA  A
        STC
        JZ   FINDO9
        LXI  D,NAME+1
        MVI  B,5
FINDO2: LDAX D
        CMP  M
        JNZ  FINDO3
        INX  H
        INX  D
        DCR  B
        JNZ  FINDO2
        MOV  A,M
        STA  OPCODE
        INX  H
        MOV  A,M
        STA  KIND
        ORA  A
        JMP  FINDO9
FINDO3: INX  H
        DCR  B
        JNZ  FINDO3
        INX  H
        INX  H
        JMP  FINDO1
FINDO9: POP  H
        RET

; A register's number in A, and that by 8. Keeps B.
REG:    CALL SKIP
        CALL WORD
        LDA  NAME
        DCR  A
        JNZ  SYNTAX
        LDA  NAME+1
        PUSH H
        LXI  H,REGS
        MVI  C,0
REG1:   CMP  M
        JZ   REG2
        INX  H
        INR  C
        MOV  D,A
        MOV  A,C
        CPI  8
        JZ   SYNTAX
        MOV  A,D
        JMP  REG1
REG2:   POP  H
        MOV  A,C
        RET
REG8:   CALL REG
        RLC
        RLC
        RLC
        RET
REGS:   DB   'BCDEHLMA'

; The number of a pair of registers, by 16, in A. Keeps B.
PAIR:   CALL SKIP
        CALL WORD
        LDA  NAME+1
        MVI  C,0
        CPI  'B'
        JZ   PAIR1
        MVI  C,10H
        CPI  'D'
        JZ   PAIR1
        MVI  C,20H
        CPI  'H'
        JZ   PAIR1
        MVI  C,30H
        CPI  'S'        ; SP
        JZ   PAIR1
        CPI  'P'        ; PSW
        JNZ  SYNTAX
PAIR1:  MOV  A,C
        RET

; ---- values, in DE

; One that is known now.
KNOWN:  XRA  A
        STA  UNDEF
        CALL EXPR
        LDA  UNDEF
        ORA  A
        RZ
        MVI  A,'U'
        JMP  FAULT

EXPR:   CALL SKIP
        CPI  '-'
        JZ   EXPR2
        CPI  '+'
        JNZ  EXPR1
        INX  H
EXPR1:  CALL TERM
        JMP  EXPR3
EXPR2:  INX  H
        CALL TERM
        XRA  A
        SUB  E
        MOV  E,A
        MVI  A,0
        SBB  D
        MOV  D,A
EXPR3:  CALL SKIP
        CPI  '+'
        JZ   EXPR4
        CPI  '-'
        RNZ
        INX  H
        PUSH D
        CALL TERM
        POP  B
        MOV  A,C
        SUB  E
        MOV  E,A
        MOV  A,B
        SBB  D
        MOV  D,A
        JMP  EXPR3
EXPR4:  INX  H
        PUSH D
        CALL TERM
        POP  B
        XCHG
        DAD  B
        XCHG
        JMP  EXPR3

TERM:   CALL FACTOR
TERM1:  CALL SKIP
        CPI  '*'
        JZ   TERM2
        CPI  '/'
        RNZ
        INX  H
        PUSH D
        CALL FACTOR
        POP  B
        PUSH H
        CALL DIVIDE
        JMP  TERM3
TERM2:  INX  H
        PUSH D
        CALL FACTOR
        POP  B
        PUSH H
        CALL TIMES
TERM3:  POP  H
        JMP  TERM1

; DE = BC * DE
TIMES:  LXI  H,0
        MVI  A,16
TIMES1: DAD  H
        XCHG
        DAD  H
        XCHG
        JNC  TIMES2
        DAD  B
TIMES2: DCR  A
        JNZ  TIMES1
        XCHG
        RET

; DE = BC / DE
DIVIDE: MOV  A,D
        ORA  E
        JNZ  DIVID1
        LDA  PASS
        ORA  A
        JNZ  VALUE
        RET
DIVID1: LXI  H,0        ; HL is the rest; the quotient comes into BC from below
        MVI  A,16
DIVID2: PUSH PSW
        MOV  A,C
        ADD  A
        MOV  C,A
        MOV  A,B
        RAL
        MOV  B,A
        MOV  A,L
        RAL
        MOV  L,A
        MOV  A,H
        RAL
        MOV  H,A
        JC   DIVID3
        MOV  A,L
        SUB  E
        MOV  A,H
        SBB  D
        JC   DIVID4
DIVID3: MOV  A,L
        SUB  E
        MOV  L,A
        MOV  A,H
        SBB  D
        MOV  H,A
        INR  C
DIVID4: POP  PSW
        DCR  A
        JNZ  DIVID2
        MOV  D,B
        MOV  E,C
        RET

FACTOR: CALL SKIP
        CPI  '('
        JZ   FACTO2
        CPI  '$'
        JZ   FACTO3
        CPI  QUOTE
        JZ   TEXT
        CPI  '9'+1
        JC   NUMBER
        CALL WORD
        PUSH H
        LXI  D,NAME
        CALL LOOKUP
        JC   FACTO1
        MOV  E,M
        INX  H
        MOV  D,M
        POP  H
        RET
FACTO1: POP  H
        LXI  D,0
        MVI  A,1
        STA  UNDEF
        LDA  PASS
        ORA  A
        RZ
        MVI  A,'U'
        JMP  FAULT
FACTO2: INX  H
        CALL EXPR
        CALL SKIP
        CPI  ')'
        JNZ  SYNTAX
        INX  H
        RET
FACTO3: INX  H
        XCHG
        LHLD HERE
        XCHG
        RET

; One or two characters in quotes.
TEXT:   INX  H
        CALL QCHAR
        JC   SYNTAX
        MOV  E,A
        MVI  D,0
        CALL QCHAR
        RC
        MOV  D,E
        MOV  E,A
        CALL QCHAR
        RC
        JMP  SYNTAX

; The next character in quotes. C is set at the last quote.
QCHAR:  MOV  A,M
        ORA  A
        JZ   SYNTAX
        INX  H
        CPI  QUOTE
        JNZ  QCHAR1
        CMP  M
        STC
        RNZ
        INX  H          ; two of them are one
QCHAR1: ORA  A
        RET

NUMBER: PUSH H
        MVI  B,0        ; its characters
NUMBE1: MOV  A,M
        CALL ALNUM
        JC   NUMBE2
        INX  H
        INR  B
        JMP  NUMBE1
NUMBE2: MOV  A,B
        ORA  A
        JZ   SYNTAX
        SHLD BEHIND
        DCX  H
        MOV  A,M
        MVI  C,16
        CPI  'H'
        JZ   NUMBE3
        MVI  C,2
        CPI  'B'
        JZ   NUMBE3
        MVI  C,8
        CPI  'O'
        JZ   NUMBE3
        CPI  'Q'
        JZ   NUMBE3
        MVI  C,10
        CPI  'D'
        JZ   NUMBE3
        INR  B          ; no letter behind it
NUMBE3: POP  H
        LXI  D,0
NUMBE4: DCR  B
        JZ   NUMBE7
        PUSH H
        PUSH B
        LXI  H,0        ; DE by the base
NUMBE5: DAD  D
        DCR  C
        JNZ  NUMBE5
        XCHG
        POP  B
        POP  H
        MOV  A,M
        INX  H
        SUI  '0'
        CPI  10
        JC   NUMBE6
        SUI  7
NUMBE6: CMP  C
        JNC  BADNUM
        ADD  E
        MOV  E,A
        JNC  NUMBE4
        INR  D
        JMP  NUMBE4
NUMBE7: LHLD BEHIND
        RET

; ---- names: for each hash a list of link, value, length, characters

; The place of the value of the name at DE, in HL. C is set where it has none.
LOOKUP: PUSH D
        LDAX D
        MOV  B,A
        XRA  A
LOOK1:  INX  D
        RLC
        MOV  C,A
        LDAX D
        ADD  C
        DCR  B
        JNZ  LOOK1
        ANI  HEADS-1
        ADD  A
        MOV  E,A
        MVI  D,0
        LXI  H,TABLE
        DAD  D
        SHLD CHAIN
        POP  D
LOOK2:  MOV  A,M
        INX  H
        MOV  H,M
        MOV  L,A
        ORA  H
        STC
        RZ
        PUSH H
        PUSH D
        INX  H
        INX  H
        INX  H
        INX  H
        LDAX D
        MOV  B,A
        INR  B
LOOK3:  LDAX D
        CMP  M
        JNZ  LOOK4
        INX  H
        INX  D
        DCR  B
        JNZ  LOOK3
        POP  D
        POP  H
        INX  H
        INX  H
        ORA  A
        RET
LOOK4:  POP  D
        POP  H
        JMP  LOOK2

; LABEL, if there is one, means PC. A is KIND then.
DEFPC:  LDA  LABEL
        ORA  A
        JZ   DEFPC1
        PUSH H
        LHLD PC
        XCHG
        POP  H
        CALL DEFINE
DEFPC1: LDA  KIND
        RET

; LABEL means DE. Keeps HL.
DEFINE: PUSH H
        PUSH D
        LXI  D,LABEL
        LDAX D
        ORA  A
        JZ   SYNTAX
        CALL LOOKUP
        POP  D
        JC   DEFIN1
        LDA  PASS
        ORA  A
        MVI  A,'D'
        JZ   FAULT
        MOV  A,M
        CMP  E
        JNZ  PHASE
        INX  H
        MOV  A,M
        CMP  D
        JNZ  PHASE
        POP  H
        RET
DEFIN1: LDA  PASS
        ORA  A
        JNZ  PHASE
        LHLD FREE
        LDA  TOP+1
        SUI  2
        CMP  H
        MVI  A,'M'
        JC   FAULT
        PUSH D          ; the value
        XCHG
        LHLD CHAIN
        MOV  C,M
        MOV  M,E
        INX  H
        MOV  B,M
        MOV  M,D
        XCHG
        POP  D
        MOV  M,C
        INX  H
        MOV  M,B
        INX  H
        MOV  M,E
        INX  H
        MOV  M,D
        INX  H
        LXI  D,LABEL
        LDAX D
        MOV  B,A
        INR  B
DEFIN2: LDAX D
        MOV  M,A
        INX  H
        INX  D
        DCR  B
        JNZ  DEFIN2
        SHLD FREE
        POP  H
        RET
PHASE:  MVI  A,'P'
        JMP  FAULT

; ---- the program

; A goes to the program, in the second pass. Keeps all.
EMIT:   PUSH H
        LHLD PC
        INX  H
        SHLD PC
        POP  H
        PUSH PSW
        LDA  PASS
        ORA  A
        JNZ  EMIT1
        POP  PSW
        RET
EMIT1:  POP  PSW
PUT:    PUSH H
        LHLD OUTPOS
        MOV  M,A
        INX  H
        SHLD OUTPOS
        LXI  H,OUTLFT
        DCR  M
        POP  H
        RNZ
        PUSH H
        PUSH D
        PUSH B
        LXI  D,OUTBUF
        MVI  C,SETDMA
        CALL BDOS
        LXI  D,OBJECT
        MVI  C,WRITE
        CALL BDOS
        ORA  A
        JNZ  FULL
        LXI  D,INBUF
        MVI  C,SETDMA
        CALL BDOS
        LXI  H,OUTBUF
        SHLD OUTPOS
        MVI  A,128
        STA  OUTLFT
        POP  B
        POP  D
        POP  H
        RET

; ---- what is said

BADNUM: MVI  A,'N'
FAULT:  STA  LETTR
        LDA  PASS
        ORA  A
        LXI  D,OBJECT
        MVI  C,ERASE
        CNZ  BDOS
        LXI  D,SAYFLT
        CALL SAY
        LHLD LINES
        CALL DECIML
        JMP  0
FULL:   LXI  D,NOROOM
QUIT:   CALL SAY
        JMP  0
SAY:    MVI  C,PRINT
        JMP  BDOS

; Shows HL as a decimal number: first what stands before its last digit, by a call of itself.
DECIML: LXI  B,-10
        LXI  D,-1
TENTH:  INX  D
        DAD  B
        JC   TENTH
        LXI  B,10
        DAD  B
        XCHG
        PUSH D
        MOV  A,H
        ORA  L
        CNZ  DECIML
        POP  D
        MVI  A,'0'
        ADD  E
        MOV  E,A
        MVI  C,PUTCHR
        JMP  BDOS

NOFILE: DB   CR,LF,'No such source$'
NOROOM: DB   CR,LF,'The disk is full$'
SAYFLT: DB   CR,LF
LETTR:  DB   '? in line $'
NEWLIN: DB   CR,LF,'$'
SAYLIN: DB   ' lines, $'
SAYBYT: DB   ' bytes$'

; For each letter where its list is.
LISTS:  DW   OFA,NOLIST,OFC,OFD,OFE,NOLIST,NOLIST,OFH,OFI
        DW   OFJ,NOLIST,OFL,OFM,OFN,OFO,OFP,NOLIST,OFR
        DW   OFS,NOLIST,NOLIST,NOLIST,NOLIST,OFX,NOLIST,NOLIST

; Each operation: five characters, its code, its kind.
OFA:    DB   'ACI  ',0CEH,5
        DB   'ADC  ',088H,1
        DB   'ADD  ',080H,1
        DB   'ADI  ',0C6H,5
        DB   'ANA  ',0A0H,1
        DB   'ANI  ',0E6H,5
        DB   0
OFC:    DB   'CALL ',0CDH,6
        DB   'CC   ',0DCH,6
        DB   'CM   ',0FCH,6
        DB   'CMA  ',02FH,0
        DB   'CMC  ',03FH,0
        DB   'CMP  ',0B8H,1
        DB   'CNC  ',0D4H,6
        DB   'CNZ  ',0C4H,6
        DB   'CP   ',0F4H,6
        DB   'CPE  ',0ECH,6
        DB   'CPI  ',0FEH,5
        DB   'CPO  ',0E4H,6
        DB   'CZ   ',0CCH,6
        DB   0
OFD:    DB   'DAA  ',027H,0
        DB   'DAD  ',009H,7
        DB   'DB   ',000H,11
        DB   'DCR  ',005H,2
        DB   'DCX  ',00BH,7
        DB   'DI   ',0F3H,0
        DB   'DS   ',000H,13
        DB   'DW   ',000H,12
        DB   0
OFE:    DB   'EI   ',0FBH,0
        DB   'END  ',000H,14
        DB   'EQU  ',000H,15
        DB   0
OFH:    DB   'HLT  ',076H,0
        DB   0
OFI:    DB   'IN   ',0DBH,5
        DB   'INR  ',004H,2
        DB   'INX  ',003H,7
        DB   0
OFJ:    DB   'JC   ',0DAH,6
        DB   'JM   ',0FAH,6
        DB   'JMP  ',0C3H,6
        DB   'JNC  ',0D2H,6
        DB   'JNZ  ',0C2H,6
        DB   'JP   ',0F2H,6
        DB   'JPE  ',0EAH,6
        DB   'JPO  ',0E2H,6
        DB   'JZ   ',0CAH,6
        DB   0
OFL:    DB   'LDA  ',03AH,6
        DB   'LDAX ',00AH,7
        DB   'LHLD ',02AH,6
        DB   'LXI  ',001H,8
        DB   0
OFM:    DB   'MOV  ',040H,3
        DB   'MVI  ',006H,4
        DB   0
OFN:    DB   'NOP  ',000H,0
        DB   0
OFO:    DB   'ORA  ',0B0H,1
        DB   'ORG  ',000H,10
        DB   'ORI  ',0F6H,5
        DB   'OUT  ',0D3H,5
        DB   0
OFP:    DB   'PCHL ',0E9H,0
        DB   'POP  ',0C1H,7
        DB   'PUSH ',0C5H,7
        DB   0
OFR:    DB   'RAL  ',017H,0
        DB   'RAR  ',01FH,0
        DB   'RC   ',0D8H,0
        DB   'RET  ',0C9H,0
        DB   'RLC  ',007H,0
        DB   'RM   ',0F8H,0
        DB   'RNC  ',0D0H,0
        DB   'RNZ  ',0C0H,0
        DB   'RP   ',0F0H,0
        DB   'RPE  ',0E8H,0
        DB   'RPO  ',0E0H,0
        DB   'RRC  ',00FH,0
        DB   'RST  ',0C7H,9
        DB   'RZ   ',0C8H,0
        DB   0
OFS:    DB   'SBB  ',098H,1
        DB   'SBI  ',0DEH,5
        DB   'SHLD ',022H,6
        DB   'SPHL ',0F9H,0
        DB   'STA  ',032H,6
        DB   'STAX ',002H,7
        DB   'STC  ',037H,0
        DB   'SUB  ',090H,1
        DB   'SUI  ',0D6H,5
        DB   0
OFX:    DB   'XCHG ',0EBH,0
        DB   'XRA  ',0A8H,1
        DB   'XRI  ',0EEH,5
        DB   'XTHL ',0E3H,0
NOLIST: DB   0

PASS:   DB   0          ; 0 or 1
OUTLFT: DB   128        ; the room in OUTBUF
OUTPOS: DW   OUTBUF
FREE:   DW   ENTRIES    ; where the next name goes
SOURCE: DB   0,'        ASM',0,0,0,0
        DS   20
OBJECT: DB   0,'        COM',0,0,0,0
        DS   20
TABLE:  DS   2*HEADS
OUTBUF: DS   128
POS:    DS   2          ; the next character of the source
PC:     DS   2
HERE:   DS   2          ; PC as the statement began
LINES:  DS   2
BEHIND: DS   2
CHAIN:  DS   2
ENDED:  DS   1
UNDEF:  DS   1
OPCODE: DS   1
KIND:   DS   1
LABEL:  DS   17         ; length and characters
NAME:   DS   140
LINE:   DS   128
ENTRIES EQU  $
        END
