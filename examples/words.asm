; WORDS counts the lines, the words and the characters of a text.
;
;   A>WORDS POEM.TXT
;
; It shows how a text ends in CP/M: a file has whole records, so the byte 1Ah (^Z) stands behind its last character,
; and what follows it in the record means nothing. Lines end by the two characters 0Dh and 0Ah.

BDOS    EQU  5
PUTCHR  EQU  2          ; show the character in E
PRINT   EQU  9          ; show the text at DE, up to the $
OPEN    EQU  15
READ    EQU  20
FCB     EQU  5CH        ; the file control block with the name of the command line
RECORD  EQU  80H        ; where a record is read to
ENDTXT  EQU  1AH        ; the end of a text

        ORG  100H
        LXI  D,FCB
        MVI  C,OPEN
        CALL BDOS
        INR  A
        JZ   NOFILE
        XRA  A
        STA  FCB+32     ; from the first record on

NEXT:   LXI  D,FCB
        MVI  C,READ
        CALL BDOS
        ORA  A
        JNZ  TELL       ; a text may also end with its last record
        LXI  H,RECORD
CHAR:   MOV  A,M
        CPI  ENDTXT
        JZ   TELL
        CALL COUNT
        INR  L
        JNZ  CHAR       ; behind 00FFh the record is over
        JMP  NEXT

TELL:   LXI  D,NEWLIN
        LHLD LINES
        CALL SAY
        LXI  D,LINTXT
        LHLD WORDS
        CALL SAY
        LXI  D,WRDTXT
        LHLD CHARS
        CALL SAY
        LXI  D,CHRTXT
        JMP  TEXT
NOFILE: LXI  D,NONE
TEXT:   MVI  C,PRINT
        JMP  BDOS

; Counts the character in A: a line ends with 0Ah, and a word begins with what isn't blank behind what is. Keeps HL.
COUNT:  PUSH H
        LHLD CHARS
        INX  H
        SHLD CHARS
        CPI  10
        JNZ  COUNT1
        LHLD LINES
        INX  H
        SHLD LINES
COUNT1: CPI  ' '+1      ; blanks and control characters set the carry
        LDA  INWORD
        JC   BLANK
        ORA  A
        JNZ  COUNT2     ; it is in the middle of a word
        LHLD WORDS
        INX  H
        SHLD WORDS
        MVI  A,1
        JMP  COUNT2
BLANK:  XRA  A
COUNT2: STA  INWORD
        POP  H
        RET

; Shows the text at DE and then the number in HL.
SAY:    PUSH H
        CALL TEXT
        POP  H
; Shows HL as a decimal number: first what stands before its last digit, by a call of itself.
NUMBER: LXI  B,-10
        LXI  D,-1
TENTH:  INX  D          ; DE counts how often 10 goes into HL
        DAD  B
        JC   TENTH
        LXI  B,10
        DAD  B          ; HL is the last digit
        XCHG            ; now E is, and HL the number before it
        PUSH D
        MOV  A,H
        ORA  L
        CNZ  NUMBER
        POP  D
        MVI  A,'0'
        ADD  E
        MOV  E,A
        MVI  C,PUTCHR
        JMP  BDOS

NEWLIN: DB   13,10,'$'
LINTXT: DB   ' lines, $'
WRDTXT: DB   ' words, $'
CHRTXT: DB   ' characters$'
NONE:   DB   13,10,'WORDS NAME.TYP: there is no such file$'
LINES:  DW   0
WORDS:  DW   0
CHARS:  DW   0
INWORD: DB   0          ; 1 within a word
        END
