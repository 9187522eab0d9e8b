; PRIMES shows the prime numbers below 256, nine in a row.
;
;   A>PRIMES
;
; It shows the sieve of Eratosthenes over a table of bytes, and that a tab is shown as blanks up to the next column that
; 8 divides. It reads nothing, so it is a good program to follow step by step.

BDOS    EQU  5
PUTCHR  EQU  2          ; show the character in E
TAB     EQU  9
SIEVE   EQU  1000H      ; a byte for each number; the low byte of its address is the number

        ORG  100H
        LXI  H,SIEVE    ; at first each number may be a prime: 0
CLEAR:  MVI  M,0
        INR  L
        JNZ  CLEAR

        MVI  L,2        ; 0 and 1 are none, and aren't looked at
NEXT:   MOV  A,M
        ORA  A
        CZ   PRIME
        INR  L
        JNZ  NEXT
        RET             ; behind 255: back to the command processor

; Shows the prime in L, and strikes out what it divides.
PRIME:  PUSH H
        CALL SHOW
        POP  H
        PUSH H
        MOV  E,L
STRIKE: MOV  A,L
        ADD  E
        JC   STRUCK     ; past 255
        MOV  L,A
        MVI  M,1        ; not a prime
        JMP  STRIKE
STRUCK: POP  H
        RET

; Shows the number in L, behind a new line or a tab.
SHOW:   LDA  INROW
        DCR  A
        STA  INROW
        MVI  A,TAB
        JNZ  SHOW1      ; the flags are still those of DCR
        MVI  A,9
        STA  INROW
        MVI  A,13
        CALL PUT
        MVI  A,10
SHOW1:  CALL PUT
        MOV  A,L
        MVI  B,100
        MVI  D,0        ; no digit was shown yet
        CALL DIGIT
        MVI  B,10
        CALL DIGIT
        MVI  B,1
; Shows how often B goes into A, but no 0 in front, and leaves what remains in A.
DIGIT:  MVI  C,'0'-1
DIGIT1: INR  C
        SUB  B
        JNC  DIGIT1
        ADD  B
        MOV  E,A
        MOV  A,C
        CPI  '0'
        JNZ  DIGIT2
        MOV  A,D        ; a 0: shown only behind another digit
        ORA  A
        MOV  A,E
        RZ
        MOV  A,C
DIGIT2: MVI  D,1
        CALL PUT
        MOV  A,E
        RET

; Shows the character in A, and keeps BC, DE and HL.
PUT:    PUSH B
        PUSH D
        PUSH H
        MOV  E,A
        MVI  C,PUTCHR
        CALL BDOS
        POP  H
        POP  D
        POP  B
        RET

INROW:  DB   1          ; a new row begins where this is counted down to 0
        END
