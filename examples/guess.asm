; GUESS thinks of a number from 1 to 100, and says whether each guess is too low or too high.
;
;   A>GUESS
;
; It shows a dialogue, and how a number is read from a line. The number comes from the letters of the player's name: a
; session has no clock and no chance, so that each run of it is the same.

BDOS    EQU  5
PUTCHR  EQU  2          ; show the character in E
PRINT   EQU  9          ; show the text at DE, up to the $
GETLIN  EQU  10         ; read a line into the buffer at DE

        ORG  100H
        LXI  D,WHO
        CALL ASK
        LXI  H,LINE     ; the sum of the letters, modulo 100
        XRA  A
ADDUP:  CALL MOD100
        MOV  E,A
        MOV  A,M
        CPI  13         ; the mark behind the line
        JZ   CHOSEN
        CALL MOD100
        ADD  E
        INX  H
        JMP  ADDUP
CHOSEN: MOV  A,E
        INR  A
        STA  SECRET

        LXI  D,THINK
TURN:   CALL ASK
        CALL VALUE
        LXI  D,WHAT
        JC   TURN
        MOV  B,A
        LXI  H,TRIES
        INR  M
        LDA  SECRET
        CMP  B
        LXI  D,HIGH
        JC   TURN       ; the secret is below the guess
        LXI  D,LOW
        JNZ  TURN
        LXI  D,RIGHT
        CALL SAY
        LDA  TRIES
        CALL NUMBER
        LXI  D,TAKEN
SAY:    MVI  C,PRINT
        JMP  BDOS

; Shows the text at DE and reads a line, with a mark behind it.
ASK:    CALL SAY
        LXI  D,BUFFER
        MVI  C,GETLIN
        CALL BDOS
        LXI  H,LINE
        LDA  BUFFER+1
        MOV  E,A
        MVI  D,0
        DAD  D
        MVI  M,13
        RET

; The number that stands in the line, in A. The carry is set where none from 0 to 199 does.
VALUE:  LXI  H,LINE
        MOV  A,M
        CPI  13
        STC
        RZ              ; an empty line
        MVI  B,0        ; the number so far
VALUE1: MOV  A,M
        CPI  13
        MOV  A,B
        RZ              ; an equal comparison left the carry at 0
        MOV  A,M
        SUI  '0'
        RC
        CPI  10
        CMC
        RC              ; no digit
        MOV  C,A
        MOV  A,B
        CPI  20
        CMC
        RC              ; it would be 200 or more
        ADD  A          ; ten times the number: twice, and once more four times that
        MOV  B,A
        ADD  A
        ADD  A
        ADD  B
        ADD  C
        MOV  B,A
        INX  H
        JMP  VALUE1

; A modulo 100.
MOD100: SUI  100
        JNC  MOD100
        ADI  100
        RET

; Shows the number in A, which is below 100.
NUMBER: MVI  E,'0'-1
TENS:   INR  E
        SUI  10
        JNC  TENS
        ADI  '0'+10
        PUSH PSW
        MOV  A,E
        CPI  '0'
        MVI  C,PUTCHR
        CNZ  BDOS       ; no 0 in front
        POP  PSW
        MOV  E,A
        MVI  C,PUTCHR
        JMP  BDOS

WHO:    DB   13,10,'What is your name? $'
THINK:  DB   13,10,'I think of a number from 1 to 100.'
        DB   13,10,'Your guess: $'
LOW:    DB   13,10,'Too low. Your guess: $'
HIGH:   DB   13,10,'Too high. Your guess: $'
WHAT:   DB   13,10,'A number, please: $'
RIGHT:  DB   13,10,'Right! You took $'
TAKEN:  DB   ' guesses.$'
SECRET: DB   0
TRIES:  DB   0
BUFFER: DB   20,0
LINE:   DS   21         ; one more than the buffer takes, for the mark
        END
