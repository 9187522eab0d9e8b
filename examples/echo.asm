; ECHO reads lines and shows each of them again, until an empty one comes.
;
;   A>ECHO
;
; It shows how a program asks for a line: function 10 of the BDOS takes keys, with all the editing that the command
; line has (^H takes a character back, ^U gives the line up), and stores what was typed when return is pressed.

BDOS    EQU  5          ; call it with the function in C and its parameter in DE (or E)
PUTCHR  EQU  2          ; function 2: show the character in E
PRINT   EQU  9          ; function 9: show the text at DE, up to the $
GETLIN  EQU  10         ; function 10: read a line into the buffer at DE

        ORG  100H
NEXT:   LXI  D,ASK
        MVI  C,PRINT
        CALL BDOS
        LXI  D,BUFFER
        MVI  C,GETLIN
        CALL BDOS
        LDA  BUFFER+1   ; how many characters were typed
        ORA  A
        RZ              ; none: back to the command processor

        LXI  D,ANSWER
        MVI  C,PRINT
        CALL BDOS
        LDA  BUFFER+1
        MOV  B,A        ; B counts the characters that are left
        LXI  H,BUFFER+2 ; HL is where the next one stands
SHOW:   PUSH B          ; a call may change every register
        PUSH H
        MOV  E,M
        MVI  C,PUTCHR
        CALL BDOS
        POP  H
        POP  B
        INX  H
        DCR  B
        JNZ  SHOW
        JMP  NEXT

; Each text begins with a new line: what a program shows first stands in the line of the command otherwise.
ASK:    DB   13,10,'Line: $'
ANSWER: DB   13,10,'You typed: $'

; The buffer of function 10: room for 60 characters, how many were typed, and then these.
BUFFER: DB   60,0
        DS   60
        END
