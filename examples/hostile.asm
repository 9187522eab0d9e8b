; HOSTILE does what no program should: it erases every file of its drive, and then writes over all memory that it comes
; to, the system's entry at 0005h included.
;
;   A>HOSTILE
;
; examples/lab.toml runs it beside two sessions that do their work. They don't notice: it has only its own drive and its
; own memory, and it ends where it has written as many pages as its quota allows.

BDOS    EQU  5
PRINT   EQU  9          ; show the text at DE, up to the $
ERASE   EQU  19         ; erase all files that the file control block at DE names

        ORG  100H
        LXI  D,HELLO
        MVI  C,PRINT
        CALL BDOS
        LXI  D,ALL
        MVI  C,ERASE
        CALL BDOS
        LXI  D,GONE
        MVI  C,PRINT
        CALL BDOS

        LXI  H,0        ; page 0 first, with the jumps to the system
FILL0:  MVI  M,0FFH
        INR  L
        JNZ  FILL0
        LXI  H,LAST     ; and then everything above this program
FILL:   MVI  M,0FFH
        INX  H
        JMP  FILL

HELLO:  DB   13,10,'Now I erase your files.$'
GONE:   DB   13,10,'And now your memory$'
ALL:    DB   0,'???????????'
        DS   21
LAST    EQU  $
        END
