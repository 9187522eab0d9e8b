; Writes a byte of each of 100 pages, from 2000h on, and ends.
PAGES   EQU  100
FIRST   EQU  2000H

        ORG  100H
        LXI  H,FIRST
        MVI  B,PAGES
NEXT:   MOV  M,B
        INR  H
        DCR  B
        JNZ  NEXT
        JMP  0
        END
