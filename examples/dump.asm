; DUMP shows the bytes of a file, sixteen in a row, in hexadecimal and as characters.
;
;   A>DUMP HELLO.COM
;
; It shows how a file is read: the command processor has put the name of the command line into a file control block
; at 005Ch; function 15 opens the file, and each call of function 20 reads the next record of 128 bytes to 0080h.

BDOS    EQU  5
PUTCHR  EQU  2          ; show the character in E
PRINT   EQU  9          ; show the text at DE, up to the $
OPEN    EQU  15         ; open the file of the file control block at DE: A is FFh where there is none
READ    EQU  20         ; read its next record: A isn't 0 at the end
FCB     EQU  5CH        ; the file control block with the first name of the command line
FCBCR   EQU  FCB+32     ; the number of the record that is read next
RECORD  EQU  80H        ; where a record is read to

        ORG  100H
        LXI  D,FCB
        MVI  C,OPEN
        CALL BDOS
        INR  A          ; FFh becomes 0
        JZ   NOFILE
        XRA  A
        STA  FCBCR      ; from the first record on

NEXT:   LXI  D,FCB
        MVI  C,READ
        CALL BDOS
        ORA  A
        RNZ             ; the end of the file: back to the command processor
        LXI  H,RECORD   ; HL is the next byte
        MVI  B,8        ; B counts the rows of the record
ROW:    CALL NEWLIN
        CALL PLACE
        CALL BYTES
        CALL CHARS
        DCR  B
        JNZ  ROW
        JMP  NEXT

NOFILE: LXI  D,NONE
        MVI  C,PRINT
        JMP  BDOS       ; the RET of the BDOS is then ours

; Shows where in the file the row begins, and goes on to the next row.
PLACE:  PUSH H
        LHLD OFFSET
        MOV  A,H
        CALL HEX
        MOV  A,L
        CALL HEX
        LXI  D,16
        DAD  D
        SHLD OFFSET
        POP  H
        JMP  SPACE

; Shows the sixteen bytes at HL.
BYTES:  PUSH H
        MVI  C,16
BYTE1:  CALL SPACE
        MOV  A,M
        CALL HEX
        INX  H
        DCR  C
        JNZ  BYTE1
        POP  H
        CALL SPACE
        JMP  SPACE

; Shows the sixteen bytes at HL as characters, a dot for one that isn't any, and leaves HL behind them.
CHARS:  MVI  C,16
CHAR1:  MOV  A,M
        CPI  ' '
        JC   DOT
        CPI  7FH
        JC   CHAR2
DOT:    MVI  A,'.'
CHAR2:  CALL PUT
        INX  H
        DCR  C
        JNZ  CHAR1
        RET

; Shows the byte in A as two hexadecimal digits.
HEX:    PUSH PSW
        RRC
        RRC
        RRC
        RRC
        CALL DIGIT      ; the high four bits
        POP  PSW
DIGIT:  ANI  0FH
        ADI  '0'
        CPI  '9'+1
        JC   PUT
        ADI  'A'-'9'-1
        JMP  PUT

NEWLIN: MVI  A,13
        CALL PUT
        MVI  A,10
        JMP  PUT

SPACE:  MVI  A,' '
; Shows the character in A, and keeps BC, DE and HL.
PUT:    PUSH B
        PUSH D
        PUSH H
        MOV  E,A
        MVI  C,PUTCHR
        CALL BDOS
        POP  H
        POP  D
        POP  B
        RET

NONE:   DB   13,10,'DUMP NAME.TYP: there is no such file$'
OFFSET: DW   0          ; the place of the next row in the file
        END
