; COPY copies a file.
;
;   A>COPY POEM.TXT VERSE.TXT
;
; It shows how a file is made and written: function 19 erases what had the new name, 22 makes the file, each call of
; function 21 writes a record, and 16 closes the file. Without the close the directory would not know the records.

BDOS    EQU  5
PUTCHR  EQU  2          ; show the character in E
PRINT   EQU  9          ; show the text at DE, up to the $
OPEN    EQU  15         ; each of these takes a file control block at DE
CLOSE   EQU  16
ERASE   EQU  19
READ    EQU  20         ; the next record to 0080h: A isn't 0 at the end
WRITE   EQU  21         ; the record at 0080h: A isn't 0 where the disk is full
MAKE    EQU  22         ; A is FFh where the directory is full
FROM    EQU  5CH        ; the file control block with the first name of the command line
SECOND  EQU  6CH        ; the second name: it lies in the first file's block, so it has to be moved before the open

        ORG  100H
        LXI  H,SECOND
        LXI  D,INTO
        MVI  C,12       ; the drive, 8 characters of the name, 3 of the type
MOVE:   MOV  A,M
        STAX D
        INX  H
        INX  D
        DCR  C
        JNZ  MOVE

        LXI  D,HELP     ; what is said at the end, if nothing else is
        LDA  INTO+1
        CPI  ' '
        JZ   SAY        ; no second name
        LXI  D,SAME
        CALL EQUAL      ; a file copied onto itself would be erased first
        JZ   SAY

        LXI  D,FROM
        MVI  C,OPEN
        CALL BDOS
        INR  A
        LXI  D,NONE
        JZ   SAY
        LXI  D,INTO
        MVI  C,ERASE    ; FFh, no such file, is fine
        CALL BDOS
        LXI  D,INTO
        MVI  C,MAKE
        CALL BDOS
        INR  A
        LXI  D,FULL
        JZ   SAY
        XRA  A
        STA  FROM+32    ; both begin with record 0
        STA  INTO+32

NEXT:   LXI  D,FROM
        MVI  C,READ
        CALL BDOS
        ORA  A
        JNZ  DONE
        LXI  D,INTO
        MVI  C,WRITE
        CALL BDOS
        ORA  A
        LXI  D,FULL
        JNZ  SAY
        LXI  H,COUNT
        INR  M
        JNZ  NEXT
        INX  H          ; the low byte came round to 0
        INR  M
        JMP  NEXT

DONE:   LXI  D,INTO
        MVI  C,CLOSE
        CALL BDOS
        LXI  D,COPIED
        CALL SAY
        LHLD COUNT
        JMP  NUMBER

; Shows the text at DE.
SAY:    MVI  C,PRINT
        JMP  BDOS

; Whether both names are the same: Z is set where they are. Keeps DE.
EQUAL:  PUSH D
        LXI  H,FROM
        LXI  D,INTO
        MVI  C,12
EQUAL1: LDAX D
        CMP  M
        JNZ  EQUAL2
        INX  H
        INX  D
        DCR  C
        JNZ  EQUAL1
EQUAL2: POP  D
        RET

; Shows HL as a decimal number: first what stands before its last digit, by a call of itself.
NUMBER: LXI  B,-10
        LXI  D,-1
TENTH:  INX  D          ; DE counts how often 10 goes into HL
        DAD  B
        JC   TENTH
        LXI  B,10
        DAD  B          ; HL is the last digit
        XCHG            ; now E is, and HL the number before it
        PUSH D
        MOV  A,H
        ORA  L
        CNZ  NUMBER
        POP  D
        MVI  A,'0'
        ADD  E
        MOV  E,A
        MVI  C,PUTCHR
        JMP  BDOS

HELP:   DB   13,10,'COPY FROM.TYP TO.TYP$'
SAME:   DB   13,10,'Both names are the same$'
NONE:   DB   13,10,'There is no such file$'
FULL:   DB   13,10,'The disk is full$'
COPIED: DB   13,10,'Records copied: $'
COUNT:  DW   0          ; the records that were copied
INTO:   DS   33         ; the file control block of the copy
        END
