; BULK writes a file of 3,000 records, which is 375 KB, and reads it back from its last record to its first.
;
;   A>BULK DATA.BIN
;
; It shows that a program needn't know what disk it has: the file has a large disk's blocks or a small one's, and the calls are
; the same. One that wants to know asks function 31, which gives the address of the drive's parameter block, as STAT does.
; Random reads go to any record by its number, 0 to 65535, which stands in bytes 33 and 34 of the file control block.

BDOS    EQU  5
PUTCHR  EQU  2          ; show the character in E
PRINT   EQU  9          ; show the text at DE, up to the $
SELECT  EQU  14         ; the drive in E, 0 for A, is the one that is meant where none is named
CLOSE   EQU  16
ERASE   EQU  19
WRITE   EQU  21         ; the record at 0080h: A isn't 0 where the disk is full
MAKE    EQU  22         ; A is FFh where the directory is full
DRIVE   EQU  25         ; the drive that is selected, in A
PARAMS  EQU  31         ; the address of its parameter block, in HL
RANDOM  EQU  33         ; the record of that number to 0080h: A isn't 0 where there is none
FCB     EQU  5CH        ; the file control block with the name of the command line
NUMBER  EQU  FCB+33     ; the number of the record that RANDOM reads
RECORD  EQU  80H
MOST    EQU  3000

        ORG  100H
        LDA  FCB+1
        LXI  D,HELP
        CPI  ' '
        JZ   TEXT
        MVI  C,DRIVE
        CALL BDOS
        PUSH PSW
        LDA  FCB
        DCR  A          ; FFh where no drive is named
        CP   CHOOSE
        CALL TELL
        POP  PSW
        CALL CHOOSE     ; the drive that was selected before

        LXI  D,FCB
        MVI  C,ERASE    ; FFh, no such file, is fine
        CALL BDOS
        LXI  D,FCB
        MVI  C,MAKE
        CALL BDOS
        INR  A
        LXI  D,NOROOM
        JZ   TEXT
        XRA  A
        STA  FCB+32     ; from record 0 on

; Each record begins with its number.
NEXT:   LHLD COUNT
        SHLD RECORD
        LXI  D,-MOST
        DAD  D          ; the carry is set where it is MOST
        JC   WHOLE
        LXI  D,FCB
        MVI  C,WRITE
        CALL BDOS
        ORA  A
        LXI  D,NOROOM
        JNZ  PART
        LHLD COUNT
        INX  H
        SHLD COUNT
        JMP  NEXT

PART:   CALL TEXT
WHOLE:  LXI  D,FCB
        MVI  C,CLOSE
        CALL BDOS
        LXI  D,WROTE
        LHLD COUNT
        CALL SAY

; Reads what was written, the last record first, as long as each has its number.
BACK:   LHLD COUNT
        MOV  A,H
        ORA  L
        JZ   DONE
        DCX  H
        SHLD COUNT
        SHLD NUMBER
        XRA  A
        STA  NUMBER+2
        LXI  H,-1       ; which is no record's number here
        SHLD RECORD
        LXI  D,FCB
        MVI  C,RANDOM
        CALL BDOS
        ORA  A
        JNZ  DONE
        LHLD COUNT
        LDA  RECORD
        CMP  L
        JNZ  DONE
        LDA  RECORD+1
        CMP  H
        JNZ  DONE
        LHLD RIGHT
        INX  H
        SHLD RIGHT
        JMP  BACK

DONE:   LXI  D,READ
        LHLD RIGHT
        JMP  SAY

; Selects the drive in A.
CHOOSE: MOV  E,A
        MVI  C,SELECT
        JMP  BDOS

; Shows how many blocks the selected drive has, and how many records a block.
TELL:   MVI  C,PARAMS
        CALL BDOS
        INX  H
        INX  H
        INX  H
        MOV  A,M        ; BLM, a block's records less one
        PUSH PSW
        INX  H
        INX  H
        MOV  E,M        ; DSM, the number of the last block
        INX  H
        MOV  D,M
        XCHG
        INX  H
        LXI  D,BLOCKS
        CALL SAY
        POP  PSW
        INR  A
        MOV  L,A
        MVI  H,0
        LXI  D,EACH

; Shows the text at DE and then the number in HL.
SAY:    PUSH H
        CALL TEXT
        POP  H
; Shows HL as a decimal number: first what stands before its last digit, by a call of itself.
DIGITS: LXI  B,-10
        LXI  D,-1
TENTH:  INX  D          ; DE counts how often 10 goes into HL
        DAD  B
        JC   TENTH
        LXI  B,10
        DAD  B          ; HL is the last digit
        XCHG            ; now E is, and HL the number before it
        PUSH D
        MOV  A,H
        ORA  L
        CNZ  DIGITS
        POP  D
        MVI  A,'0'
        ADD  E
        MOV  E,A
        MVI  C,PUTCHR
        JMP  BDOS

; Shows the text at DE.
TEXT:   MVI  C,PRINT
        JMP  BDOS

HELP:   DB   13,10,'BULK NAME.TYP$'
NOROOM: DB   13,10,'The disk is full$'
BLOCKS: DB   13,10,'Blocks of the disk: $'
EACH:   DB   ', each of so many records: $'
WROTE:  DB   13,10,'Records written: $'
READ:   DB   13,10,'Records read back: $'
COUNT:  DW   0          ; the records that were written, and then those that are still to read
RIGHT:  DW   0          ; the records that were read and have their number
        END
