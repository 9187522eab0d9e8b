; EDIT changes a text on the screen of an ADM-3A, which has 24 lines of 80 characters.
;
;   A>EDIT LETTER.TXT
;
; It opens the file, or begins a new one. What is typed goes in before the cursor. The cursor moves by the ADM-3A's arrows,
; which are ^H ^J ^K ^L, or by the diamond that WordStar has:
;
;   ^S ^D ^E ^X   left, right, up, down        ^G     deletes the character under the cursor
;   ^R ^C         a screen up, a screen down   DEL    deletes the one before it
;   ^Q^S ^Q^D     to the ends of the line      ^Y     deletes the line
;   ^Q^R ^Q^C     to the ends of the text      TAB    spaces up to the next eighth column
;
;   ESC S saves, ESC X saves and leaves, ESC Q leaves.
;
; It shows how an editor keeps a text: what stands before the cursor lies from TEXT on, and what stands behind it ends
; where memory does. The gap between them is at the cursor. So a character goes in or out by one move of a pointer, and
; the cursor moves by carrying characters across the gap. Of the screen only what changed is drawn anew. And a file is
; saved under another name first: on a full disk the old one is still there.

BOOT    EQU  0          ; a jump here ends a program
WARM    EQU  1          ; the word here is the address of a table of jumps, the BIOS
CONIN   EQU  6          ; in it: read a key, which it waits for, to A
CONOUT  EQU  9          ; show the character in C, as it is
BDOS    EQU  5
FCB     EQU  5CH        ; the file control block of the name behind the command
RECORD  EQU  80H        ; where records are read to and written from
PRINT   EQU  9          ; show the text at DE, up to the $
OPEN    EQU  15         ; these take a file control block at DE
CLOSE   EQU  16
ERASE   EQU  19
READ    EQU  20         ; the next record
WRITE   EQU  21
MAKE    EQU  22
RENAME  EQU  23

BEL     EQU  7
LF      EQU  10
CR      EQU  13
CLEAR   EQU  26         ; clears the screen of an ADM-3A
EOF     EQU  26         ; ends a text within its last record
ESC     EQU  27
ROWS    EQU  23         ; lines of the text on the screen; the topmost line is for messages
WIDTH   EQU  79         ; characters of a line on it: one in column 80 would begin the next line

        ORG  100H
        LXI  SP,STACK
        LDA  FCB+1
        CPI  ' '
        LXI  D,USAGE
        JZ   REFUSE     ; no name
        LDA  FCB+9
        CPI  '$'
        JZ   REFUSE     ; what EDIT saves under first
        LXI  H,FCB+1
        MVI  B,11
PATTRN: MOV  A,M
        CPI  '?'
        JZ   REFUSE     ; many names
        INX  H
        DCR  B
        JNZ  PATTRN
        CALL TITLED
        LHLD BDOS+1     ; memory is free up to here
        MVI  L,0
        DCX  H
        MVI  M,CR       ; the last line ends, and so does the one before the text
        SHLD TOP
        SHLD AFTER
        LXI  H,TEXT
        SHLD BEFORE
        DCX  H
        MVI  M,CR
        CALL LOAD
START:  CALL STEPL      ; to the start of the text
        JNC  START
        MVI  A,CLEAR
        CALL PUT
        CALL TITLE
        CALL DRAWA

MAIN:   CALL SCROLL
        CALL PLACE
        CALL KEY
        MOV  C,A
        LDA  TOLD
        ORA  A
        CNZ  TITLE      ; in place of a message
        CALL OBEY
        JMP  MAIN

; Ends with the message at DE.
REFUSE: MVI  C,PRINT
        CALL BDOS
        JMP  BOOT

; ---- Keys

; Does what the key in C is for.
OBEY:   LXI  H,KEYS
OBEY1:  MOV  A,M
        ORA  A
        JZ   TYPED      ; none of the table
        INX  H
        MOV  E,M
        INX  H
        MOV  D,M
        INX  H
        CMP  C
        JNZ  OBEY1
        XCHG
        PCHL

KEYS:   DB   'S'-40H    ; a control character is its letter less 40H
        DW   STEPL
        DB   'H'-40H
        DW   STEPL
        DB   'D'-40H
        DW   STEPR
        DB   'L'-40H
        DW   STEPR
        DB   'E'-40H
        DW   UP
        DB   'K'-40H
        DW   UP
        DB   'X'-40H
        DW   DOWN
        DB   'J'-40H
        DW   DOWN
        DB   'R'-40H
        DW   PAGEUP
        DB   'C'-40H
        DW   PAGEDN
        DB   '^'-40H    ; the ADM-3A's HOME
        DW   LSTART
        DB   'Q'-40H
        DW   QUICK
        DB   'G'-40H
        DW   DELCH
        DB   7FH
        DW   RUBOUT
        DB   'Y'-40H
        DW   DELLIN
        DB   'I'-40H
        DW   TAB
        DB   CR
        DW   NEWLIN
        DB   ESC
        DW   COMAND
        DB   0

; ^Q and a second key, with or without control.
QUICK:  CALL KEY
        ANI  1FH
        CPI  'S'-40H
        JZ   LSTART
        CPI  'D'-40H
        JZ   LEND
        CPI  'R'-40H
        JZ   TSTART
        CPI  'C'-40H
        JZ   TEND
BELL:   MVI  A,BEL
        JMP  PUT

; ESC and a letter.
COMAND: LXI  D,WHICH
        CALL TELL
        CALL KEY
        ANI  5FH        ; a small letter as a capital one
        CPI  'S'
        JZ   SAVE
        CPI  'X'
        JZ   LEAVE
        CPI  'Q'
        JNZ  TITLE
        LDA  CHANGD
        ORA  A
        JZ   DONE
        LXI  D,SURE
        CALL TELL
        CALL KEY
        ANI  5FH
        CPI  'Y'
        JNZ  TITLE
        JMP  DONE
LEAVE:  CALL SAVE
DONE:   MVI  A,CLEAR
        CALL PUT
        JMP  BOOT

; ---- The text: the gap is from BEFORE to AFTER, and the text behind it up to TOP. A line ends by CR alone.

; Z is set where HL and DE are the same.
SAME:   PUSH B
        MOV  B,A
        MOV  A,H
        CMP  D
        JNZ  SAME1
        MOV  A,L
        CMP  E
SAME1:  MOV  A,B        ; (a move changes no flag)
        POP  B
        RET

; Puts the character in A before the cursor. The carry is set where memory is full.
INSERT: LHLD AFTER
        XCHG
        LHLD BEFORE
        CALL SAME
        STC
        RZ
        MOV  M,A
        INX  H
        SHLD BEFORE
        CPI  CR
        JNZ  INSRT1
        LHLD LINE
        INX  H
        SHLD LINE
INSRT1: ORA  A          ; no carry
        RET

; The cursor a character to the right. The carry is set at the end of the text.
STEPR:  LHLD TOP
        XCHG
        LHLD AFTER
        CALL SAME
        STC
        RZ
        MOV  A,M
        INX  H
        SHLD AFTER
        JMP  INSERT

; The cursor a character to the left. The carry is set at the start of the text.
STEPL:  LXI  D,TEXT
        LHLD BEFORE
        CALL SAME
        STC
        RZ
        DCX  H
        SHLD BEFORE
        MOV  A,M
        LHLD AFTER
        DCX  H
        SHLD AFTER
        MOV  M,A
        CPI  CR
        JNZ  STEPL1
        LHLD LINE
        DCX  H
        SHLD LINE
STEPL1: ORA  A
        RET

; To the start of the line. B is then the column from which it came.
LSTART: MVI  B,0
LSTRT1: LHLD BEFORE
        DCX  H
        MOV  A,M
        CPI  CR
        RZ
        CALL STEPL
        INR  B
        JMP  LSTRT1

; To the end of the line.
LEND:   LHLD AFTER
        MOV  A,M
        CPI  CR
        RZ
        CALL STEPR
        JMP  LEND

; To the start and to the end of the text.
TSTART: CALL STEPL
        JNC  TSTART
        RET
TEND:   CALL STEPR
        JNC  TEND
        RET

; From the start of the line to the column in B, or to the end.
COLUMN: INR  B
COLUM1: DCR  B
        RZ
        LHLD AFTER
        MOV  A,M
        CPI  CR
        RZ
        CALL STEPR
        JMP  COLUM1

; A line up, and down, to the same column.
UP:     LHLD LINE
        MOV  A,H
        ORA  L
        RZ
        CALL LSTART
        MOV  C,B
        CALL STEPL
        CALL LSTART
        MOV  B,C
        JMP  COLUMN
DOWN:   CALL LSTART
        MOV  C,B
        CALL LEND
        CALL STEPR
        CC   LSTART     ; there is no other line
        MOV  B,C
        JMP  COLUMN

; A screen up, and down, but for a line.
PAGEUP: MVI  A,ROWS-1
PAGEU1: PUSH PSW
        CALL UP
        POP  PSW
        DCR  A
        JNZ  PAGEU1
        RET
PAGEDN: MVI  A,ROWS-1
PAGED1: PUSH PSW
        CALL DOWN
        POP  PSW
        DCR  A
        JNZ  PAGED1
        RET

; ---- What changes the text

; The character in C goes in, if it is one.
TYPED:  MOV  A,C
        CPI  ' '
        JC   BELL
; The character in A goes in. The carry is set where it doesn't.
PUTIN:  MOV  C,A
        CALL ISFULL
        JNC  PUTIN1
        MOV  A,C
        CALL INSERT
        JC   PUTIN1
        CALL CHANGE
        CALL DRAWL
        ORA  A
        RET
PUTIN1: CALL BELL
        STC
        RET

; The carry is set where the line has room on the screen for one more character.
ISFULL: MVI  B,0
        LHLD BEFORE
FULL1:  DCX  H
        MOV  A,M
        CPI  CR
        JZ   FULL2
        CALL COUNT
        RNC
        JMP  FULL1
FULL2:  LHLD AFTER
FULL3:  MOV  A,M
        CPI  CR
        STC
        RZ
        CALL COUNT
        RNC
        INX  H
        JMP  FULL3

; One more in B. The carry is set where it is below the width.
COUNT:  INR  B
        MOV  A,B
        CPI  WIDTH
        RET

; Spaces up to the next column that is a multiple of 8.
TAB:    MVI  A,' '
        CALL PUTIN
        RC
        CALL WHERE
        ANI  7
        JNZ  TAB
        RET

; The line ends here. It is drawn from where it ended up to the last line.
NEWLIN: MVI  A,CR
        CALL INSERT
        JC   BELL
        CALL CHANGE
        CALL STEPL
        CALL DRAWB
        JMP  STEPR

; The character before the cursor goes.
RUBOUT: CALL STEPL
        RC
; The character under the cursor goes.
DELCH:  CALL TAKE
        RC
        CPI  CR
        JZ   DRAWB      ; two lines have become one
        JMP  DRAWL

; The line goes.
DELLIN: CALL LSTART
DELLN1: CALL TAKE
        JC   DRAWB
        CPI  CR
        JNZ  DELLN1
        JMP  DRAWB

; Takes the character under the cursor to A. The carry is set at the end of the text.
TAKE:   LHLD TOP
        XCHG
        LHLD AFTER
        CALL SAME
        STC
        RZ
        MOV  A,M
        INX  H
        SHLD AFTER
CHANGE: PUSH PSW
        MVI  A,1
        STA  CHANGD
        POP  PSW
        ORA  A
        RET

; ---- The screen

; The screen's row of the cursor's line, in A. The carry is set where it has none.
ROW:    LHLD FIRST
        XCHG
        LHLD LINE
        MOV  A,L
        SUB  E
        MOV  L,A
        MOV  A,H
        SBB  D
        RC              ; above
        STC
        RNZ             ; far below
        MOV  A,L
        CPI  ROWS
        CMC
        RC              ; below
        INR  A
        RET

; Another part of the text, if the cursor's line isn't on the screen.
SCROLL: CALL ROW
        RNC
        LHLD LINE
        XCHG
        LHLD FIRST
        MOV  A,E
        SUB  L
        MOV  A,D
        SBB  H
        XCHG
        JC   SCROL1     ; the line is above: now it is the first
        LXI  D,1-ROWS   ; it is below: now it is the last
        DAD  D
SCROL1: SHLD FIRST
; Draws all lines.
DRAWA:  CALL ROW
        MOV  B,A
        CALL LINE0
DRAWA1: DCR  B
        JZ   DRAWA2
        DCX  H          ; the line before it
        CALL LINE1
        JMP  DRAWA1
DRAWA2: MVI  D,1
        JMP  DRAW

; HL is where the cursor's line begins.
LINE0:  LHLD BEFORE
LINE1:  DCX  H
        MOV  A,M
        CPI  CR
        JNZ  LINE1
        INX  H
        RET

; Draws the cursor's line.
DRAWL:  CALL ROW
        RC
        MOV  D,A
        CALL LINE0
        JMP  DRAWLN

; Draws the cursor's line, and those below.
DRAWB:  CALL ROW
        RC
        MOV  D,A
        CALL LINE0
; Draws from row D on the lines from HL on.
DRAW:   CALL DRAWLN
        INR  D
        MOV  A,D
        CPI  ROWS+1
        JNZ  DRAW
        RET

; Draws in row D the line at HL, or an empty one where HL is 0. HL is then the next line, or 0.
DRAWLN: MVI  E,0
        CALL GOTO
        MVI  B,WIDTH
        MOV  A,H
        ORA  L
        JZ   BLANKS
DRWLN1: CALL OVER
        MOV  A,M
        CPI  CR
        JZ   DRWLN3
        INX  H
        MOV  C,A
        MOV  A,B
        ORA  A
        JZ   DRWLN1     ; it has no room
        DCR  B
        MOV  A,C
        CPI  7FH
        JNC  DRWLN2
        CPI  ' '
        JNC  DRWLN4
DRWLN2: MVI  A,'?'      ; no character of the screen
DRWLN4: CALL PUT
        JMP  DRWLN1
DRWLN3: CALL ISEND
        INX  H
        JNZ  BLANKS
        LXI  H,0
; Shows so many spaces as B says.
BLANKS: MOV  A,B
        ORA  A
        RZ
        MVI  A,' '
        CALL PUT
        DCR  B
        JMP  BLANKS

; HL behind the gap, if it is before it.
OVER:   PUSH D
        XCHG
        LHLD BEFORE
        CALL SAME
        JNZ  OVER1
        LHLD AFTER
        XCHG
OVER1:  XCHG
        POP  D
        RET

; Z is set where HL is the end of the text.
ISEND:  PUSH D
        XCHG
        LHLD TOP
        CALL SAME
        XCHG
        POP  D
        RET

; The column of the cursor, in A, or the last one.
WHERE:  LHLD BEFORE
        MVI  B,0
WHERE1: DCX  H
        MOV  A,M
        CPI  CR
        MOV  A,B
        RZ
        CPI  WIDTH
        RZ
        INR  B
        JMP  WHERE1

; The screen's cursor where the text's is, and the number of its line in the topmost line.
PLACE:  LHLD LINE
        XCHG
        LHLD SHOWN
        CALL SAME
        CNZ  NUMBRD
        CALL ROW
        MOV  D,A
        CALL WHERE
        MOV  E,A
; The screen's cursor in row D and column E: ESC, =, and both with 20H more.
GOTO:   MVI  A,ESC
        CALL PUT
        MVI  A,'='
        CALL PUT
        MOV  A,D
        ADI  ' '
        CALL PUT
        MOV  A,E
        ADI  ' '
        JMP  PUT

; The number of the cursor's line, which is in DE and counted from 1.
NUMBRD: XCHG
        SHLD SHOWN
        LXI  D,68
        CALL GOTO
        INX  H
        CALL NUMBER
        MVI  B,4
        JMP  BLANKS

; Shows HL as a decimal number.
NUMBER: LXI  D,-10
        LXI  B,-1
NUMBR1: INX  B
        DAD  D
        JC   NUMBR1
        MOV  A,L        ; its last digit, less 10
        ADI  10+'0'
        PUSH PSW
        MOV  H,B        ; the digits before it
        MOV  L,C
        MOV  A,H
        ORA  L
        CNZ  NUMBER
        POP  PSW
        JMP  PUT

; The topmost line.
TITLE:  XRA  A
        STA  TOLD
        LXI  D,NAME
        CALL TOPLIN
        LXI  D,HELP
        JMP  TEXTD

; A message in the topmost line, up to the next key.
TELL:   MVI  A,1
        STA  TOLD
        CALL TOPLIN
        JMP  BLANKS

; The text at DE at the start of the topmost line, of which B columns are left.
TOPLIN: PUSH D
        LXI  D,0
        CALL GOTO
        POP  D
        MVI  B,62
; The text at DE, up to the $.
TEXTD:  LDAX D
        CPI  '$'
        RZ
        CALL PUT
        DCR  B
        INX  D
        JMP  TEXTD

; Makes the file's name, as it is shown: without spaces, with a dot.
TITLED: LXI  H,FCB+1
        LXI  D,NAME
        MVI  B,8
        CALL LETTRS
        MVI  A,'.'
        STAX D
        INX  D
        MVI  B,3
        CALL LETTRS
FILLED: MVI  A,' '      ; up to the help that comes behind it
        STAX D
        INX  D
        MOV  A,E
        CPI  NAMEND AND 0FFH
        JNZ  FILLED
        RET
LETTRS: MOV  A,M
        INX  H
        CPI  ' '
        JZ   LETTR1
        STAX D
        INX  D
LETTR1: DCR  B
        JNZ  LETTRS
        RET

; Shows the character in A, and changes no register.
PUT:    PUSH PSW
        PUSH B
        PUSH D
        PUSH H
        MOV  C,A
        LXI  D,CONOUT
        CALL BIOS
        POP  H
        POP  D
        POP  B
        POP  PSW
        RET

; A key, in A.
KEY:    LXI  D,CONIN
BIOS:   LHLD WARM
        DAD  D
        PCHL

; ---- The file

; Reads it, if there is one.
LOAD:   XRA  A
        STA  FCB+32     ; its first record
        LXI  D,FCB
        MVI  C,OPEN
        CALL BDOS
        INR  A
        RZ
        LDA  FCB+9      ; the highest bit of the type's first letter says that it is read only
        ORA  A
        LXI  D,LOCKED
        JM   REFUSE
LOAD1:  LXI  D,FCB
        MVI  C,READ
        CALL BDOS
        ORA  A
        RNZ             ; it has no other record
        LXI  H,RECORD
LOAD2:  MOV  A,M
        CPI  EOF
        RZ
        PUSH H
        CALL ADDCH
        POP  H
        INR  L          ; the record ends where the page does
        JNZ  LOAD2
        JMP  LOAD1

; Adds a character of the file. A line that ends there by CR LF, or by LF, ends by CR.
ADDCH:  MOV  B,A
        LDA  LAST
        MOV  C,A
        MOV  A,B
        STA  LAST
        CPI  LF
        JNZ  ADDCH1
        MOV  A,C
        CPI  CR
        RZ
        MVI  A,CR
ADDCH1: CALL INSERT
        RNC
        LXI  D,LARGE
        JMP  REFUSE

; Saves the text: as NAME.$$$, and once all is there, NAME.TYP becomes NAME.BAK, and NAME.$$$ NAME.TYP.
SAVE:   LXI  D,NEW
        LXI  H,TEMP
        CALL NAMED
        XRA  A
        STA  NEW+32     ; its first record
        MVI  C,ERASE    ; one of this name from an earlier time
        CALL CALL0
        MVI  C,MAKE
        CALL CALL0
        INR  A
        JZ   FULL
        LXI  H,RECORD
        SHLD PUTAT
        LXI  H,TEXT
SAVE1:  CALL OVER
        CALL ISEND
        JZ   SAVE2
        MOV  A,M
        INX  H
        CALL STORE
        CPI  CR
        JNZ  SAVE1
        MVI  A,LF
        CALL STORE
        JMP  SAVE1
SAVE2:  LDA  PUTAT      ; the rest of the last record
        CPI  RECORD
        JZ   SAVE3
        MVI  A,EOF
        CALL STORE
        JMP  SAVE2
SAVE3:  MVI  C,CLOSE
        CALL CALL0
        INR  A
        JZ   FULL
        LXI  D,OLD      ; NAME.BAK
        LXI  H,BACKUP
        CALL NAMED
        LXI  D,OLD
        MVI  C,ERASE
        CALL BDOS
        LXI  D,OLD
        LXI  H,FCB+9
        CALL NAMED
        LXI  D,OLD+16
        LXI  H,BACKUP
        CALL NAMED
        LXI  D,OLD
        MVI  C,RENAME
        CALL BDOS
        LXI  D,NEW+16
        LXI  H,FCB+9
        CALL NAMED
        MVI  C,RENAME
        CALL CALL0
        XRA  A
        STA  CHANGD
        LXI  D,SAVED
        JMP  TELL

; Calls the BDOS with the control block NEW.
CALL0:  LXI  D,NEW
        JMP  BDOS

; Nothing is saved: back to the text, whatever was being done.
FULL:   LXI  SP,STACK
        MVI  C,ERASE
        CALL CALL0
        LXI  D,NOROOM
        CALL TELL
        JMP  MAIN

; The character in A is the file's next. No register changes.
STORE:  PUSH PSW
        PUSH H
        LHLD PUTAT
        MOV  M,A
        INR  L
        CZ   STORE1
        SHLD PUTAT
        POP  H
        POP  PSW
        RET
STORE1: MVI  C,WRITE
        CALL CALL0
        ORA  A
        JNZ  FULL
        LXI  H,RECORD
        RET

; DE becomes a control block of the file's drive and name, with the type at HL.
NAMED:  PUSH H
        LXI  H,FCB
        MVI  B,9
        CALL COPY
        POP  H
        MVI  B,3
        CALL COPY
        LXI  H,ZEROS
        MVI  B,4
COPY:   MOV  A,M
        ANI  7FH        ; without attributes
        STAX D
        INX  H
        INX  D
        DCR  B
        JNZ  COPY
        RET

USAGE:  DB   13,10,'EDIT NAME.TYP changes a text.$'
LOCKED: DB   13,10,'EDIT: the file is read only.$'
LARGE:  DB   13,10,'EDIT: the file is too large for memory.$'
HELP:   DB   'ESC S saves, X saves and leaves, Q leaves         line $'
WHICH:  DB   'S saves, X saves and leaves, Q leaves; another key goes on. $'
SURE:   DB   'The text was changed. Leave it as it was? (Y/N) $'
SAVED:  DB   'Saved.$'
NOROOM: DB   'The disk is full: nothing was saved.$'
TEMP:   DB   '$$$'
BACKUP: DB   'BAK'
ZEROS:  DB   0,0,0,0
LAST:   DB   0          ; the character of the file before
CHANGD: DB   0          ; whether the text was changed
TOLD:   DB   0          ; whether a message stands in the topmost line
LINE:   DW   0          ; the number of the cursor's line, counted from 0
FIRST:  DW   0          ; that of the first line on the screen
SHOWN:  DW   0FFFFH     ; that which the topmost line shows
NAME:   DS   13         ; the name of the file
NAMEND: DB   '$'
TOP:    DS   2
BEFORE: DS   2
AFTER:  DS   2
PUTAT:  DS   2          ; where in the record the next character goes
OLD:    DS   36
NEW:    DS   36
        DS   64
STACK   EQU  $
        DS   1          ; the CR before the first line
TEXT    EQU  $
        END
