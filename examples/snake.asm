; SNAKE is a game on the screen of a VT100. The snake never stands still, and it is longer by a piece with each thing that
; it eats. It dies where it runs into the wall, or into itself.
;
;   A>SNAKE
;
; The arrows steer it, or the diamond that WordStar has: E up, X down, S left, D right. Q leaves the game.
;
; It shows how a program goes on while nobody types: it asks the BIOS whether there is a key, and never waits for one. A
; machine has no clock, so the snake's pace is that of an empty loop, by steps: at 400,000 steps a second, about those of
; an 8080 at 2 MHz, level 1 moves 8 times a second. What it eats next depends on the level and on how long it went for the
; thing before, so the same keys at the same steps are the same game.

BOOT    EQU  0          ; a jump here ends a program
WARM    EQU  1          ; the word here is the address of a table of jumps, the BIOS
CONST   EQU  3          ; in it: whether there is a key, in A: 0 where there is none
CONIN   EQU  6          ; read a key, which it waits for, to A
CONOUT  EQU  9          ; show the character in C, as it is
ESC     EQU  27

; The field has cells of two columns each, so that they are about as wide as they are high. A row has 64 places in memory.
HEIGHT  EQU  21         ; its rows and its columns are counted from 1: at 0 and behind the last is the wall
WIDTH   EQU  39
WALL    EQU  1          ; what a cell holds: nothing (0), the wall or the snake, or something to eat
FOOD    EQU  2

        ORG  100H
        LXI  SP,STACK
GAME:   LXI  D,ASKLEV
        CALL TEXT
LEVEL:  CALL KEY
        CPI  '1'
        JC   LEVEL
        CPI  '9'+1
        JNC  LEVEL
        MOV  L,A        ; where the chances begin
        MVI  H,0
        SHLD SEED
        MOV  B,A
        MVI  A,'9'+1    ; level 1 waits nine times as long as level 9
        SUB  B
        MOV  B,A
        LXI  H,0
        LXI  D,1350
SLOWER: DAD  D
        DCR  B
        JNZ  SLOWER
        SHLD PAUSE
        CALL FIELD
        CALL BORN
        CALL FEED
TURN:   CALL DELAY
        CALL STEER
        CALL MOVE
        JNC  TURN

        LXI  D,DEAD
        CALL TEXT
AGAIN:  CALL KEY
        ANI  5FH        ; a small letter as a capital one
        CPI  'Y'
        JZ   GAME
        CPI  'N'
        JNZ  AGAIN
LEAVE:  LXI  D,BLANK
        CALL TEXT
        JMP  BOOT

; The time between two moves.
DELAY:  LHLD PAUSE
DELAY1: DCX  H
        MOV  A,H
        ORA  L
        JNZ  DELAY1
        RET

; ---- The field

; The cell of row D and column E, at HL.
CELL:   PUSH D
        MOV  L,D
        MVI  H,0
        DAD  H          ; 64 times the row
        DAD  H
        DAD  H
        DAD  H
        DAD  H
        DAD  H
        MVI  D,0
        DAD  D
        LXI  D,CELLS
        DAD  D
        POP  D
        RET

; Makes it: a wall around, and nothing within.
FIELD:  LXI  H,CELLS
        LXI  B,(HEIGHT+2)*64
FIELD1: MVI  M,0
        INX  H
        DCX  B
        MOV  A,B
        ORA  C
        JNZ  FIELD1
        MVI  E,WIDTH+1
FIELD2: MVI  D,0
        CALL CELL
        MVI  M,WALL
        MVI  D,HEIGHT+1
        CALL CELL
        MVI  M,WALL
        DCR  E
        JP   FIELD2
        MVI  D,HEIGHT+1
FIELD3: MVI  E,0
        CALL CELL
        MVI  M,WALL
        MVI  E,WIDTH+1
        CALL CELL
        MVI  M,WALL
        DCR  D
        JP   FIELD3

        LXI  D,LINES    ; and on the screen, by the VT100's own lines and corners
        CALL TEXT
        LXI  D,2*256+1
        CALL GOTO
        LXI  B,'l'*256+'k'
        CALL ACROSS
        MVI  D,3
FIELD4: MVI  E,1
        CALL UPRGHT
        MVI  E,80
        CALL UPRGHT
        INR  D
        MOV  A,D
        CPI  HEIGHT+3
        JNZ  FIELD4
        MVI  E,1
        CALL GOTO
        LXI  B,'m'*256+'j'
        CALL ACROSS
        LXI  D,LETTRS
        JMP  TEXT

; A corner, B, a line of 78, and a corner, C.
ACROSS: MOV  A,B
        CALL PUT
        MVI  B,78
ACROS1: MVI  A,'q'
        CALL PUT
        DCR  B
        JNZ  ACROS1
        MOV  A,C
        JMP  PUT

; An upright line of one row at row D and column E of the screen.
UPRGHT: CALL GOTO
        MVI  A,'x'
        JMP  PUT

; Something to eat, at a place where nothing is.
FEED:   CALL CHANCE
        MVI  B,HEIGHT
        CALL MODULO
        INR  A
        MOV  D,A
        CALL CHANCE
        MVI  B,WIDTH
        CALL MODULO
        INR  A
        MOV  E,A
        CALL CELL
        MOV  A,M
        ORA  A
        JNZ  FEED
        MVI  M,FOOD
        LXI  H,MEAL
        JMP  DRAW

; The next number of chance, in A: the upper byte of five times the seed and 12345. DE stays.
CHANCE: PUSH D
        LHLD SEED
        MOV  D,H
        MOV  E,L
        DAD  H
        DAD  H
        DAD  D
        LXI  D,12345
        DAD  D
        SHLD SEED
        MOV  A,H
        POP  D
        RET

; A modulo B.
MODULO: SUB  B
        JNC  MODULO
        ADD  B
        RET

; ---- The snake is a ring of 256 places, each with a row and a column. HEAD is the place of its first piece, TAIL that of the
; last.

; A new one: three pieces that go to the right.
BORN:   LXI  H,0
        SHLD EATEN
        SHLD DOWN       ; and PART, which is behind it
        MVI  A,1
        STA  RIGHT
        XRA  A
        STA  TAIL
        LXI  D,(HEIGHT/2+1)*256+WIDTH/2
        MVI  A,0FFH
        STA  HEAD       ; (the first place is the one behind it, 0)
        CALL GROW
        INR  E
        CALL GROW
        INR  E
; A piece more, at row D and column E.
GROW:   CALL CELL
        MVI  M,WALL
        LXI  H,HEAD
        INR  M
        MOV  A,M
        CALL PIECE
        MOV  M,D
        INX  H
        MOV  M,E
        LXI  H,BODY
; Draws at row D and column E of the field the text at HL.
DRAW:   PUSH D
        PUSH H
        INR  D          ; two rows of the screen lie above, counted from 1
        INR  D
        MOV  A,E        ; and a column before
        ADD  A
        MOV  E,A
        CALL GOTO
        POP  D
        CALL TEXT
        POP  D
        RET

; The place of the ring with the number in A, at HL.
PIECE:  PUSH D
        MOV  L,A
        MVI  H,0
        DAD  H
        LXI  D,RING
        DAD  D
        POP  D
        RET

; One move. The carry is set where it was the last.
MOVE:   LDA  HEAD
        CALL PIECE
        LDA  DOWN
        ADD  M
        MOV  D,A
        INX  H
        LDA  RIGHT
        ADD  M
        MOV  E,A
        CALL CELL
        MOV  A,M
        CPI  WALL
        STC
        RZ
        PUSH PSW
        CALL GROW
        POP  PSW
        CPI  FOOD
        JZ   EATS
        LXI  H,TAIL     ; the last piece goes
        MOV  A,M
        INR  M
        CALL PIECE
        MOV  D,M
        INX  H
        MOV  E,M
        CALL CELL
        MVI  M,0
        LXI  H,NONE
        CALL DRAW
        CALL CHANCE     ; each move changes what is eaten next
        ORA  A          ; no carry
        RET
EATS:   LHLD EATEN
        INX  H
        SHLD EATEN
        LXI  D,1*256+15
        CALL GOTO
        LHLD EATEN
        CALL NUMBER
        LDA  HEAD       ; as long as the ring is, but for a few places: it can't grow
        MOV  B,A
        LDA  TAIL
        SUB  B
        CPI  4
        RC
        CALL FEED
        ORA  A
        RET

; A key, if there is one, turns it. An arrow is three keys: ESC, [ or O, and a letter. They may come one by one.
STEER:  LXI  D,CONST
        CALL BIOS
        ORA  A
        RZ
        CALL KEY
        CALL TURNED
        LDA  PART
        ORA  A
        JNZ  STEER
        RET

; The key in A turns it.
TURNED: LXI  H,PART     ; how many keys of an arrow came before
        MOV  B,M
        MVI  M,1
        CPI  ESC
        RZ
        MVI  M,0
        MOV  C,A
        DCR  B
        JZ   SECOND
        DCR  B
        LXI  H,ARROWS
        JZ   LOOK
        ANI  1FH        ; a letter, small or capital or with control
        MOV  C,A
        CPI  'Q' AND 1FH
        JZ   LEAVE
        LXI  H,DIAMND
LOOK:   MVI  B,4
LOOK1:  MOV  A,M
        INX  H
        CMP  C
        JZ   FOUND
        INX  H
        INX  H
        DCR  B
        JNZ  LOOK1
        RET
SECOND: MVI  M,2
        CPI  '['
        RZ
        CPI  'O'
        RZ
        MVI  M,0
        RET

; It goes where the table at HL says, but not back.
FOUND:  LDA  DOWN
        ADD  M
        MOV  B,A
        INX  H
        LDA  RIGHT
        ADD  M
        ORA  B
        RZ
        MOV  A,M
        STA  RIGHT
        DCX  H
        MOV  A,M
        STA  DOWN
        RET

; The last key of each arrow, and the letters of the diamond: how many rows down, how many columns to the right.
ARROWS: DB   'A',-1,0,'B',1,0,'C',0,1,'D',0,-1
DIAMND: DB   'E' AND 1FH,-1,0,'X' AND 1FH,1,0,'D' AND 1FH,0,1,'S' AND 1FH,0,-1

; ---- The screen

; The cursor in row D and column E, counted from 1: ESC [ row ; column H. DE stays.
GOTO:   PUSH D
        MVI  A,ESC
        CALL PUT
        MVI  A,'['
        CALL PUT
        MOV  L,D
        MVI  H,0
        PUSH D
        CALL NUMBER
        POP  D
        MVI  A,';'
        CALL PUT
        MOV  L,E
        MVI  H,0
        CALL NUMBER
        MVI  A,'H'
        CALL PUT
        POP  D
        RET

; Shows HL as a decimal number.
NUMBER: PUSH B
        LXI  D,-10
        LXI  B,-1
NUMBR1: INX  B
        DAD  D
        JC   NUMBR1
        MOV  A,L        ; its last digit, less 10
        ADI  10+'0'
        PUSH PSW
        MOV  H,B        ; the digits before it
        MOV  L,C
        MOV  A,H
        ORA  L
        CNZ  NUMBER
        POP  PSW
        POP  B
        JMP  PUT

; Shows the text at DE, up to the $.
TEXT:   LDAX D
        CPI  '$'
        RZ
        CALL PUT
        INX  D
        JMP  TEXT

; Shows the character in A, and changes no register.
PUT:    PUSH PSW
        PUSH B
        PUSH D
        PUSH H
        MOV  C,A
        LXI  D,CONOUT
        CALL BIOS
        POP  H
        POP  D
        POP  B
        POP  PSW
        RET

; A key, in A.
KEY:    LXI  D,CONIN
BIOS:   LHLD WARM
        DAD  D
        PCHL

BLANK:  DB   ESC,'(B',ESC,')0',ESC,'[m',ESC,'[2J',ESC,'[H$'
ASKLEV: DB   ESC,'(B',ESC,')0',ESC,'[m',ESC,'[2J',ESC,'[H'
        DB   ESC,'[1mSNAKE',ESC,'[m  arrows or E X S D steer, Q leaves'
        DB   ESC,'[3;1HWhich level, from 1 (slow) to 9? $'
LINES:  DB   ESC,'[2J',ESC,'[H',ESC,'[1mSNAKE',ESC,'[m   eaten 0'
        DB   ESC,'[1;42Harrows or E X S D steer, Q leaves',14,'$'
LETTRS: DB   15,'$'     ; SO, above, and SI choose between line drawing and letters
MEAL:   DB   ESC,'[1m()',ESC,'[m$'
BODY:   DB   ESC,'[7m  ',ESC,'[m$'
NONE:   DB   '  $'
DEAD:   DB   ESC,'[1;22H',ESC,'[5mThe end.',ESC,'[m Once more? (Y/N)',ESC,'[K$'

PAUSE:  DS   2          ; how often the loop between two moves goes round
SEED:   DS   2
EATEN:  DS   2
DOWN:   DS   1          ; where it goes: one row down, none, or -1
PART:   DS   1
RIGHT:  DS   1          ; one column to the right, none, or -1
HEAD:   DS   1
TAIL:   DS   1
RING:   DS   512
CELLS:  DS   (HEIGHT+2)*64
        DS   64
STACK   EQU  $
        END
