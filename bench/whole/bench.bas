10 REM A program of loops, calls and an array, for the time that a BASIC takes
20 PRINT "primes below 2000"
30 LET N=1999
40 FOR I=2 TO N: LET @(I)=1: NEXT I
50 FOR I=2 TO 44
60 IF @(I)=0 THEN 80
70 FOR J=I*I TO N STEP I: LET @(J)=0: NEXT J
80 NEXT I
90 LET C=0: LET L=0
100 FOR I=2 TO N
110 IF @(I) THEN C=C+1: L=I
120 NEXT I
130 PRINT C;" of them, the last ";L
200 PRINT "the longest way to 1 by halves and 3*N+1, from below 100"
210 LET M=0: LET B=0
220 FOR I=1 TO 99
230 GOSUB 500
240 IF S>M THEN M=S: B=I
250 NEXT I
260 PRINT B;" takes ";M;" steps"
300 PRINT "powers and quotients"
310 FOR I=-3 TO 3
320 PRINT I,I*I*I,1000/(2*I+1),(I<0)-(I>0)
330 NEXT I
400 PRINT "sorted by exchanges"
410 LET X=7: FOR I=0 TO 39: X=X*109+89: @(I)=X/64: NEXT I
420 FOR I=0 TO 38: FOR J=I+1 TO 39
430 IF @(J)<@(I) THEN T=@(I): @(I)=@(J): @(J)=T
440 NEXT J: NEXT I
450 FOR I=0 TO 39 STEP 3: PRINT @(I);" ";: NEXT I: PRINT
460 GOSUB 600
470 END
500 REM The number S of steps from I; above 32767 it would overflow, and one from below 100 stays under 9233
510 LET V=I: LET S=0
520 IF V=1 THEN RETURN
530 IF V/2*2=V THEN V=V/2: GOTO 550
540 LET V=V*3+1
550 LET S=S+1: GOTO 520
600 REM Recursive: the moves of six discs
610 LET D=6: LET K=0: GOSUB 650
620 PRINT K;" moves of ";D;" discs"
630 RETURN
650 IF D=0 THEN RETURN
660 LET D=D-1: GOSUB 650: K=K+1: GOSUB 650: D=D+1: RETURN
