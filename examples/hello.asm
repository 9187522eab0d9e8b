; Prints HI and a new line by function 9 of the BDOS, and returns to the host.
;
;   ./cpmhost com examples/hello.com
;
; hello.com has these bytes:
;
;   address  bytes             statement
;   0100     0E 09                      MVI  C,9
;   0102     11 09 01                   LXI  D,TEXT
;   0105     CD 05 00                   CALL 5
;   0108     C9                         RET
;   0109     48 49 0D 0A 24    TEXT:    DB   'HI',13,10,'$'

        ORG  100H
        MVI  C,9        ; function 9: print the text at DE, up to the $
        LXI  D,TEXT
        CALL 5
        RET
TEXT:   DB   'HI',13,10,'$'
        END
