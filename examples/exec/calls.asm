; Two functions: the sum of the squares of two signed halves, each squared by a call. A call is a branch, with the address of the
; label to come back to in B3.
;
; Takes:  A4 and A5 = the two numbers; B5 = where it returns to
; Gives:  A4 = A4 * A4 + A5 * A5
; Leaves: A6 = the first square
; Source: the sum by its definition

MAIN:   CALL  .S1  SQUARE         ; row 0
        MVKL  .S2  FIRST,B3       ; FIRST is row 4
        MVKH  .S2  FIRST,B3
        NOP   3
FIRST:  CALL  .S1  SQUARE         ; row 4
||      MV    .L1  A4,A6
||      MV    .D1  A5,A4
        MVKL  .S2  SECOND,B3      ; SECOND is row 8
        MVKH  .S2  SECOND,B3
        NOP   3
SECOND: ADD   .L1  A4,A6,A4       ; row 8
        RET   .S2  B5
        NOP   5

SQUARE: RET   .S2  B3
||      MPY   .M1  A4,A4,A4
        NOP   5
