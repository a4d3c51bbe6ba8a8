; Dot product of two vectors of signed halfwords, a pair of elements a turn.
;
; Takes:  A4 = x and B4 = y, word-aligned; A1 = number of pairs, at least 1
; Gives:  A4 = sum of x[i] * y[i]
; Leaves: B4 behind its vector
; Source: the inner product by its definition, two sums at once

        ZERO  .L1   A7            ; sum of the even products
        ZERO  .L2   B7            ; sum of the odd products
L:      LDW   .D1   *A4++,A2
        LDW   .D2   *B4++,B2
        MPY   .M1X  A2,B2,A6
        MPYH  .M2X  B2,A2,B6
        ADD   .L1   A6,A7,A7
        ADD   .L2   B6,B7,B7
        SUB   .S1   A1,1,A1
 [A1]   B     .S2   L
        ADD   .L1X  A7,B7,A4
