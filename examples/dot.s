; Dot product of two vectors of signed halfwords, two elements a turn.
;
; Takes:  A4 = x and B4 = y, word-aligned; A1 = number of elements, even, at least 2
; Gives:  A6 = sum of x[i] * y[i]
; Leaves: A4, B4 behind the vectors
; Source: the inner product by its definition, unrolled by two

       SHRU   .S1    A1,1,A1   ; turns
       ZERO   .S1    A6        ; sum of the even products
       ZERO   .S2    B6        ; sum of the odd products
PAIR:  LDW    .D1T1  *A4++,A5
       LDW    .D2T2  *B4++,B5
       MPY    .M1X   A5,B5,A7  ; x[i] * y[i]
       MPYH   .M2X   B5,A5,B7  ; x[i+1] * y[i+1]
       SUB    .S1    A1,1,A1
       ADD    .L1    A6,A7,A6
       ADD    .L2    B6,B7,B6
  [A1] B      .S2    PAIR
       ADD    .L1X   A6,B6,A6
