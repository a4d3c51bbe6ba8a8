; Dot product of two vectors of signed halfwords, four elements a turn. A turn loads the elements of the next.
;
; Takes:  A4 = x and B4 = y, word-aligned; A1 = number of elements, a multiple of 4, at least 8
; Gives:  A6 = sum of x[i] * y[i]
; Leaves: A4, B4 behind the vectors
; Source: the inner product by its definition, unrolled by four

       SHRU   .S1    A1,2,A1
       SUB    .L1    A1,1,A1   ; turns but the last
       ZERO   .S1    A6        ; sum of the even products
       ZERO   .S2    B6        ; sum of the odd products
       LDW    .D1T1  *A4++,A5
       LDW    .D2T2  *B4++,B5
       LDW    .D1T1  *A4++,A8
       LDW    .D2T2  *B4++,B8
QUAD:  MPY    .M1X   A5,B5,A7  ; x[i] * y[i]
       MPYH   .M2X   B5,A5,B7  ; x[i+1] * y[i+1]
       MPY    .M1X   A8,B8,A9  ; x[i+2] * y[i+2]
       MPYH   .M2X   B8,A8,B9  ; x[i+3] * y[i+3]
       LDW    .D1T1  *A4++,A5  ; the elements of the next turn
       LDW    .D2T2  *B4++,B5
       LDW    .D1T1  *A4++,A8
       LDW    .D2T2  *B4++,B8
       ADD    .L1    A6,A7,A6
       ADD    .L2    B6,B7,B6
       ADD    .L1    A6,A9,A6
       ADD    .L2    B6,B9,B6
       SUB    .S1    A1,1,A1
  [A1] B      .S2    QUAD
       MPY    .M1X   A5,B5,A7  ; the last turn
       MPYH   .M2X   B5,A5,B7
       MPY    .M1X   A8,B8,A9
       MPYH   .M2X   B8,A8,B9
       ADD    .L1    A6,A7,A6
       ADD    .L2    B6,B7,B6
       ADD    .L1    A6,A9,A6
       ADD    .L2    B6,B9,B6
       ADD    .L1X   A6,B6,A6
