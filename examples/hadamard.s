; Hadamard transform of 8 points, in place, of two signals at a time: one in the low halves, one in the high halves.
;
; Takes:  A4 = groups of 8 words; A1 = number of groups, at least 1
; Gives:  each group transformed, in natural order, modulo 2^16
; Leaves: A4 behind the groups
; Source: the fast transform, butterflies (a + b, a - b) at distances 1, 2 and 4

GROUP: LDW    .D1T1  *A4,A5      ; points 0 to 3 in file A
       LDW    .D1T1  *+A4[1],A6
       LDW    .D1T1  *+A4[2],A7
       LDW    .D1T1  *+A4[3],A8
       LDW    .D1T2  *+A4[4],B5  ; points 4 to 7 in file B
       LDW    .D1T2  *+A4[5],B6
       LDW    .D1T2  *+A4[6],B7
       LDW    .D1T2  *+A4[7],B8
       ADD2   .S1    A5,A6,A9    ; distance 1
       SUB2   .S1    A5,A6,A10
       ADD2   .S1    A7,A8,A11
       SUB2   .S1    A7,A8,A12
       ADD2   .S2    B5,B6,B9
       SUB2   .S2    B5,B6,B10
       ADD2   .S2    B7,B8,B11
       SUB2   .S2    B7,B8,B12
       ADD2   .S1    A9,A11,A5   ; distance 2
       ADD2   .S1    A10,A12,A6
       SUB2   .S1    A9,A11,A7
       SUB2   .S1    A10,A12,A8
       ADD2   .S2    B9,B11,B5
       ADD2   .S2    B10,B12,B6
       SUB2   .S2    B9,B11,B7
       SUB2   .S2    B10,B12,B8
       ADD2   .S1X   A5,B5,A9    ; distance 4, points 0 to 3
       ADD2   .S1X   A6,B6,A10
       ADD2   .S1X   A7,B7,A11
       ADD2   .S1X   A8,B8,A12
       STW    .D1T1  A9,*A4++
       STW    .D1T1  A10,*A4++
       STW    .D1T1  A11,*A4++
       STW    .D1T1  A12,*A4++
       SUB2   .S1X   A5,B5,A9    ; points 4 to 7
       SUB2   .S1X   A6,B6,A10
       SUB2   .S1X   A7,B7,A11
       SUB2   .S1X   A8,B8,A12
       STW    .D1T1  A9,*A4++
       STW    .D1T1  A10,*A4++
       STW    .D1T1  A11,*A4++
       STW    .D1T1  A12,*A4++
       SUB    .L1    A1,1,A1
  [A1] B      .S2    GROUP
