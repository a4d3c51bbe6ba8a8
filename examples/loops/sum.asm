; Sum of words, a word a cycle: six branches are in flight in the loop, and five loads.
;
; Takes:  A4 = x, word-aligned; A1 = number of words, at least 6; A3 = what they are added to
; Gives:  A3
; Leaves: A4 behind the vector
; Source: sum.s

        SUB   .S1  A1,6,A1
 [A1]   SUB   .S1  A1,1,A1
||[A1]  B     .S2  L
||      LDW   .D1  *A4++,A2
 [A1]   SUB   .S1  A1,1,A1
||[A1]  B     .S2  L
||      LDW   .D1  *A4++,A2
 [A1]   SUB   .S1  A1,1,A1
||[A1]  B     .S2  L
||      LDW   .D1  *A4++,A2
 [A1]   SUB   .S1  A1,1,A1
||[A1]  B     .S2  L
||      LDW   .D1  *A4++,A2
 [A1]   SUB   .S1  A1,1,A1
||[A1]  B     .S2  L
||      LDW   .D1  *A4++,A2
L:      ADD   .L1  A2,A3,A3
||[A1]  SUB   .S1  A1,1,A1
||[A1]  B     .S2  L
||      LDW   .D1  *A4++,A2
        ADD   .L1  A2,A3,A3
        ADD   .L1  A2,A3,A3
        ADD   .L1  A2,A3,A3
        ADD   .L1  A2,A3,A3
        ADD   .L1  A2,A3,A3
