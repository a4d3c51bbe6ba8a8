; Sum of words.
;
; Takes:  A4 = x, word-aligned; A1 = number of words, at least 1; A3 = what they are added to
; Gives:  A3
; Leaves: A4 behind the vector
; Source: the sum by its definition

L:      LDW  .D1  *A4++,A2
        ADD  .L1  A2,A3,A3
 [A1]   SUB  .S1  A1,1,A1
 [A1]   B    .S2  L
