; Products of the low halves of words with one factor.
;
; Takes:  A4 = x and B4 = y, word-aligned; A1 = number of words, at least 1; B6 = factor
; Gives:  y[i] = x[i] * factor
; Leaves: A4 and B4 behind the vectors
; Source: the product by its definition

L:      LDW   .D1    *A4++,A2
        MPY   .M2X   A2,B6,B3
        STW   .D2T2  B3,*B4++
        SUB   .S1    A1,1,A1
 [A1]   B     .S2    L
