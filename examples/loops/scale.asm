; Products of the low halves of words with one factor, a word a cycle. No product may be stored where a word is loaded later.
;
; Takes:  A4 = x and B4 = y, word-aligned; A1 = number of words, at least 8; B6 = factor
; Gives:  y[i] = x[i] * factor
; Leaves: A4 and B4 behind the vectors
; Source: scale.s

        SUB   .S1  A1,6,A1
        LDW   .D1  *A4++,A2
||[A1]  SUB   .S1  A1,1,A1
        LDW   .D1  *A4++,A2
||[A1]  SUB   .S1  A1,1,A1
        LDW   .D1  *A4++,A2
||[A1]  SUB   .S1  A1,1,A1
||[A1]  B     .S2  L
        LDW   .D1  *A4++,A2
||[A1]  SUB   .S1  A1,1,A1
||[A1]  B     .S2  L
        LDW   .D1  *A4++,A2
||[A1]  SUB   .S1  A1,1,A1
||[A1]  B     .S2  L
        LDW   .D1  *A4++,A2
||[A1]  SUB   .S1  A1,1,A1
||[A1]  B     .S2  L
||      MPY   .M2X A2,B6,B3
        LDW   .D1  *A4++,A2
||[A1]  SUB   .S1  A1,1,A1
||[A1]  B     .S2  L
||      MPY   .M2X A2,B6,B3
L:      LDW   .D1  *A4++,A2
||[A1]  SUB   .S1  A1,1,A1
||[A1]  B     .S2  L
||      MPY   .M2X A2,B6,B3
||      STW   .D2T2B3,*B4++
        MPY   .M2X A2,B6,B3
||      STW   .D2T2B3,*B4++
        MPY   .M2X A2,B6,B3
||      STW   .D2T2B3,*B4++
        MPY   .M2X A2,B6,B3
||      STW   .D2T2B3,*B4++
        MPY   .M2X A2,B6,B3
||      STW   .D2T2B3,*B4++
        MPY   .M2X A2,B6,B3
||      STW   .D2T2B3,*B4++
        STW   .D2T2B3,*B4++
        STW   .D2T2B3,*B4++
