; Dot product of two vectors of signed halfwords, a pair of elements a cycle.
;
; Takes:  A4 = x and B4 = y, word-aligned; A1 = number of pairs, at least 8
; Gives:  A4 = sum of x[i] * y[i]
; Leaves: B4 behind its vector
; Source: dot.s

        SUB   .S1  A1,6,A1
||      ZERO  .L1  A7
||      ZERO  .L2  B7
        LDW   .D1  *A4++,A2
||      LDW   .D2  *B4++,B2
||[A1]  SUB   .S1  A1,1,A1
        LDW   .D1  *A4++,A2
||      LDW   .D2  *B4++,B2
||[A1]  SUB   .S1  A1,1,A1
        LDW   .D1  *A4++,A2
||      LDW   .D2  *B4++,B2
||[A1]  SUB   .S1  A1,1,A1
||[A1]  B     .S2  L
        LDW   .D1  *A4++,A2
||      LDW   .D2  *B4++,B2
||[A1]  SUB   .S1  A1,1,A1
||[A1]  B     .S2  L
        LDW   .D1  *A4++,A2
||      LDW   .D2  *B4++,B2
||[A1]  SUB   .S1  A1,1,A1
||[A1]  B     .S2  L
        LDW   .D1  *A4++,A2
||      LDW   .D2  *B4++,B2
||[A1]  SUB   .S1  A1,1,A1
||[A1]  B     .S2  L
||      MPY   .M1X A2,B2,A6
||      MPYH  .M2X B2,A2,B6
        LDW   .D1  *A4++,A2
||      LDW   .D2  *B4++,B2
||[A1]  SUB   .S1  A1,1,A1
||[A1]  B     .S2  L
||      MPY   .M1X A2,B2,A6
||      MPYH  .M2X B2,A2,B6
L:      LDW   .D1  *A4++,A2
||      LDW   .D2  *B4++,B2
||[A1]  SUB   .S1  A1,1,A1
||[A1]  B     .S2  L
||      MPY   .M1X A2,B2,A6
||      MPYH  .M2X B2,A2,B6
||      ADD   .L1  A6,A7,A7
||      ADD   .L2  B6,B7,B7
        MPY   .M1X A2,B2,A6
||      MPYH  .M2X B2,A2,B6
||      ADD   .L1  A6,A7,A7
||      ADD   .L2  B6,B7,B7
        MPY   .M1X A2,B2,A6
||      MPYH  .M2X B2,A2,B6
||      ADD   .L1  A6,A7,A7
||      ADD   .L2  B6,B7,B7
        MPY   .M1X A2,B2,A6
||      MPYH  .M2X B2,A2,B6
||      ADD   .L1  A6,A7,A7
||      ADD   .L2  B6,B7,B7
        MPY   .M1X A2,B2,A6
||      MPYH  .M2X B2,A2,B6
||      ADD   .L1  A6,A7,A7
||      ADD   .L2  B6,B7,B7
        MPY   .M1X A2,B2,A6
||      MPYH  .M2X B2,A2,B6
||      ADD   .L1  A6,A7,A7
||      ADD   .L2  B6,B7,B7
        ADD   .L1  A6,A7,A7
||      ADD   .L2  B6,B7,B7
        ADD   .L1  A6,A7,A7
||      ADD   .L2  B6,B7,B7
        ADD   .L1X A7,B7,A4
