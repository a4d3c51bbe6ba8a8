; Dot product of two vectors of signed halfwords, a pair of elements a cycle: six branches are in flight in the loop.
;
; Takes:  A4 = x and B4 = y, word-aligned; A1 = number of pairs, at least 8; B3 = where it returns to
; Gives:  A4 = sum of x[i] * y[i]
; Leaves: B4 behind its vector
; Source: the inner product by its definition, two sums at once; each pair is loaded in one cycle, multiplied five
;         cycles later, and added two behind that

        ADDK  .S1  -6,A1          ; rounds of the loop, and one
||      ZERO  .L1  A7             ; sum of the even products
||      ZERO  .L2  B7             ; sum of the odd products
        LDW   .D1  *A4++,A2       ; pair 0
||      LDW   .D2  *B4++,B2
||[A1]  SUB   .S1  A1,1,A1
        LDW   .D1  *A4++,A2       ; pair 1
||      LDW   .D2  *B4++,B2
||[A1]  SUB   .S1  A1,1,A1
||[A1]  B     .S2  LOOP
        LDW   .D1  *A4++,A2       ; pair 2
||      LDW   .D2  *B4++,B2
||[A1]  SUB   .S1  A1,1,A1
||[A1]  B     .S2  LOOP
        LDW   .D1  *A4++,A2       ; pair 3
||      LDW   .D2  *B4++,B2
||[A1]  SUB   .S1  A1,1,A1
||[A1]  B     .S2  LOOP
        LDW   .D1  *A4++,A2       ; pair 4
||      LDW   .D2  *B4++,B2
||[A1]  SUB   .S1  A1,1,A1
||[A1]  B     .S2  LOOP
        LDW   .D1  *A4++,A2       ; pair 5
||      LDW   .D2  *B4++,B2
||[A1]  SUB   .S1  A1,1,A1
||[A1]  B     .S2  LOOP
||      MPY   .M1X A2,B2,A6       ; pair 0
||      MPYH  .M2X B2,A2,B6
        LDW   .D1  *A4++,A2       ; pair 6
||      LDW   .D2  *B4++,B2
||[A1]  SUB   .S1  A1,1,A1
||[A1]  B     .S2  LOOP
||      MPY   .M1X A2,B2,A6       ; pair 1
||      MPYH  .M2X B2,A2,B6
LOOP:   LDW   .D1  *A4++,A2
||      LDW   .D2  *B4++,B2
||[A1]  SUB   .S1  A1,1,A1
||[A1]  B     .S2  LOOP
||      MPY   .M1X A2,B2,A6
||      MPYH  .M2X B2,A2,B6
||      ADD   .L1  A6,A7,A7
||      ADD   .L2  B6,B7,B7
        MPY   .M1X A2,B2,A6       ; the last pairs
||      MPYH  .M2X B2,A2,B6
||      ADD   .L1  A6,A7,A7
||      ADD   .L2  B6,B7,B7
        MPY   .M1X A2,B2,A6
||      MPYH  .M2X B2,A2,B6
||      ADD   .L1  A6,A7,A7
||      ADD   .L2  B6,B7,B7
        MPY   .M1X A2,B2,A6
||      MPYH  .M2X B2,A2,B6
||      ADD   .L1  A6,A7,A7
||      ADD   .L2  B6,B7,B7
||      B     .S2  B3             ; takes effect behind the last sum
        MPY   .M1X A2,B2,A6
||      MPYH  .M2X B2,A2,B6
||      ADD   .L1  A6,A7,A7
||      ADD   .L2  B6,B7,B7
        MPY   .M1X A2,B2,A6
||      MPYH  .M2X B2,A2,B6
||      ADD   .L1  A6,A7,A7
||      ADD   .L2  B6,B7,B7
        ADD   .L1  A6,A7,A7
||      ADD   .L2  B6,B7,B7
        ADD   .L1  A6,A7,A7
||      ADD   .L2  B6,B7,B7
        ADD   .L1X A7,B7,A4
