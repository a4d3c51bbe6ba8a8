; Autocorrelation: r[k] = sum of x[i] * x[i+k], for i from 0 to n - 1 - k.
;
; Takes:  A4 = x, signed halfwords; A8 = n; B4 = r, words; B0 = number of lags, 1 to n
; Gives:  r[0] up to the last lag
; Leaves: B4 behind r
; Source: the definition, with x taken as 0 outside

         MV     .L2X   A4,B6      ; x[k]
LAG:     MV     .D1    A4,A5      ; x[i]
         MV     .D2    B6,B5      ; x[i+k]
         MV     .L1    A8,A1      ; products of this lag
         ZERO   .S1    A7
PRODUCT: LDH    .D1T1  *A5++,A9
         LDH    .D2T2  *B5++,B9
         MPY    .M1X   A9,B9,A10
         SUB    .S1    A1,1,A1
         ADD    .L1    A7,A10,A7
    [A1] B      .S2    PRODUCT
         STW    .D2T1  A7,*B4++
         ADDAH  .D2    B6,1,B6
         SUB    .L1    A8,1,A8
         SUB    .L2    B0,1,B0
    [B0] B      .S2    LAG
