; FIR filter, Q15: y[n] = (sum of h[k] * x[n-k]) rounded to the nearest Q15 number, for k from 0 to taps - 1.
;
; Takes:  A4 = x, halfwords, with taps - 1 older samples before it; B4 = h, halfwords; A6 = y, halfwords;
;         A8 = taps, at least 1; B0 = number of outputs, at least 1
; Gives:  y
; Leaves: A4, A6 behind x and y
; Source: the convolution sum by its definition

OUTPUT: MV     .D1    A4,A5      ; x[n]
        MV     .D2    B4,B5      ; h[0]
        MV     .L1    A8,A1
        MVK    .S1    0x4000,A7  ; half of the last place
TAP:    LDH    .D1T1  *A5--,A9
        LDH    .D2T2  *B5++,B9
        MPY    .M1X   A9,B9,A10
        SUB    .S1    A1,1,A1
        ADD    .L1    A7,A10,A7
   [A1] B      .S1    TAP
        SHR    .S1    A7,15,A7
        STH    .D1T1  A7,*A6++
        ADDAH  .D1    A4,1,A4
        SUB    .L2    B0,1,B0
   [B0] B      .S2    OUTPUT
