; FIR filter of saturating steps, as speech coders specify theirs: y[n] = (sum of h[k] * x[n-k]) rounded to the nearest Q15
; number, for k from 0 to taps - 1. Each product and each sum that doesn't fit a word becomes the nearest number that does.
;
; Takes:  A4 = x, halfwords, Q15, with taps - 1 older samples before it; B4 = h, halfwords, Q12; A6 = y, halfwords;
;         A8 = taps, at least 1; B0 = number of outputs, at least 1
; Gives:  y
; Leaves: A4, A6 behind x and y; A3 = half of the last place
; Source: the convolution sum by its definition, from h[0] on, in steps of ETSI's basic operators: L_mac, L_shl, round

        ZERO   .S1    A3
        SET    .S1    A3,15,15,A3
OUTPUT: MV     .D1    A4,A5      ; x[n]
        MV     .D2    B4,B5      ; h[0]
        MV     .L1    A8,A1
        ZERO   .S1    A7
TAP:    LDH    .D1T1  *A5--,A9
        LDH    .D2T2  *B5++,B9
        SMPY   .M1X   A9,B9,A10
        SUB    .S1    A1,1,A1
        SADD   .L1    A7,A10,A7
   [A1] B      .S1    TAP
        SSHL   .S1    A7,3,A7    ; from Q28 to Q31
        SADD   .L1    A7,A3,A7
        SHR    .S1    A7,16,A7
        STH    .D1T1  A7,*A6++
        ADDAH  .D1    A4,1,A4
        SUB    .L2    B0,1,B0
   [B0] B      .S2    OUTPUT
