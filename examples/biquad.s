; IIR biquad, direct form I, Q15:
; y[n] = (b0 * x[n] + b1 * x[n-1] + b2 * x[n-2] - a1 * y[n-1] - a2 * y[n-2]) >> 15, rounded down.
;
; Takes:  A4 = x and B4 = y, halfwords; A6 = b0, b1, b2, 0, a1, a2, halfwords, word-aligned;
;         B6 = x[-1], x[-2], y[-1], y[-2], halfwords; A1 = number of samples, at least 1
; Gives:  y; the last two inputs and outputs where B6 points
; Leaves: A4, B4 behind x and y
; Source: the difference equation of the second order section, its products not rounded before the sum

        LDW    .D1T1  *A6,A8       ; b0 low, b1 high
        LDH    .D1T1  *+A6[2],A9   ; b2
        LDW    .D1T2  *+A6[2],B8   ; a1 low, a2 high
        LDH    .D2T1  *B6,A10      ; x[n-1]
        LDH    .D2T1  *+B6[1],A11  ; x[n-2]
        LDH    .D2T2  *+B6[2],B10  ; y[n-1]
        LDH    .D2T2  *+B6[3],B11  ; y[n-2]
SAMPLE: LDH    .D1T1  *A4++,A5     ; x[n]
        MPY    .M2    B8,B10,B12   ; a1 * y[n-1]
        MPYHL  .M2    B8,B11,B13   ; a2 * y[n-2]
        MPYHL  .M1    A8,A10,A13   ; b1 * x[n-1]
        MPY    .M1    A9,A11,A14   ; b2 * x[n-2]
        MPY    .M1    A8,A5,A12    ; b0 * x[n]
        ADD    .L2    B12,B13,B12  ; what comes back
        ADD    .L1    A13,A14,A13
        ADD    .L1    A12,A13,A12  ; what goes forward
        SUB    .L2X   A12,B12,B12
        MV     .D1    A10,A11
        MV     .D1    A5,A10
        MV     .D2    B10,B11
        SHR    .S2    B12,15,B10   ; y[n]
        STH    .D2T2  B10,*B4++
        SUB    .S1    A1,1,A1
   [A1] B      .S1    SAMPLE
        STH    .D2T1  A10,*B6
        STH    .D2T1  A11,*+B6[1]
        STH    .D2T2  B10,*+B6[2]
        STH    .D2T2  B11,*+B6[3]
