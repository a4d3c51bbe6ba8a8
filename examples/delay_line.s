; A filter of four taps that keeps its newest samples in memory and moves them by one place for each new one:
; y[n] = (h[0] x[n] + h[1] x[n-1] + h[2] x[n-2] + h[3] x[n-3] + 2^14) >> 15.
;
; Takes:  A4 = x and B4 = y, signed halfwords; A6 = the newest three samples, the newest first, and behind them h[0] to
;         h[3], signed halfwords; A1 = number of samples, at least 1
; Gives:  y, and the newest three samples
; Leaves: A4, B4 behind x and y
; Source: the definition of the filter

        MVK    .S1    0x4000,A3
SAMPLE: LDH    .D1T1  *A4++,A5     ; x[n]
        LDH    .D1T1  *+A6[2],A9   ; x[n-3]
        LDH    .D1T1  *+A6[1],A8   ; x[n-2]
        STH    .D1T1  A8,*+A6[2]
        LDH    .D1T1  *A6,A7       ; x[n-1]
        STH    .D1T1  A7,*+A6[1]
        STH    .D1T1  A5,*A6
        LDH    .D1T1  *+A6[3],A10
        LDH    .D1T1  *+A6[4],A11
        LDH    .D1T1  *+A6[5],A12
        LDH    .D1T1  *+A6[6],A13
        MPY           A5,A10,A10
        MPY           A7,A11,A11
        MPY           A8,A12,A12
        MPY           A9,A13,A13
        ADD           A10,A11,A11
        ADD           A12,A13,A13
        ADD           A3,A11,A11
        ADD           A11,A13,A13
        SHR           A13,15,A13
        STH    .D2T1  A13,*B4++
        SUB           A1,1,A1
   [A1] B             SAMPLE
