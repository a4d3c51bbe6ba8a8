; Products of two arrays of complex numbers, Q15, rounded down: z[i] = x[i] * y[i].
; A number is a word: the real part is the low half, the imaginary part the high half.
;
; Takes:  A4 = x, B4 = y and A8 = z, words; A1 = number of products, at least 1
; Gives:  z
; Leaves: A4, B4, A8 behind the arrays
; Source: (a + bi)(c + di) = (ac - bd) + (ad + bc)i

NUMBER: LDW    .D1T1  *A4++,A5    ; a low, b high
        LDW    .D2T2  *B4++,B5    ; c low, d high
        MPY    .M1X   A5,B5,A6    ; ac
        MPYH   .M1X   A5,B5,A7    ; bd
        MPYLH  .M2X   B5,A5,B6    ; bc
        MPYHL  .M2X   B5,A5,B7    ; ad
        SUB    .L1    A6,A7,A6
        ADD    .L2    B6,B7,B6
        EXTU   .S1    A6,1,16,A6  ; bits 15 to 30 into the low half
        SHR    .S2    B6,15,B6
        SHL    .S2    B6,16,B6    ; bits 15 to 30 into the high half
        OR     .L1X   A6,B6,A6
        STW    .D1T1  A6,*A8++
        SUB    .D1    A1,1,A1
   [A1] B      .S1    NUMBER
