; Mixing of a ring of complex samples with itself, a step later, and the greatest real part so far.
; One block of 17 instructions, over and over; bench/runs counts what an instruction costs.
;
; Takes:  A1 = turns; A4, B4 = where in the ring to begin; A10, B10 = mask of the ring's addresses;
;         A8, B8 = where the last product goes

MIX:   LDW    .D1T1  *A4++,A5   ; a low, b high
       LDW    .D2T2  *B4++,B5   ; c low, d high
       AND    .L1    A4,A10,A4  ; around the ring
       AND    .L2    B4,B10,B4
       MPY    .M1X   A5,B5,A6   ; ac
       MPYH   .M1X   A5,B5,A7   ; bd
       MPYLH  .M2X   B5,A5,B6   ; bc
       MPYHL  .M2X   B5,A5,B7   ; ad
       SUB    .L1    A6,A7,A6
       ADD    .L2    B6,B7,B6
       SHR    .S1    A6,15,A6
       STH    .D1T1  A6,*A8
       STW    .D2T2  B6,*B8
       CMPGT  .L1    A6,A9,A2
  [A2] MV     .S1    A6,A9
       SUB    .D1    A1,1,A1
  [A1] B      .S2    MIX
