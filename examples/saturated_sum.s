; Sum of two vectors of signed halfwords, two elements a turn. What doesn't fit becomes the nearest number that does.
;
; Takes:  A4 = x, B4 = y and A10 = z, word-aligned; A1 = number of elements, even, at least 2
; Gives:  z[i] = x[i] + y[i], held in -32768 to 32767
; Leaves: A4, B4, A10 behind the vectors
; Source: sums of 32 bits, compared with both bounds

       SHRU          A1,1,A1
       MVK    .S1    32767,A8
       MVK    .S1    -32768,A9
       MVK    .S2    32767,B8
       MVK    .S2    -32768,B9
PAIR:  LDW    .D1T1  *A4++,A5
       LDW    .D2T2  *B4++,B5
       EXT    .S1    A5,16,16,A6  ; low halves on side A
       EXT    .S2    B5,16,16,B6
       SHR    .S1    A5,16,A7     ; high halves on side B
       SHR    .S2    B5,16,B7
       ADD    .L1X   A6,B6,A6
       ADD    .L2X   B7,A7,B7
       CMPGT  .L1    A6,A8,A2
  [A2] MV            A8,A6
       CMPLT  .L1    A6,A9,A2
  [A2] MV            A9,A6
       CMPGT  .L2    B7,B8,B0
  [B0] MV            B8,B7
       CMPLT  .L2    B7,B9,B0
  [B0] MV            B9,B7
       EXTU   .S1    A6,16,16,A6
       SHL    .S2    B7,16,B7
       OR     .L1X   A6,B7,A6
       STW    .D1T1  A6,*A10++
       SUB    .D1    A1,1,A1
  [A1] B      .S1    PAIR
       ZERO          A2
       ZERO          B0
