; One row of an image through a mask of 3 by 3: the sum of pixel times mask, shifted right by s, held in 0 to 255.
;
; Takes:  A4 = first of three rows of pixels, unsigned bytes; A6 = length of a row; B4 = mask, 9 signed bytes;
;         A9 = s; B6 = output, bytes; B0 = number of outputs, 1 to the row's length less 2
; Gives:  the output
; Leaves: A4 at the first column that was not reached; B6 behind the output
; Source: the sum by its definition, the mask not turned

       MVK    .S1    255,A10
PIXEL: MV     .D1    A4,A5
       MV     .D2    B4,B5
       ZERO   .S1    A7
       MVK    .S1    3,A1
ROW:   LDBU   .D1T1  *A5,A11
       LDBU   .D1T1  *+A5[1],A12
       LDBU   .D1T1  *+A5[2],A13
       LDB    .D2T2  *B5++,B11
       LDB    .D2T2  *B5++,B12
       LDB    .D2T2  *B5++,B13
       MPYUS  .M1X   A11,B11,A11
       MPYUS  .M1X   A12,B12,A12
       MPYUS  .M1X   A13,B13,A13
       ADDAB  .D1    A5,A6,A5
       ADD    .L1    A7,A11,A7
       ADD    .L1    A7,A12,A7
       ADD    .L1    A7,A13,A7
       SUB    .S1    A1,1,A1
  [A1] B      .S1    ROW
       SHR    .S1    A7,A9,A7
       CMPLT  .L1    A7,0,A2
  [A2] ZERO          A7
       CMPGT  .L1    A7,A10,A2
  [A2] MV            A10,A7
       STB    .D2T1  A7,*B6++
       ADD    .D1    A4,1,A4
       SUB    .L2    B0,1,B0
  [B0] B      .S2    PIXEL
       ZERO          A2
