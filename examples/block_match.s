; Motion search: where 8 pixels of one line of an image fit best into another line, by the least sum of absolute
; differences.
;
; Takes:  A4 = the 8 pixels, B4 = the line that is searched, unsigned bytes; B1 = number of places, at least 1
; Gives:  A6 = the least sum; A7 = its first place
; Leaves: B4 at the first place that was not tried
; Source: full search by the definition

       MVK           -1,A6        ; the greatest unsigned word
       ZERO          A8           ; place now
PLACE: MV     .D1    A4,A5
       MV     .D2    B4,B5
       ZERO   .S1    A9
       MVK    .S1    8,A1
PIXEL: LDBU   .D1T1  *A5++,A10
       LDBU   .D2T2  *B5++,B10
       SUB    .L1X   A10,B10,A11
       ABS    .L1    A11,A11
       SUB    .S1    A1,1,A1
       ADD    .D1    A9,A11,A9
  [A1] B      .S1    PIXEL
       CMPGTU .L1    A6,A9,A2     ; this place is better
  [A2] MV            A9,A6
  [A2] MV            A8,A7
       ADDK   .S1    1,A8
       ADDAB  .D2    B4,1,B4
       SUB    .L2    B1,1,B1
  [B1] B      .S2    PLACE
       ZERO          A2
