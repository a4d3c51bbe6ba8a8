; The greatest element of each of several frames of signed halfwords, and the first place where it stands.
; Side A looks at the even places, side B at the odd ones.
;
; Takes:  A4 = frames, one behind the other; A9 = elements of a frame, even, at least 2;
;         B1 = number of frames, at least 1; A10 = results
; Gives:  for each frame two halfwords: its greatest element and the index of it
; Leaves: A4 behind the frames; A10 behind the results
; Source: linear search, in two lanes that are joined at the end

FRAME: ADD    .L2X   2,A4,B4      ; the odd places
       SHRU   .S1    A9,1,A1
       MVK    .S1    -32768,A6    ; the greatest even one so far
       ZERO   .S1    A7           ; its index
       ZERO   .S1    A8           ; the index now
       MVK    .S2    -32768,B6    ; the same of the odd ones
       MVK    .S2    1,B7
       MVK    .S2    1,B8
PAIR:  LDH    .D1T1  *A4++[2],A5
       LDH    .D2T2  *B4++[2],B5
       CMPGT  .L1    A5,A6,A2
       CMPGT  .L2    B5,B6,B0
  [A2] MV            A5,A6
  [A2] MV            A8,A7
  [B0] MV            B5,B6
  [B0] MV            B8,B7
       ADDK   .S1    2,A8
       ADDK   .S2    2,B8
       SUB    .D1    A1,1,A1
  [A1] B      .S1    PAIR
       CMPGT  .L1X   B6,A6,A2     ; the odd lane wins by its value
       CMPEQ  .L1X   B6,A6,A1     ; or, where both are the same,
       CMPLTU .L1X   B7,A7,A3     ; by its place
       AND    .L1    A1,A3,A1
       OR     .L1    A1,A2,A2
  [A2] MV     .L1X   B6,A6
  [A2] MV     .L1X   B7,A7
       STH    .D1T1  A6,*A10++
       STH    .D1T1  A7,*A10++
       SUB    .L2    B1,1,B1
  [B1] B      .S2    FRAME
       ZERO          A1
       ZERO          A2
       ZERO          A3
       ZERO          B0
