; Moving average over w = 2^s samples, rounded to the nearest, halves upwards:
; y[n] = (x[n] + x[n+1] + .. + x[n+w-1] + w/2) >> s.
;
; Takes:  A4 = x, signed halfwords; B4 = y, halfwords; A9 = s, 1 to 14; A1 = number of outputs, at least 1
; Gives:  y
; Leaves: A4, B4 behind x and y
; Source: a running sum; the newest sample joins it, the oldest leaves

       MVK           1,A3
       SHL           A3,A9,A3     ; w
       SHRU          A3,1,A6      ; the sum begins with w/2
       SUB           A3,1,A2
FILL:  LDH    .D1T1  *A4++,A5
       SUB           A2,1,A2
       ADD           A6,A5,A6
  [A2] B             FILL
SLIDE: LDH    .D1T1  *A4++,A5     ; the newest
       ADD           A6,A5,A6
       SHR           A6,A9,A7
       STH    .D2T1  A7,*B4++
       LDH    .D1T1  *-A4[A3],A8  ; the oldest
       SUB           A6,A8,A6
       SUB           A1,1,A1
  [A1] B             SLIDE
