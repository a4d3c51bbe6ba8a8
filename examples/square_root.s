; Square roots of an array of unsigned words, rounded down.
;
; Takes:  A4 = words; B4 = roots, halfwords; A1 = number of words, at least 1
; Gives:  the roots
; Leaves: A4, B4 behind the arrays; B6 = the last root; B5 = the last word less the square of its root
; Source: digit by digit, two bits of the word for one bit of the root

WORD:  LDW    .D1T2  *A4++,B5       ; what is left of the word
       ZERO   .S2    B6             ; the root, shifted left by what is to come
       ZERO   .S2    B1
       MVKH   .S2    0x40000000,B1  ; the place of the digit
DIGIT: ADD    .L2    B6,B1,B7
       CMPLTU .L2    B5,B7,B0       ; the digit is 0
       SHRU   .S2    B6,1,B6
 [!B0] SUB    .L2    B5,B7,B5
 [!B0] ADD    .D2    B6,B1,B6
       SHRU   .S2    B1,2,B1
  [B1] B      .S2    DIGIT
       STH    .D2T2  B6,*B4++
       SUB    .D1    A1,1,A1
  [A1] B      .S1    WORD
       ZERO          B0
       ZERO          B7
