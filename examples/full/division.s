; Quotients and remainders of pairs of unsigned words.
;
; Takes:  A4 = pairs, each a numerator and a denominator that isn't 0, words; B4 = results; A1 = number of pairs, at least 1
; Gives:  for each pair two words, its quotient, rounded down, and its remainder
; Leaves: A4, B4 behind the arrays; A6, A8 = the last quotient and remainder
; Source: digit by digit, from where the denominator stands as high as the numerator; the first digit by a comparison, since SUBC
;         may lose the top bit there, and each of the others by a SUBC, which puts it below the remainder

PAIR:  LDW    .D1T1  *A4++,A5    ; the numerator, and then what is left of it
       LDW    .D1T2  *A4++,B5    ; the denominator
       LMBD   .L1    1,A5,A7     ; bits above each
       LMBD   .L2    1,B5,B6
       SUB    .L2X   B6,A7,B0    ; digits behind the first
       CMPGT  .L2    0,B0,B1     ; none, where the numerator is shorter
  [B1] ZERO   .S2    B0
       MV     .L1X   B0,A7
       SHL    .S2    B5,B0,B5
       CMPLTU .L1X   A5,B5,A2    ; the first digit is 0
 [!A2] SUB    .L1X   A5,B5,A5
       XOR    .S1    1,A2,A6
       SHL    .S1    A6,A7,A6
       SHRU   .S2    B5,1,B5
STEPS: CMPGT  .L2    B0,7,B1     ; more than the seven digits of this turn
  [B0] SUBC   .L1X   A5,B5,A5
  [B0] SUB    .D2    B0,1,B0
  [B0] SUBC   .L1X   A5,B5,A5
  [B0] SUB    .D2    B0,1,B0
  [B0] SUBC   .L1X   A5,B5,A5
  [B0] SUB    .D2    B0,1,B0
  [B0] SUBC   .L1X   A5,B5,A5
  [B0] SUB    .D2    B0,1,B0
  [B0] SUBC   .L1X   A5,B5,A5
  [B0] SUB    .D2    B0,1,B0
  [B0] SUBC   .L1X   A5,B5,A5
  [B0] SUB    .D2    B0,1,B0
  [B0] SUBC   .L1X   A5,B5,A5
  [B0] SUB    .D2    B0,1,B0
  [B1] B      .S2    STEPS
       SHRU   .S1    A5,A7,A8    ; the remainder stands above the digits
       SHL    .S1    A8,A7,A9
       SUB    .L1    A5,A9,A5
       ADD    .L1    A6,A5,A6
       STW    .D2T1  A6,*B4++
       STW    .D2T1  A8,*B4++
       SUB    .D1    A1,1,A1
  [A1] B      .S2    PAIR
       ZERO          A2
       ZERO          A9
