; A gain for an array of unsigned words: y[i] = x[i] * g / 65536, rounded down.
;
; Takes:  A4 = x and B4 = y, words; A6 = g, 0 to 65535; A1 = number of words, at least 1
; Gives:  y
; Leaves: A4, B4 behind x and y; A6 = g in both halves
; Source: long multiplication by halves

       SHL    .S1    A6,16,A7
       OR     .L1    A6,A7,A6
WORD:  LDW    .D1T1  *A4++,A5
       MPYU   .M1    A5,A6,A7  ; low half times g
       MPYHU  .M1    A5,A6,A8  ; high half times g
       SHRU   .S1    A7,16,A7
       ADD    .L1    A7,A8,A8
       STW    .D2T1  A8,*B4++
       SUB    .D1    A1,1,A1
  [A1] B      .S2    WORD
