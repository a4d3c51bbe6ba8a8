; Bit reversal of each word of an array, in place: bit k goes to bit 31 - k.
;
; Takes:  A4 = array, words; A1 = number of words, at least 1
; Gives:  the reversed words in their places
; Leaves: A4 behind the array; B5 = the last word, reversed
; Source: swaps of neighbouring fields of 1, 2, 4, 8 and 16 bits

       MVKL   .S1    0x55555555,A8
       MVKH   .S1    0x55555555,A8
       MVKL   .S1    0x33333333,A9
       MVKH   .S1    0x33333333,A9
       MVKL   .S2    0x0F0F0F0F,B8
       MVKH   .S2    0x0F0F0F0F,B8
       MVKL   .S2    0x00FF00FF,B9
       MVKH   .S2    0x00FF00FF,B9
WORD:  LDW    .D1T1  *A4,A5
       SHRU   .S1    A5,1,A6        ; bits
       AND    .L1    A5,A8,A5
       AND    .L1    A6,A8,A6
       SHL    .S1    A5,1,A5
       OR     .L1    A5,A6,A5
       SHRU   .S1    A5,2,A6        ; pairs
       AND    .L1    A5,A9,A5
       AND    .L1    A6,A9,A6
       SHL    .S1    A5,2,A5
       OR     .L1    A5,A6,A5
       SHRU   .S2X   A5,4,B6        ; nibbles
       AND    .L2X   B8,A5,B5
       AND    .L2    B6,B8,B6
       SHL    .S2    B5,4,B5
       OR     .L2    B5,B6,B5
       SHRU   .S2    B5,8,B6        ; bytes
       AND    .L2    B5,B9,B5
       AND    .L2    B6,B9,B6
       SHL    .S2    B5,8,B5
       OR     .L2    B5,B6,B5
       SHRU   .S2    B5,16,B6       ; halves
       SHL    .S2    B5,16,B5
       OR     .L2    B5,B6,B5
       STW    .D1T2  B5,*A4++
       SUB    .D1    A1,1,A1
  [A1] B      .S2    WORD
       ZERO          A5
       ZERO          A6
       ZERO          B6
