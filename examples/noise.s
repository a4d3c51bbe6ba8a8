; Noise of 16 bits, without an end.
;
; Takes:  A4 = seed, not 0; A5 = taps
; Gives:  A4 = the next word, turn by turn
; Leaves: A1 = the bit that left on the right
; Source: a linear feedback shift register in Galois form; x^16 + x^14 + x^13 + x^11 + 1 has the taps B400

NOISE: AND    1,A4,A1
       SHRU   A4,1,A4
  [A1] XOR    A4,A5,A4
       B      NOISE
