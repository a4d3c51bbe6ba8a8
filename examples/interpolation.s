; Linear interpolation in a table of one period in 32 segments, as an oscillator reads its wave:
; y = t[i] + (t[i+1] - t[i]) * part, rounded down. The upper 5 bits of a phase are i, the lower 11 are the part.
;
; Takes:  A4 = phases, unsigned halfwords; A8 = table t, 33 signed halfwords, neighbours less than 32768 apart;
;         B4 = y, halfwords; A1 = number of phases, at least 1
; Gives:  y
; Leaves: A4, B4 behind the phases and y
; Source: the chord between two neighbours, with the part as an unsigned fraction

PHASE: LDHU   .D1T1  *A4++,A5
       EXTU   .S1    A5,16,27,A6   ; i
       EXTU   .S1    A5,21,16,A7   ; the part, as 16 bits
       LDH    .D1T1  *+A8[A6],A9
       ADD    .L1    A6,1,A6
       LDH    .D1T1  *+A8[A6],A10
       SUB    .L1    A10,A9,A10
       MPYSU  .M1    A10,A7,A10
       SHR    .S1    A10,16,A10
       ADD    .L1    A9,A10,A9
       STH    .D2T1  A9,*B4++
       SUB    .D1    A1,1,A1
  [A1] B      .S2    PHASE
