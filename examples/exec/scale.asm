; Scales signed halfwords, one a cycle. The loop begins before there is anything to store: its store waits for B0, and the
; branches before it bring it round.
;
; Takes:  A4 = x; B5 = y; A1 = number of elements, at least 1, and 2 more; B6 = factor; eight halfwords can be read behind x
; Gives:  y[i] = x[i] * factor >> 15
; Leaves: B5 behind y; the registers of the last eight rounds hold what is behind x
; Source: the product by its definition; an element is loaded in one round, multiplied in the fifth behind it, shifted in the
;         seventh and stored in the eighth

        B     .S1  LOOP           ; rounds 0 to 4 lead to one more each
||      MVK   .S2  8,B0           ; rounds without a store
        B     .S1  LOOP
        B     .S1  LOOP
        B     .S1  LOOP
        B     .S1  LOOP
LOOP:   LDH   .D1T1 *A4++,A5
||      MPY   .M2X B6,A5,B7
||      SHR   .S2  B7,15,B8
||[!B0] STH   .D2T2 B8,*B5++
||[B0]  SUB   .L2  B0,1,B0
||[A1]  SUB   .L1  A1,1,A1
||[A1]  B     .S1  LOOP
