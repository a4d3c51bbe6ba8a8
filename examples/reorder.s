; Reordering of 2^m words for a fast Fourier transform, in place: two words change places where their indices are each
; other's bit reversal.
;
; Takes:  A4 = words; A8 = number of words, a power of two, at least 4
; Gives:  the words in bit-reversed order
; Source: Gold and Rader's counter that carries from left to right

       SHRU          A8,1,A9    ; the leftmost bit of an index
       ZERO          A6         ; i
       MV            A9,A7      ; j, the reversal of the next i
       SUB           A8,2,B0    ; the first and the last index stay
NEXT:  ADD           A6,1,A6
       CMPLTU        A6,A7,A2   ; each two change places once
       ADDAW  .D1    A4,A6,A10
       ADDAW  .D1    A4,A7,A11
  [A2] LDW    .D1T1  *A10,A12
  [A2] LDW    .D1T2  *A11,B12
  [A2] STW    .D1T2  B12,*A10
  [A2] STW    .D1T1  A12,*A11
       MV            A9,A1
CARRY: AND           A7,A1,A2   ; a 1 becomes 0 and carries to the right
       XOR           A7,A1,A7
       SHRU          A1,1,A1
  [A2] B             CARRY
       SUB           B0,1,B0
  [B0] B             NEXT
       ZERO          A12
       ZERO          B12
