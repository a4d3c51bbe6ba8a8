; Products of two vectors of words, 64 bits each: the low word, which is the same for signed and unsigned numbers, and the high
; word for both. Side A takes the words as unsigned, side B as signed.
;
; Takes:  A4 = x, B4 = y and A12 = z, words; A1 = number of products, at least 1
; Gives:  for each product three words: the low one, the high one of unsigned and that of signed numbers
; Leaves: A4, B4, A12 behind the vectors; A10, A9 and B8 = the last three words
; Source: long multiplication by halves; unsigned with the carries of two sums, signed with sums that can't overflow

WORD:  LDW     .D1T1  *A4++,A5
       LDW     .D2T2  *B4++,B5
       MPYU    .M1X   A5,B5,A6     ; both low halves
       MPYLHU  .M1X   A5,B5,A7     ; the two in the middle
       MPYHLU  .M1X   A5,B5,A8
       MPYHU   .M1X   A5,B5,A9     ; both high halves
       ADD     .L1    A7,A8,A8
       CMPLTU  .L1    A8,A7,A7     ; a carry from the middle
       SHL     .S1    A8,16,A10
       ADD     .L1    A6,A10,A10
       CMPLTU  .L1    A10,A6,A11   ; a carry from the low word
       SHRU    .S1    A8,16,A8
       SHL     .S1    A7,16,A7
       ADD     .L1    A9,A11,A9
       ADD     .S1    A8,A7,A8
       ADD     .L1    A9,A8,A9
       MPYHSLU .M2X   B5,A5,B6     ; the two in the middle, the high half signed
       MPYLUHS .M2X   B5,A5,B7
       MPYH    .M2X   B5,A5,B8     ; both high halves
       SHRU    .S2X   A6,16,B9     ; what of the low halves reaches the middle
       ADD     .L2    B6,B9,B6
       EXTU    .S2    B6,16,16,B9
       ADD     .L2    B7,B9,B7
       SHR     .S2    B6,16,B6
       SHR     .S2    B7,16,B7
       ADD     .L2    B8,B6,B8
       ADD     .L2    B8,B7,B8
       STW     .D1T1  A10,*A12++
       STW     .D1T1  A9,*A12++
       STW     .D1T2  B8,*A12++
       SUB     .S1    A1,1,A1
  [A1] B       .S1    WORD
