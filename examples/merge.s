; Merges two sorted arrays into one. The lesser head comes next, and of two equal heads that of the first array.
;
; Takes:  A4, B4 = the arrays, signed halfwords, each with 32767 behind its last; A8 = target, halfwords;
;         A2 = number of halfwords of both arrays, at least 1
; Gives:  the merged array
; Leaves: A4, B4 behind what was taken; A8 behind the target
; Source: none is needed

NEXT:  LDH    .D1T1  *A4,A5
       LDH    .D2T2  *B4,B5
       CMPGT  .L1    A5,B5,A1     ; the second array has the lesser head
 [!A1] MV     .S1    A5,A6
  [A1] MV     .L1    B5,A6
 [!A1] ADDAH  .D1    A4,1,A4
  [A1] ADDAH  .D2    B4,1,B4
       STH    .D1T1  A6,*A8++
       SUB           A2,1,A2
  [A2] B             NEXT
