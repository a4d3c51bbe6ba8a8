; A copy of words that runs over the end of memory: the loads there fault and give 0.
;
; Takes:  A4 = source, B4 = target, words; A1 = number of words, at least 1
; Gives:  the copy
; Leaves: A4, B4 behind source and target
; Source: none is needed

WORD:  LDW    .D1T1  *A4++,A5
       STW    .D2T1  A5,*B4++
       SUB           A1,1,A1
  [A1] B             WORD
