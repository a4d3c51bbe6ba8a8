; Greatest common divisor, as a routine that is called and returns.
;
; Takes:  A4, A5 = numbers, at least 1; B3 = return address
; Gives:  A4 and A5 = their greatest common divisor
; Leaves: A1 = 1; A2 = 1 where A5 was lessened last
; Source: Euclid's algorithm by subtraction

GCD:   CMPEQ  A4,A5,A1
  [A1] B      DONE
       CMPLT  A4,A5,A2      ; the greater one is lessened
  [A2] SUB    A5,A4,A5
 [!A2] SUB    A4,A5,A4
       B      GCD
DONE:  B      B3
