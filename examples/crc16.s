; CRC-16 of a message, with the polynomial x^16 + x^12 + x^5 + 1, started with ones (CCITT).
;
; Takes:  A4 = message, bytes; B0 = number of bytes, at least 1
; Gives:  A6 = CRC; it is appended to the message too, high byte first
; Leaves: A4 behind the message and its CRC
; Source: polynomial division, a bit a turn; for "123456789" it gives 29B1

       MVKL   0xFFFF0000,A6  ; the CRC stands in the high half
       MVKH   0xFFFF0000,A6
       MVKL   0x10210000,A7  ; the polynomial
       MVKH   0x10210000,A7
BYTE:  LDBU   *A4++,A5
       SHL    A5,24,A5
       XOR    A6,A5,A6
       MVK    8,A1
BIT:   CMPLT  A6,0,A2        ; whether a 1 leaves on the left
       ADD    A6,A6,A6
  [A2] XOR    A6,A7,A6
       SUB    A1,1,A1
  [A1] B      BIT
       SUB    B0,1,B0
  [B0] B      BYTE
       SHRU   A6,16,A6
       SHRU   A6,8,A5
       STB    A5,*A4++
       STB    A6,*A4++
       ZERO   A2
