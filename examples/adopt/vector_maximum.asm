* The greatest of n words, by hand for the TI assembler
*
* A4 = words, B4 = n, at least 1; gives A4
        .global _vecmax
        .sect   .text
_vecmax:
        MVKL    .S1     0x80000000,A3   ; the least word
||      MV      .L2     B4,B0
        MVKH    .S1     0x80000000,A3
LOOP:   LDW     .D1     *A4++,A5
||      SUB     .S2     B0,1,B0
        NOP     4
        CMPGT   .L1     A5,A3,A1
||[B0]  B       .S1     LOOP
  [A1]  MV      .L1     A5,A3
        NOP     4
        B       .S2     B3
||      MV      .L1     A3,A4
        NOP
        NOP     4
