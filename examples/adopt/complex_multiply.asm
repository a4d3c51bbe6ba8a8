* z[i] = x[i] * y[i], complex numbers, Q15, rounded down, for the TI assembler
*
* A4 = x, B4 = y, A3 = z, words with the real part low; A6 = how many, at least 1
        .SECT   ".text"
        .DEF    _cmul
_cmul:     MV      .S2X    A6,B0             ; |4|
$C$L1:
           LDW     .D2T2   *B4++,B5          ; |8|
||         LDW     .D1T1   *A4++,A5          ; |7|
           NOP             1
           NOP
           NOP                               ; a NOP may be the first of its packet
||         SUB     .L2     B0,1,B0           ; |6|
           NOP             1
           MPYH    .M2     A5,B5,B6          ; |9| im * im
||         MPY     .M1     A5,B5,A6          ; |9| re * re
           MPYHL   .M2X    A5,B5,B7          ; |10| im * re
||         MPYLH   .M1     A5,B5,A7          ; |10| re * im
   [ B0]   B       .S2     $C$L1             ; |6|
           ADD     .L2     A7,B7,B7          ; |10|
||         SUB     .L1     A6,B6,A6          ; |9|
           EXTU    .S1     A6,1,16,A6        ; |11|
||         EXTU    .S2     B7,1,16,B7        ; |12|
           SHL     .S2     B7,16,B7          ; |12|
           OR      .L1     A6,B7,A6          ; |12|
           STW     .D1T1   A6,*A3++          ; |13|
           ; BRANCHCC OCCURS {$C$L1}         ; |6|
           B       .S2     B3                ; |15|
           NOP             5
