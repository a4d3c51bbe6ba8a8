*  z[i] = x[i] + y[i], held in -32768 to 32767, for the TI assembler
*
*  A4 = x, B4 = y, A3 = z, halfwords; A6 = how many, at least 1
        .def    _satadd
        .sect   ".text:_satadd"
_satadd:   MVK     .S2     -32768,B8
||         MVK     .S1     32767,A8
||         MV      .L2X    A6,B0             ; |5|
$C$L1:
           LDH     .D1T1   *A4++,A5          ; |7|
||         LDH     .D2T2   *B4++,B6          ; |7|
           NOP             4
           ADD     .L1X    A5,B6,A5          ; |7|
           CMPLT   .L2X    A5,B8,B1          ; |9| A5 below -32768
||         CMPGT   .L1     A5,A8,A1          ; |8|
||         SUB     .D2     B0,1,B0           ; |6|
   [ B0]   B       .S2     $C$L1             ; |6|
|| [ A1]   MV      .L1     A8,A5             ; |8|
   [ B1]   MV      .L1X    B8,A5             ; |9|
           STH     .D1T1   A5,*A3++          ; |10|
           NOP             3
           ; BRANCHCC OCCURS {$C$L1}         ; |6|
           RET     .S2     B3                ; |12|
           NOP             5
           ; BRANCH OCCURS {B3}              ; |12|
