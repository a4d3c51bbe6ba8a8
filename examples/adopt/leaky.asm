* A leaky rectifier in place, Q15: x stays where it isn't negative, and is multiplied by a slope where it is. Product and
* shift land in one cycle, under opposite conditions.
*
* A4 = halfwords; A6 = how many, at least 1; A7 = slope
        .sect   ".text:rectifiers:_leaky"
        .global _leaky
_leaky:
           MV      .L2     A6,B0
$C$L1:
           LDH     .D1     *A4,A5            ; |7|
||         SUB     .S2     B0,1,B0           ; |6|
           NOP             4
           CMPLT   .L1     A5,0,A1           ; |8|
   [ B0]   B       .S2     $C$L1             ; |6|
|| [ A1]   MPY     .M1     A5,A7,A6          ; |8|
   [!A1]   SHL     .S1     A5,0xF,A6         ; |8|
           SHR     .S1     A6,15,A6          ; |9|
           STH     .D1     A6,*A4++(2)       ; |9|
           NOP             2
           RET     .S2     B3                ; |11|
||         NOP             6
