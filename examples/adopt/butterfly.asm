;******************************************************************************
;* Sums and differences of two vectors of pairs of halfwords, and the energy  *
;* of the sums' low and the differences' high halves                          *
;******************************************************************************
* A4 = x, B4 = y, words; A6 = how many; B6 = x + y, A8 = y - x, words. A turn stores what it loaded two turns before, so
* that two words in front of the results are cleared.
	.global _butterfly
	.sect	".text:_butterfly"
_butterfly:
           ZERO    .D2     B10               ; |9|
||         ZERO    .D1     A10               ; |9|
||         SUB     .L2X    A8,8,B7           ; |8|
||         SUB     .L1X    B6,8,A3           ; |7|
||         ZERO    .S2     B5                ; |10|
||         ADDK    .S1     3,A6              ; |6|
           ZERO    .S1     A5                ; |10|
||         MV      .L2X    A6,B0             ; |6|
||         ZERO    .S2     B9                ; |10|
||         ZERO    .L1     A9                ; |10|
           ZERO    .S2     B6                ; |10|
||         ZERO    .S1     A6                ; |10|
||         SUB     .D2     B0,1,B0           ; |6|
$C$L1:    ; PIPED LOOP KERNEL
           LDW     .D2T2   *B4++,B5          ; |13| <0,0>
|| [ B0]   SUB     .L2     B0,1,B0           ; |12| <0,0>
||         LDW     .D1T1   *A4++,A5          ; |13| <0,0>
|| [ B0]   B       .S1     $C$L1             ; |12| <0,0>
           NOP             2
           NOP
           STW     .D2T2   B6,*B7++          ; |15| <2,4>
||         MPYH    .M2     B6,B6,B9          ; |17| <2,4>
||         SUB2    .S2X    B5,A5,B6          ; |14| <1,4>
||         ADD     .L2     B10,B9,B10        ; |17| <3,4>
||         STW     .D1T1   A6,*A3++          ; |15| <2,4>
||         MPY     .M1     A6,A6,A9          ; |16| <2,4>
||         ADD2    .S1X    A5,B5,A6          ; |14| <1,4>
||         ADD     .L1     A10,A9,A10        ; |16| <3,4>
           NOP             1
           ; BRANCHCC OCCURS {$C$L1}         ; |12|
           RET     .S2     B3                ; |20|
||         ADD     .L1X    A10,B10,A4        ; |19|
           NOP             5
           ; BRANCH OCCURS {B3}              ; |20|
