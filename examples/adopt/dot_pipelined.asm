* The packets of ../dot_pipelined.s, by hand for the TI assembler: seven cycles for four elements. The loads of a turn
* overwrite what its multiplies read in the cycles before they land.
        .sect   ".text"
           LDW     .D2T2   *B4++,B5          ; y[0], y[1]
||         LDW     .D1T1   *A4++,A5          ; x[0], x[1]
||         ZERO    .S2     B6                ; sum of the odd products
||         SHRU    .S1     A1,2,A1
           LDW     .D2T2   *B4++,B8          ; y[2], y[3]
||         LDW     .D1T1   *A4++,A8          ; x[2], x[3]
||         ZERO    .S1     A6                ; sum of the even products
||         SUB     .L1     A1,1,A1           ; turns but the last
           NOP             4
*----------------------------------------------------------------------------*
QUAD:
           MPYH    .M2     B5,A5,B7          ; x[i+1] * y[i+1]
||         MPY     .M1     A5,B5,A7          ; x[i] * y[i]
||         LDW     .D2     *B4++(4),B5       ; for the next turn
||         LDW     .D1     *A4++(4),A5
||         SUB     .S1     A1,1,A1
           MPYH    .M2     B8,A8,B9          ; x[i+3] * y[i+3]
||         MPY     .M1     A8,B8,A9          ; x[i+2] * y[i+2]
||         LDW     .D2     *B4++(4),B8
||         LDW     .D1     *A4++(4),A8
|| [ A1]   B       .S2     QUAD
           ADD     .L1     A6,A7,A6
||         ADD     .L2     B6,B7,B6
           ADD     .L2     B6,B9,B6
||         ADD     .L1     A6,A9,A6
||         NOP             4
*----------------------------------------------------------------------------*
           MPY     .M1X    A5,B5,A7          ; the last turn
||         MPYH    .M2X    B5,A5,B7
           MPYH    .M2X    B8,A8,B9
||         MPY     .M1X    A8,B8,A9
           ADD     .L1     A6,A7,A6
||         ADD     .L2     B6,B7,B6
           ADD     .L1     A6,A9,A6
||         ADD     .L2     B6,B9,B6
           ADD     .L1X    A6,B6,A6
