* Each way in which an instruction may be written that a listing spells in another, for either assembler
        .text
* what is read as another operation
_moved: MV      .L1     A1,A2
        MV      .S1X    B1,A2
        MV      .L2     A1,B2
        MV      .D2     B1,B2
        NEG     .L1     A1,A2
        NEG     .S2     A1,B2
        NOT     .L1     B1,A2
        NOT     .S2     B1,B2
        ZERO    .S1     A2
        ZERO    .L2     B2
        ZERO    .D1     A2
        MVKL    .S1     0x12348765,A2
        MVKH    .S1     0x12348765,A2
        MVKLH   .S2     0x12348765,B2
        MVK     .S2     -0,B2
        MVK     .S1     +0x10,A2
* constants second, and first on .D
_constants:
        ADD     .L1     A1,5,A2
        ADD     .S2     A1,-5,B2
        ADD     .D1     5,A1,A2
        ADD     .D2     31,B1,B2
        AND     .L1     A1,0xF,A2
        OR      .S1     A1,1,A2
        XOR     .L2     B1,-1,B2
        CMPEQ   .L1     B1,7,A2
        CMPGT   .L1     A1,7,A2
        CMPLT   .L2     A1,-16,B2
        MPY     .M1     A1,15,A3
        SUB     .L1     A1,5,A2
        SUB     .S2     5,B1,B2
        SUB     .D1     A1,31,A2
* crossed registers first
_crossed:
        ADD     .L1     B1,A1,A2
        ADD     .S2X    A1,B1,B2
        AND     .S1     B1,A1,A2
        OR      .L2     A1,B1,B2
        XOR     .L1X    B1,A1,A2
        ADD2    .S1     B1,A1,A2
        CMPEQ   .L2     A1,B1,B2
        CMPGT   .L1     B1,A1,A2
        CMPLT   .L1     B1,A1,A2
        CMPGTU  .L2     A1,B1,B2
        CMPLTU  .L2     A1,B1,B2
        MPY     .M1     B1,A1,A4
        MPYU    .M1     B1,A1,A5
        MPYH    .M2     A1,B1,B4
        MPYHU   .M2     A1,B1,B5
        MPYHL   .M1     B1,A1,A6
        MPYLH   .M1     B1,A1,A7
        MPYUS   .M2     A1,B1,B6
        MPYSU   .M2X    A1,B1,B7
        SUB     .L1     B1,A1,A2
        SUB     .S1     A1,B1,A2
        SUB2    .S1     A1,B1,A2
* X left out
_shifted:
        SHL     .S1     B1,3,A2
        SHR     .S1     B1,A1,A2
        SHRU    .S2     B1,31,B2
        EXT     .S1     A1,0x10,0x18,A2
        EXTU    .S2     B1,0,31,B2
        ABS     .L1     B1,A2
        ADDK    .S1     -0x8000,A2
        ADDAB   .D1     A1,A2,A3
        ADDAH   .D2     B1,31,B2
        ADDAW   .D1     A1,0x4,A2
* addresses
_accesses:
        LDW     .D1     *A4,A8
        LDW     .D1     *+A4,B8
        LDH     .D1     *+A4(0),A9
        LDH     .D1     *-A4,B9
        LDB     .D2     *-B4(0),B10
        LDBU    .D2T1   *++B4,A10
        LDHU    .D2     *--B4(0x3E),A11
        LDW     .D1     *A4++,A12
        LDW     .D1     *A4--(124),B12
        STW     .D2     A1,*+B4(+4)
        STH     .D1     B1,*-A4(2)
        STB     .D1     A1,*++A4(31)
        STW     .D2     B1,*--B4[B1]
        LDW     .D1     * ++ A4 [ A1 ], A13
        STH     .D1     A1,*A4++[0x10]
        STB     .D2     B1,*B4--[0]
        STW     .D1     A1,*--A4
        STB     .D2     A1,*B4--
        STW     .D1     A1,*+A4 ( 8 )
        NOP     1
* conditions and branches
_branches:
   [ A1]MVK     .S1     1,A2
 || [!A1] MVK   .S2     1,B2
||[ ! B0 ]ADD.L1A1,A1,A3
        [a2] mpy .m1 a1,a1,a4
        [B2]    B       .S2     _accesses
        NOP             5
        [b1]    ret     .s2     b15
        NOP             5
        Ret.S2  B3
        NOP             5
