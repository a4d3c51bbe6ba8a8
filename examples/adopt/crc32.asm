; unsigned crc32(const unsigned char *p, int n, unsigned crc), a bit a turn, by hand for the GNU assembler. The block of
; the bits is followed by two that have no label.
	.section	".text.crc", "ax"
	.globl	crc32
crc32:	mvkl	.s1	0xEDB88320, a7
||	mv	.l2	b4, b0
	mvkh	.s1	0xEDB88320, a7

.Lbyte:	ldbu	.d1	*a4++, a5
||	mvk	.s1	8, a1
	nop	4
	xor	.l1	a5, a6, a6

.Lbit:	and	.l1	a6, 1, a2		; whether a 1 leaves on the right
||	shru	.s1	a6, 1, a6
||	sub	.d1	a1, 1, a1
[a2]	xor	.l1	a6, a7, a6
||[a1]	b	.s1	.Lbit
	nop	5

	sub	.l2	b0, 1, b0
[b0]	b	.s2	.Lbyte
	nop	5

	b	.s2	b3
||	mv	.d1	a6, a4
	nop	5
