; The packets of ../biquad.s, by hand for the GNU assembler, with offsets that count bytes: eleven cycles a sample.
	.text
	.align	5
	ldw	.d1t1	*a6, a8			; b0 low, b1 high
||	ldh	.d2t2	*+b6(4), b10		; y[n-1]
	ldh	.d1t1	*+a6(4), a9		; b2
||	ldh	.d2t2	*+b6(6), b11		; y[n-2]
	ldh	.d2t1	*b6, a10		; x[n-1]
||	ldw	.d1t2	*+a6(8), b8		; a1 low, a2 high
	ldh	.d2t1	*+b6(2), a11		; x[n-2]
	nop	4

SAMPLE:	ldh	.d1	*a4++(2), a5		; x[n]
||	mpy	.m2	b8, b10, b12		; a1 * y[n-1]
||	mpyhl	.m1	a8, a10, a13		; b1 * x[n-1]
	mpyhl	.m2	b8, b11, b13		; a2 * y[n-2]
||	mpy	.m1	a9, a11, a14		; b2 * x[n-2]
	mv	.d1	a10, a11
||	mv	.d2	b10, b11
||	sub	.s1	a1, 1, a1
	add	.l2	b12, b13, b12
||	add	.l1	a13, a14, a13
	nop
	mpy	.m1	a8, a5, a12		; b0 * x[n]
||	mv	.d1	a5, a10
|| [a1]	b	.s1	SAMPLE
	nop
	add	.l1	a12, a13, a12
	sub	.l2	a12, b12, b12
	shr	.s2	b12, 15, b10		; y[n]
	sth	.d2	b10, *b4++(2)

	sth	.d2	a10, *b6
	sth	.d2	b10, *+b6(4)
	sth	.d2	a11, *+b6(2)
	sth	.d2	b11, *+b6(6)
