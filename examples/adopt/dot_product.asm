; int dot_product(const short *x, const short *y, int n), as GNU's compiler writes it.
	.file	"dot_product.c"
	.c6xabi_attribute 4, 0
	.text
	.align	5
	.global	dot_product
	.type	dot_product, @function
dot_product:
	.cfi_startproc
	.loc 1 4 0
		cmpgt	.l1	A6, 0, A1
	||	mvk	.s2	0, B5
	||	mv	.s1	A6, A2
	||	mv	.d1	A4, A3
	.loc 1 6 0
	[!A1]	b	.s1	.L4
		nop	5
.L3:
	.loc 1 7 0
		ldh	.d1t1	*A3++, A5
	||	ldh	.d2t2	*B4++[1], B6
	||	sub	.s1	A2, 1, A2
		nop	1
	[A2]	b	.s2	.L3
		nop	2
		mpy	.m2x	B6, A5, B6
		nop	1
		add	.l2	B5, B6, B5
.L4:
	.loc 1 9 0
		ret	.s2	B3
	||	mv	.l1x	B5, A4
		nop	5
	.cfi_endproc
	.size	dot_product, .-dot_product
	.ident	"GCC: (GNU) 9.2.0"
