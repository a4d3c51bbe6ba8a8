; The packets of ../gcd.s, by hand for the GNU assembler. The branch of the middle block is issued in its first cycle, and
; what stands before it in the text fills its delay slots.
	.text
	.global	GCD
	.type	GCD, @function
GCD:	cmpeq	.l1	a4, a5, a1
 [a1]	b	.s1	DONE
	nop	5
	b	.s2	GCD
||	cmplt	.l1	a4, a5, a2
 [a2]	sub	.l1	a5, a4, a5
 [!a2]	sub	.s1	a4, a5, a4		; reads what the other wrote
	nop	3
DONE:	ret	.s2	b3
	nop	5
	.size	GCD, .-GCD
