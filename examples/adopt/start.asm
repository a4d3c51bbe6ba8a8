; Where a processor starts: lets the clocks settle, reads a switch, and clears four words where that is off. NOPs stand
; at the beginning of the text and of blocks, beside instructions, across a cut, and where they say nothing.
	.text
	.align	5
	nop	9
	nop	9
	nop	9
	mvk	.s2	0x100, b15
||	mvk	.s1	0x200, a4
	ldw	.d1	*a4, a1			; the switch
||	nop	5
 [a1]	b	.s1	.Lsamples
||	nop	9				; takes effect after six of these cycles
	mvk	.s1	0, a5			; three cycles behind that
	stw	.d1	a5, *a4++(4)
	stw	.d1	a5, *a4++(4)
	stw	.d1	a5, *a4++(4)
	b	.s2	.Lsamples
	stw	.d1	a5, *a4--(12)
	nop	4
	nop	9				; nothing comes here
	nop
.Lsamples: nop	2
	mvk	.s1	1, a6
	nop	3				; of no block
.Lforever:
	b	.s1	.Lforever		; five delay slots
	mpy	.m1	a6, a6, a7
	add	.l1	a6, 1, a6
	mpy	.m1	a6, a6, a8
||	nop
	nop
	sub	.l1	a8, a7, a9
	nop	9
