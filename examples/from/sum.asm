; Functions of one file as a compiler writes it. c62 doesn't know all operations of scale, and clip reads a table by way of a
; register, so the file as a whole isn't adopted:
;
;     ./c62 adopt examples/from/sum.asm --from sum
;
; takes sum, which adds up B4 words from A4 on, and what it shares with clip. The other lines are empty, and keep their numbers.
	.file	"sum.c"
	.text
	.align	2
	.global	scale
	.type	scale, @function
scale:
	smpy	.m1x	a4, b4, a4
	ret	.s2	b3
	nop	5
	.size	scale, .-scale
	.section	.rodata
	.align	2
.LC0:
	.word	-128
	.word	127
	.text
	.align	2
	.global	clip
	.type	clip, @function
clip:
	mvkl	.s1	.LC0, a3
	mvkh	.s1	.LC0, a3
	ldw	.d1t1	*a3, a5
	nop	4
	cmplt	.l1	a4, a5, a1
 [a1]	mv	.l1	a5, a4
	b	.s1	.L9
	nop	5
	.size	clip, .-clip
	.align	2
	.global	sum
	.type	sum, @function
sum:
	mv	.l2	b4, b0
||	zero	.l1	a5
 [!b0]	b	.s1	.L8
	nop	5
.L7:
	ldw	.d1t1	*a4++, a6
	sub	.l2	b0, 1, b0
	nop	3
	add	.l1	a5, a6, a5
 [b0]	b	.s1	.L7
	nop	5
.L8:
	b	.s1	.L9
||	mv	.l1	a5, a4
	nop	5
	.size	sum, .-sum
	.global	twice
	.type	twice, @function
twice:
	add	.l1	a4, a4, a4
	ret	.s2	b3
	nop	5
	.size	twice, .-twice
.L9:
	ret	.s2	b3
	nop	5
	.ident	"a compiler"
