; void copy_words(int *to, const int *from, int n), by hand for the GNU assembler: offsets count bytes, and neither
; X nor T is written.
	.text
	.globl	copy_words
	.type	copy_words, @function
copy_words:
	mv	.l2	a6, b0
||	mv	.s1	a4, a5
 [!b0]	ret	.s2	b3
	nop	5
.Lnext.word:
	ldw	.d2	*b4++(4), b5	; lands in cycle 4
||	sub	.l2	b0, 1, b0
	nop
	nop	2
 [b0]	b	.s2	.Lnext.word
	stw	.d1	b5, *a5++(4)
	nop	2
	nop
	nop	1
	ret	.s2	b3		; a block without a label
	nop	5
	.size	copy_words, .-copy_words
