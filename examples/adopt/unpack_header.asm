; void unpack_header(const char *header, char *fields), as GNU's compiler writes it. The header has its fields at the
; bytes 0 (unsigned byte), 1 (byte), 2 (unsigned half), 4 (half) and 8 (word).
	.section	.text.unpack,"ax",@progbits
	.align	2
	.global	unpack_header
	.type	unpack_header, @function
unpack_header:
	.cfi_startproc
	stw	.d2t2	b3, *b15--(8)
||	ldbu	.d1t1	*a4, a5
	.cfi_def_cfa_offset 8
	.cfi_offset 19, 0
	stw	.d2t2	b10, *+b15(4)
||	ldb	.d1t1	*+a4(1), a6
	ldhu	.d1t1	*+a4(2), a7
	ldh	.d1t1	*+a4(4), a8
	ldw	.d1t2	*+a4(8), b5
	stb	.d2t1	a5, *+b4(0)
	stb	.d2t1	a6, *+b4(3)
	sth	.d2t1	a7, *+b4(0x6)
	sth	.d2t1	a8, *++b4(8)
	stw	.d2t2	b5, *++b4(4)
	ldw	.d2t2	*+b15(4), b10
	ldw	.d2t2	*++b15(8), b3
	nop	4
	.cfi_restore 19
	.cfi_def_cfa_offset 0
	ret	.s2	b3
	nop	5
	.cfi_endproc
	.size	unpack_header, .-unpack_header
