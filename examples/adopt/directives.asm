	.file	"directives.c"
	.FILE	1 "directives.c"
	.c6xabi_attribute 4, 0
	.C6xabi_Attribute Tag_ISA, C62X
	.ident	"GCC: (GNU) 9.2.0"
	.section	.text
	.section	.text.unlikely,"ax",@progbits
	.Section	".text"
	.section	".text:f:g"
	.sect	.text
	.SECT	".text"
	.sect	".text:f"
	.sect	.text:f
	.text
	.Text	0
	.align
	.align	32
	.global	f
	.globl	f.part.0
	.def	f, f.part.0
	.ref	g
	.type	f, @function
f:	.cfi_startproc
	.loc 1 2 3 is_stmt 0
	mvk	.s1	1, a1
	.cfi_def_cfa_offset 8
	; directives part no packet, and neither do comments or empty lines

* nor a comment in the first column
	.loc 1 3
||	mvk	.s2	1, b1
	.cfi_offset 19, 0
.LFE0:	.cfi_endproc
	.size	f, .-f
f.part.0: ADD .L1 A1,A1,A2
	b	.s2	f.part.0		; a dotted name behind a branch
	nop	5
	.CFI_ENDPROC
L$2.b: .text
	[ B1 ]	B.S1	L$2.b
	NOP	5
.text:	.text
	.size	f.part.0, .text - f.part.0
