; int string_length(const char *s), by hand for the GNU assembler: labels without code, and two at one place.
	.text
	.global	string_length
	.type	string_length, @function
string_length:
	mvk	.s1	-1, a5
.L1.next:
	ldb	.d1t1	*a4++(1), a1
	nop	4
 [a1]	b	.s1	.L1.next
||	add	.l1	a5, 1, a5
	nop	5
.Lfound:				; nothing stands here
.Ldone:	ret	.s2	b3
||	mv	.l1	a5, a4
	nop	5
.Lend:	.size	string_length, .Lend - string_length
