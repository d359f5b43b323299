/* Pasetone 7.1.0 for Linux on x86_64: what was proved, as assembly. Made by host/dist from what Rattle's kit compiled of crate pasetone and by the clang of
   that kit; not written by hand. `.ci/run dist` makes it anew and fails where a byte differs. Apache License 2.0, see NOTICE. */
	.file	"rattle"
	.section	.rodata.cst4,"aM",@progbits,4
	.p2align	2, 0x0
.Lpasetone_CPI0_0:
	.long	0x7fc00000
	.section	.rodata.cst16,"aM",@progbits,16
	.p2align	4, 0x0
.Lpasetone_CPI0_1:
	.byte	1
	.byte	1
	.byte	1
	.byte	1
	.byte	1
	.byte	1
	.byte	1
	.byte	1
	.zero	1
	.zero	1
	.zero	1
	.zero	1
	.zero	1
	.zero	1
	.zero	1
	.zero	1
.Lpasetone_CPI0_2:
	.zero	16,1
	.section	".text.records::decode_tuner","ax",@progbits
	.p2align	4
	.type	"records::decode_tuner",@function
"records::decode_tuner":
	.cfi_startproc
	pushq	%rbp
	.cfi_def_cfa_offset 16
	pushq	%r15
	.cfi_def_cfa_offset 24
	pushq	%r14
	.cfi_def_cfa_offset 32
	pushq	%r12
	.cfi_def_cfa_offset 40
	pushq	%rbx
	.cfi_def_cfa_offset 48
	.cfi_offset %rbx, -48
	.cfi_offset %r12, -40
	.cfi_offset %r14, -32
	.cfi_offset %r15, -24
	.cfi_offset %rbp, -16
	cmpq	$78, %rdx
	jne	.Lpasetone_BB0_1
	movzbl	(%rsi), %edx
	movl	38(%rsi), %r9d
	cmpl	$2143289344, %r9d
	sete	%r10b
	movl	%r9d, %r11d
	andl	$2147483647, %r11d
	cmpl	$2139095041, %r11d
	setb	%bl
	cmpb	$1, %dl
	ja	.Lpasetone_BB0_1
	movl	29(%rsi), %eax
	testl	%eax, %eax
	je	.Lpasetone_BB0_1
	movl	33(%rsi), %ecx
	testl	%ecx, %ecx
	je	.Lpasetone_BB0_1
	movzbl	37(%rsi), %r8d
	cmpb	$1, %r8b
	ja	.Lpasetone_BB0_1
	orb	%bl, %r10b
	je	.Lpasetone_BB0_1
	movzbl	50(%rsi), %r10d
	movdqu	51(%rsi), %xmm1
	movq	67(%rsi), %xmm0
	movzbl	75(%rsi), %r14d
	movzbl	76(%rsi), %ebp
	movzbl	77(%rsi), %ebx
	movdqa	%xmm1, %xmm2
	por	%xmm0, %xmm2
	pblendw	$240, %xmm1, %xmm2
	pshufd	$238, %xmm1, %xmm3
	por	%xmm2, %xmm3
	pshufd	$85, %xmm3, %xmm2
	por	%xmm3, %xmm2
	movdqa	%xmm2, %xmm3
	psrld	$16, %xmm3
	por	%xmm2, %xmm3
	movdqa	%xmm3, %xmm2
	psrlw	$8, %xmm2
	por	%xmm3, %xmm2
	movd	%xmm2, %r15d
	movl	%ebp, %r12d
	orb	%r14b, %r12b
	orb	%r10b, %r12b
	orb	%bl, %r12b
	orb	%r15b, %r12b
	cmpb	$2, %r12b
	jae	.Lpasetone_BB0_1
	movzbl	1(%rsi), %r12d
	movq	42(%rsi), %r15
	cmpl	$2139095041, %r11d
	jae	.Lpasetone_BB0_10
	movd	%r9d, %xmm2
	jmp	.Lpasetone_BB0_12
.Lpasetone_BB0_1:
	pxor	%xmm0, %xmm0
	movdqu	%xmm0, 80(%rdi)
	movdqu	%xmm0, 64(%rdi)
	movdqu	%xmm0, 48(%rdi)
	movdqu	%xmm0, 32(%rdi)
	movdqu	%xmm0, 16(%rdi)
	movdqu	%xmm0, (%rdi)
	jmp	.Lpasetone_BB0_2
.Lpasetone_BB0_10:
	movd	.Lpasetone_CPI0_0(%rip), %xmm2
.Lpasetone_BB0_12:
	cmpb	$1, %dl
	movups	13(%rsi), %xmm3
	movups	%xmm3, -21(%rsp)
	movups	2(%rsi), %xmm3
	movaps	%xmm3, -32(%rsp)
	sete	8(%rdi)
	cmpb	$1, %r14b
	movq	$1, (%rdi)
	movb	%r12b, 9(%rdi)
	movdqu	-21(%rsp), %xmm3
	movaps	-32(%rsp), %xmm4
	sete	61(%rdi)
	cmpb	$1, %bpl
	sete	62(%rdi)
	cmpb	$1, %bl
	sete	63(%rdi)
	cmpb	$1, %r8b
	sete	72(%rdi)
	movdqa	.Lpasetone_CPI0_1(%rip), %xmm5
	movdqa	.Lpasetone_CPI0_2(%rip), %xmm6
	cmpb	$1, %r10b
	movups	%xmm4, 10(%rdi)
	movdqu	%xmm3, 21(%rdi)
	pcmpeqb	%xmm6, %xmm1
	pand	%xmm6, %xmm1
	movdqu	%xmm1, 37(%rdi)
	pcmpeqb	%xmm5, %xmm0
	pand	%xmm5, %xmm0
	movq	%xmm0, 53(%rdi)
	movl	%eax, 64(%rdi)
	movl	%ecx, 68(%rdi)
	movw	$0, 73(%rdi)
	movb	$0, 75(%rdi)
	movd	%xmm2, 76(%rdi)
	movq	%r15, 80(%rdi)
	sete	88(%rdi)
	movl	$0, 92(%rdi)
	movl	$0, 89(%rdi)
.Lpasetone_BB0_2:
	popq	%rbx
	.cfi_def_cfa_offset 40
	popq	%r12
	.cfi_def_cfa_offset 32
	popq	%r14
	.cfi_def_cfa_offset 24
	popq	%r15
	.cfi_def_cfa_offset 16
	popq	%rbp
	.cfi_def_cfa_offset 8
	retq
.Lpasetone_func_end0:
	.size	"records::decode_tuner", .Lpasetone_func_end0-"records::decode_tuner"
	.cfi_endproc

	.section	".text.driver::path_steps","ax",@progbits
	.p2align	4
	.type	"driver::path_steps",@function
"driver::path_steps":
	.cfi_startproc
	pushq	%rbp
	.cfi_def_cfa_offset 16
	pushq	%r15
	.cfi_def_cfa_offset 24
	pushq	%r14
	.cfi_def_cfa_offset 32
	pushq	%r13
	.cfi_def_cfa_offset 40
	pushq	%r12
	.cfi_def_cfa_offset 48
	pushq	%rbx
	.cfi_def_cfa_offset 56
	subq	$408, %rsp
	.cfi_def_cfa_offset 464
	.cfi_offset %rbx, -56
	.cfi_offset %r12, -48
	.cfi_offset %r13, -40
	.cfi_offset %r14, -32
	.cfi_offset %r15, -24
	.cfi_offset %rbp, -16
	movl	%ecx, 24(%rsp)
	movl	%edx, 28(%rsp)
	movq	%rdi, 152(%rsp)
	movups	(%rsi), %xmm0
	movups	16(%rsi), %xmm1
	movups	32(%rsi), %xmm2
	movaps	%xmm2, 208(%rsp)
	movaps	%xmm1, 192(%rsp)
	movaps	%xmm0, 176(%rsp)
	movzwl	52(%rsi), %edi
	movzbl	54(%rsi), %ebp
	shll	$16, %ebp
	movl	48(%rsi), %eax
	movq	%rax, 168(%rsp)
	movq	56(%rsi), %r15
	movq	64(%rsi), %r12
	movq	72(%rsi), %r13
	movzbl	80(%rsi), %edx
	movzbl	81(%rsi), %eax
	movq	%rax, 40(%rsp)
	movzwl	82(%rsi), %r14d
	movzbl	84(%rsi), %eax
	movb	%al, 15(%rsp)
	movzbl	85(%rsi), %r11d
	movzwl	86(%rsi), %r10d
	xorps	%xmm0, %xmm0
	movaps	%xmm0, 384(%rsp)
	movaps	%xmm0, 368(%rsp)
	movaps	%xmm0, 352(%rsp)
	movaps	%xmm0, 336(%rsp)
	movaps	%xmm0, 320(%rsp)
	movq	$0, 400(%rsp)
	movzbl	(%r9), %esi
	movq	%r9, 160(%rsp)
	movzbl	1(%r9), %eax
	movq	%rax, 32(%rsp)
	testb	%r12b, %r12b
	je	.Lpasetone_BB1_1
	orl	%ebp, %edi
	testb	%r12b, %r12b
	je	.Lpasetone_BB1_4
.Lpasetone_BB1_3:
	movq	40(%rsp), %r9
	testb	%r12b, %r12b
	jne	.Lpasetone_BB1_7
.Lpasetone_BB1_6:
	movq	%r15, %r10
	shlq	$4, %r10
	movabsq	$52793754910726, %r11
	leaq	2(%r11), %rsi
	addq	$258, %r11
	xorl	%r9d, %r9d
	xorl	%r12d, %r12d
	cmpb	$0, (%r8,%r15)
	setne	%r12b
	movl	$0, %r13d
	cmovneq	%r15, %r13
	movzbl	32(%rsp), %eax
	cmovnel	%r9d, %eax
	movzbl	%al, %eax
	cmoveq	%rsi, %r11
	movq	464(%rsp), %rcx
	movq	%r11, (%rcx,%r10)
	movq	%rax, 8(%rcx,%r10)
	incq	%r15
	andb	$1, %dl
	xorl	%r11d, %r11d
	xorl	%r10d, %r10d
.Lpasetone_BB1_7:
	shlq	$32, %rdi
	testb	%r12b, %r12b
	jne	.Lpasetone_BB1_9
	movq	32(%rsp), %r11
	andl	$-33, %r11d
	movq	%r15, %rax
	shlq	$4, %rax
	movabsq	$52793754910726, %r10
	leaq	256(%r10), %rsi
	xorl	%r9d, %r9d
	xorl	%r12d, %r12d
	cmpb	$0, (%r8,%r15)
	setne	%r12b
	movl	$0, %r13d
	cmovneq	%r15, %r13
	cmoveq	%r10, %rsi
	movq	464(%rsp), %rcx
	movq	%rsi, (%rcx,%rax)
	movq	%r11, 8(%rcx,%rax)
	incq	%r15
	andb	$1, %dl
	xorl	%r11d, %r11d
	xorl	%r10d, %r10d
.Lpasetone_BB1_9:
	movq	168(%rsp), %rax
	orq	%rdi, %rax
	movq	%rax, %rdi
	movabsq	$72057594037927935, %rcx
	movaps	176(%rsp), %xmm0
	movaps	192(%rsp), %xmm1
	movaps	208(%rsp), %xmm2
	movaps	%xmm2, 304(%rsp)
	movaps	%xmm1, 288(%rsp)
	movaps	%xmm0, 272(%rsp)
	cmpb	$0, 24(%rsp)
	setne	%bpl
	movq	160(%rsp), %rax
	movzbl	2(%rax), %eax
	testb	%r12b, %r12b
	je	.Lpasetone_BB1_10
	andq	%rcx, %rdi
	testb	%r12b, %r12b
	je	.Lpasetone_BB1_12
.Lpasetone_BB1_13:
	movzbl	15(%rsp), %ecx
	movaps	272(%rsp), %xmm0
	movaps	288(%rsp), %xmm1
	movaps	304(%rsp), %xmm2
	movaps	%xmm0, 176(%rsp)
	movaps	%xmm1, 192(%rsp)
	movaps	%xmm2, 208(%rsp)
	movq	%rdi, 224(%rsp)
	movq	%r15, 232(%rsp)
	movq	%r12, 240(%rsp)
	movq	%r13, 248(%rsp)
	movb	%dl, 256(%rsp)
	movb	%r9b, 257(%rsp)
	movw	%r14w, 258(%rsp)
	movb	%cl, 260(%rsp)
	movb	%r11b, 261(%rsp)
	movw	%r10w, 262(%rsp)
	xorps	%xmm0, %xmm0
	movaps	%xmm0, 48(%rsp)
	movaps	%xmm0, 64(%rsp)
	movaps	%xmm0, 80(%rsp)
	movaps	%xmm0, 96(%rsp)
	movaps	%xmm0, 112(%rsp)
	movq	$0, 128(%rsp)
	cmpb	$0, 28(%rsp)
	je	.Lpasetone_BB1_14
	movzbl	24(%rsp), %ecx
	shll	$3, %ecx
	movl	$328966, %eax
	shrl	%cl, %eax
	movl	$2113544, %edx
	shrl	%cl, %edx
	movl	$6316040, %esi
	shrl	%cl, %esi
	movl	$394757, %edi
	shrl	%cl, %edi
	movl	$526432, %r10d
	shrl	%cl, %r10d
	movb	%al, 16(%rsp)
	movb	%dl, 17(%rsp)
	movb	%sil, 18(%rsp)
	movb	%dil, 19(%rsp)
	movb	$0, 20(%rsp)
	movb	%r10b, 21(%rsp)
	leaq	48(%rsp), %rdi
	leaq	176(%rsp), %rsi
	leaq	16(%rsp), %rdx
	movl	$2, %ecx
	movq	464(%rsp), %r9
	callq	"chip::with_repeater"
	jmp	.Lpasetone_BB1_16
.Lpasetone_BB1_1:
	movw	%r14w, 22(%rsp)
	movq	%r15, %r14
	shlq	$4, %r14
	movabsq	$52789459943430, %r10
	movq	%r8, %rax
	leaq	2(%r10), %rcx
	movq	%rcx, 144(%rsp)
	addq	$258, %r10
	xorl	%ecx, %ecx
	xorl	%r12d, %r12d
	cmpb	$0, (%r8,%r15)
	setne	%r12b
	movl	$0, %r13d
	cmovneq	%r15, %r13
	movzbl	%sil, %r8d
	movl	$0, %r9d
	movq	%r9, 40(%rsp)
	cmovnel	%ecx, %r8d
	movq	464(%rsp), %rcx
	movzbl	%r8b, %ebx
	cmoveq	144(%rsp), %r10
	movq	%rax, %r8
	movq	%r10, (%rcx,%r14)
	movq	%rbx, 8(%rcx,%r14)
	movzwl	22(%rsp), %r14d
	incq	%r15
	andb	$1, %dl
	xorl	%r11d, %r11d
	xorl	%r10d, %r10d
	orl	%ebp, %edi
	testb	%r12b, %r12b
	jne	.Lpasetone_BB1_3
.Lpasetone_BB1_4:
	orq	$32, %rsi
	movq	%r15, %r10
	shlq	$4, %r10
	movabsq	$52789459943430, %r11
	leaq	256(%r11), %rax
	xorl	%r9d, %r9d
	xorl	%r12d, %r12d
	cmpb	$0, (%r8,%r15)
	setne	%r12b
	movl	$0, %r13d
	cmovneq	%r15, %r13
	cmoveq	%r11, %rax
	movq	464(%rsp), %rcx
	movq	%rax, (%rcx,%r10)
	movq	%rsi, 8(%rcx,%r10)
	incq	%r15
	andb	$1, %dl
	xorl	%r11d, %r11d
	xorl	%r10d, %r10d
	testb	%r12b, %r12b
	jne	.Lpasetone_BB1_7
	jmp	.Lpasetone_BB1_6
.Lpasetone_BB1_10:
	movl	%r14d, %esi
	movq	%r15, %r14
	shlq	$4, %r14
	movq	%rdi, %rcx
	movabsq	$52780870008838, %rdi
	leaq	2(%rdi), %r10
	addq	$258, %rdi
	xorl	%r12d, %r12d
	cmpb	$0, (%r8,%r15)
	setne	%r12b
	movl	$0, %r13d
	cmovneq	%r15, %r13
	movzbl	%al, %r11d
	movl	$0, %r9d
	movl	$0, %ebx
	cmovnel	%ebx, %r11d
	movzbl	%r11b, %r11d
	cmoveq	%r10, %rdi
	movq	464(%rsp), %r10
	movq	%rdi, (%r10,%r14)
	movq	%rcx, %rdi
	movabsq	$72057594037927935, %rcx
	movq	%r11, 8(%r10,%r14)
	movl	%esi, %r14d
	incq	%r15
	andb	$1, %dl
	xorl	%r11d, %r11d
	xorl	%r10d, %r10d
	andq	%rcx, %rdi
	testb	%r12b, %r12b
	jne	.Lpasetone_BB1_13
.Lpasetone_BB1_12:
	andb	$-33, %al
	shlb	$5, %bpl
	orb	%al, %bpl
	movzbl	%bpl, %eax
	movq	%rdi, %rcx
	movq	%r15, %rdi
	shlq	$4, %rdi
	movabsq	$52780870008838, %r10
	leaq	256(%r10), %rsi
	xorl	%r9d, %r9d
	xorl	%r12d, %r12d
	cmpb	$0, (%r8,%r15)
	setne	%r12b
	movl	$0, %r13d
	cmovneq	%r15, %r13
	cmoveq	%r10, %rsi
	movq	464(%rsp), %r10
	movq	%rsi, (%r10,%rdi)
	movq	%rax, 8(%r10,%rdi)
	movq	%rcx, %rdi
	incq	%r15
	andb	$1, %dl
	xorl	%r11d, %r11d
	xorl	%r10d, %r10d
	jmp	.Lpasetone_BB1_13
.Lpasetone_BB1_14:
	movaps	272(%rsp), %xmm0
	movaps	288(%rsp), %xmm1
	movaps	304(%rsp), %xmm2
	movaps	%xmm2, 80(%rsp)
	movaps	%xmm1, 64(%rsp)
	movaps	%xmm0, 48(%rsp)
	movq	%rdi, 96(%rsp)
	movq	%r15, 104(%rsp)
	movq	%r12, 112(%rsp)
	movq	%r13, 120(%rsp)
	movb	%dl, 128(%rsp)
	movb	%r9b, 129(%rsp)
	movw	%r14w, 130(%rsp)
	movb	%cl, 132(%rsp)
	movb	%r11b, 133(%rsp)
	movw	%r10w, 134(%rsp)
.Lpasetone_BB1_16:
	movq	128(%rsp), %rax
	movq	%rax, 400(%rsp)
	movaps	112(%rsp), %xmm0
	movaps	%xmm0, 384(%rsp)
	movaps	48(%rsp), %xmm1
	movaps	64(%rsp), %xmm2
	movaps	80(%rsp), %xmm3
	movaps	96(%rsp), %xmm4
	movaps	%xmm4, 368(%rsp)
	movaps	%xmm3, 352(%rsp)
	movaps	%xmm2, 336(%rsp)
	movaps	%xmm1, 320(%rsp)
	movq	152(%rsp), %rcx
	movq	%rax, 80(%rcx)
	movups	%xmm0, 64(%rcx)
	movups	%xmm4, 48(%rcx)
	movups	%xmm3, 32(%rcx)
	movups	%xmm2, 16(%rcx)
	movups	%xmm1, (%rcx)
	addq	$408, %rsp
	.cfi_def_cfa_offset 56
	popq	%rbx
	.cfi_def_cfa_offset 48
	popq	%r12
	.cfi_def_cfa_offset 40
	popq	%r13
	.cfi_def_cfa_offset 32
	popq	%r14
	.cfi_def_cfa_offset 24
	popq	%r15
	.cfi_def_cfa_offset 16
	popq	%rbp
	.cfi_def_cfa_offset 8
	retq
.Lpasetone_func_end1:
	.size	"driver::path_steps", .Lpasetone_func_end1-"driver::path_steps"
	.cfi_endproc

	.section	".text.chip::with_repeater","ax",@progbits
	.p2align	4
	.type	"chip::with_repeater",@function
"chip::with_repeater":
	.cfi_startproc
	pushq	%rbp
	.cfi_def_cfa_offset 16
	pushq	%r15
	.cfi_def_cfa_offset 24
	pushq	%r14
	.cfi_def_cfa_offset 32
	pushq	%r13
	.cfi_def_cfa_offset 40
	pushq	%r12
	.cfi_def_cfa_offset 48
	pushq	%rbx
	.cfi_def_cfa_offset 56
	subq	$72, %rsp
	.cfi_def_cfa_offset 128
	.cfi_offset %rbx, -56
	.cfi_offset %r12, -48
	.cfi_offset %r13, -40
	.cfi_offset %r14, -32
	.cfi_offset %r15, -24
	.cfi_offset %rbp, -16
	movups	(%rsi), %xmm0
	movups	16(%rsi), %xmm1
	movups	32(%rsi), %xmm2
	movups	48(%rsi), %xmm3
	movaps	%xmm3, -64(%rsp)
	movups	64(%rsi), %xmm3
	movaps	%xmm3, -48(%rsp)
	movq	80(%rsi), %rax
	movq	%rax, -32(%rsp)
	movaps	%xmm2, -80(%rsp)
	movaps	%xmm1, -96(%rsp)
	movaps	%xmm0, -112(%rsp)
	movq	-56(%rsp), %rax
	movq	-48(%rsp), %r10
	testb	%r10b, %r10b
	je	.Lpasetone_BB2_2
	movzwl	-26(%rsp), %r12d
	movzbl	-27(%rsp), %r15d
	movzbl	-31(%rsp), %r14d
	movzbl	-32(%rsp), %r11d
	movq	-40(%rsp), %rsi
	movq	%r10, %rbx
	andq	$-256, %rbx
	testb	%r10b, %r10b
	je	.Lpasetone_BB2_8
.Lpasetone_BB2_4:
	testb	$1, %r11b
	je	.Lpasetone_BB2_5
	xorl	%ecx, %ecx
	cmpb	$0, (%r8,%rax)
	setne	%cl
	movq	%rax, %rdx
	shlq	$4, %rdx
	shll	$8, %ecx
	orq	$16777217, %rcx
	movq	%rcx, (%r9,%rdx)
	movq	$0, 8(%r9,%rdx)
	incq	%rax
	movzbl	%r10b, %ebx
	xorl	%r14d, %r14d
	xorl	%r15d, %r15d
	xorl	%r12d, %r12d
	jmp	.Lpasetone_BB2_7
.Lpasetone_BB2_2:
	xorl	%ebx, %ebx
	xorl	%r10d, %r10d
	cmpb	$0, (%r8,%rax)
	sete	%r11b
	movq	%rax, %rsi
	cmoveq	%rbx, %rsi
	setne	%r10b
	movq	%rax, %r14
	shlq	$4, %r14
	movl	%r10d, %r15d
	shll	$8, %r15d
	orq	$16777217, %r15
	movq	%r15, (%r9,%r14)
	movq	$1, 8(%r9,%r14)
	incq	%rax
	xorl	%r14d, %r14d
	xorl	%r15d, %r15d
	xorl	%r12d, %r12d
	testb	%r10b, %r10b
	jne	.Lpasetone_BB2_4
.Lpasetone_BB2_8:
	movzwl	-30(%rsp), %r10d
	movzbl	-28(%rsp), %esi
	movb	%sil, -113(%rsp)
	movzbl	-112(%rsp), %r14d
	shll	$16, %r14d
	movzbl	(%rdx), %ebx
	movzbl	(%r8,%rax), %ebp
	xorl	%r15d, %r15d
	testb	%bpl, %bpl
	setne	%r15b
	leal	-5(%rbx), %r12d
	movzbl	%r12b, %r12d
	movzbl	-111(%rsp,%r12), %r13d
	movzbl	1(%rdx), %esi
	xorb	%r13b, %sil
	andb	2(%rdx), %sil
	xorb	%r13b, %sil
	movzbl	%sil, %esi
	movb	%sil, -111(%rsp,%r12)
	shll	$8, %esi
	orq	%rbx, %rsi
	movq	%rax, %r13
	shlq	$4, %r13
	shll	$8, %r15d
	leaq	1(%rax), %rbx
	testb	%bpl, %bpl
	setne	-84(%rsp,%r12)
	leaq	33554434(%r15,%r14), %r15
	movq	%r15, (%r9,%r13)
	movq	%rsi, 8(%r9,%r13)
	je	.Lpasetone_BB2_9
.Lpasetone_BB2_23:
	movl	$1, %ecx
	testb	$1, %r11b
	je	.Lpasetone_BB2_25
	xorl	%edx, %edx
	cmpb	$0, (%r8,%rbx)
	setne	%dl
	shlq	$4, %rbx
	shll	$8, %edx
	orq	$16777217, %rdx
	movq	%rdx, (%r9,%rbx)
	movq	$0, 8(%r9,%rbx)
	leaq	2(%rax), %rbx
	jmp	.Lpasetone_BB2_25
.Lpasetone_BB2_5:
	movzbl	%r10b, %ecx
	orq	%rcx, %rbx
.Lpasetone_BB2_7:
	movq	%rax, -56(%rsp)
	movq	%rbx, -48(%rsp)
	movq	%rsi, -40(%rsp)
	movb	$0, -32(%rsp)
	movb	%r14b, -31(%rsp)
	movb	%r15b, -27(%rsp)
	movw	%r12w, -26(%rsp)
	jmp	.Lpasetone_BB2_26
.Lpasetone_BB2_9:
	cmpq	$1, %rcx
	jne	.Lpasetone_BB2_10
.Lpasetone_BB2_15:
	testb	$1, %r11b
	je	.Lpasetone_BB2_17
	xorl	%ecx, %ecx
	cmpb	$0, (%r8,%rbx)
	setne	%cl
	shlq	$4, %rbx
	shll	$8, %ecx
	orq	$16777217, %rcx
	movq	%rcx, (%r9,%rbx)
	movq	$0, 8(%r9,%rbx)
	movq	%rax, %rbx
	addq	$2, %rbx
.Lpasetone_BB2_17:
	xorl	%eax, %eax
	xorl	%ecx, %ecx
.Lpasetone_BB2_25:
	movq	%rbx, -56(%rsp)
	movq	%rcx, -48(%rsp)
	movq	%rax, -40(%rsp)
	movw	$0, -32(%rsp)
	movw	%r10w, -30(%rsp)
	movzbl	-113(%rsp), %eax
	movb	%al, -28(%rsp)
	movb	$0, -27(%rsp)
	movw	$0, -26(%rsp)
.Lpasetone_BB2_26:
	movaps	-112(%rsp), %xmm0
	movaps	-96(%rsp), %xmm1
	movaps	-80(%rsp), %xmm2
	movaps	%xmm0, -16(%rsp)
	movaps	%xmm1, (%rsp)
	movaps	%xmm2, 16(%rsp)
	movq	-64(%rsp), %rax
	movq	%rax, 32(%rsp)
	movq	-56(%rsp), %rax
	movq	%rax, 40(%rsp)
	movq	-48(%rsp), %rax
	movq	%rax, 48(%rsp)
	movq	-40(%rsp), %rax
	movq	%rax, 56(%rsp)
	movq	-32(%rsp), %rax
	movq	%rax, 64(%rsp)
	movq	64(%rsp), %rax
	movq	%rax, 80(%rdi)
	movq	48(%rsp), %rax
	movq	%rax, 64(%rdi)
	movq	56(%rsp), %rax
	movq	%rax, 72(%rdi)
	movaps	-16(%rsp), %xmm0
	movaps	(%rsp), %xmm1
	movaps	16(%rsp), %xmm2
	movaps	32(%rsp), %xmm3
	movups	%xmm3, 48(%rdi)
	movups	%xmm2, 32(%rdi)
	movups	%xmm1, 16(%rdi)
	movups	%xmm0, (%rdi)
	addq	$72, %rsp
	.cfi_def_cfa_offset 56
	popq	%rbx
	.cfi_def_cfa_offset 48
	popq	%r12
	.cfi_def_cfa_offset 40
	popq	%r13
	.cfi_def_cfa_offset 32
	popq	%r14
	.cfi_def_cfa_offset 24
	popq	%r15
	.cfi_def_cfa_offset 16
	popq	%rbp
	.cfi_def_cfa_offset 8
	retq
.Lpasetone_BB2_10:
	.cfi_def_cfa_offset 128
	movw	%r10w, -116(%rsp)
	orq	$33554434, %r14
	movzbl	3(%rdx), %r15d
	movzbl	1(%r8,%rax), %ebp
	xorl	%r12d, %r12d
	testb	%bpl, %bpl
	setne	%r12b
	leal	-5(%r15), %esi
	movzbl	%sil, %r13d
	movzbl	-111(%rsp,%r13), %esi
	movzbl	4(%rdx), %r10d
	xorb	%sil, %r10b
	andb	5(%rdx), %r10b
	xorb	%sil, %r10b
	movzbl	%r10b, %esi
	movb	%sil, -111(%rsp,%r13)
	shll	$8, %esi
	orq	%r15, %rsi
	movq	%rbx, %r10
	shlq	$4, %r10
	shll	$8, %r12d
	orq	%r14, %r12
	leaq	2(%rax), %r15
	testb	%bpl, %bpl
	setne	-84(%rsp,%r13)
	movq	%r12, (%r9,%r10)
	movq	%rsi, 8(%r9,%r10)
	je	.Lpasetone_BB2_12
	movq	%rbx, %rax
	movq	%r15, %rbx
	movzwl	-116(%rsp), %r10d
	jmp	.Lpasetone_BB2_23
.Lpasetone_BB2_12:
	cmpq	$2, %rcx
	jne	.Lpasetone_BB2_18
	movq	%rbx, %rax
	movq	%r15, %rbx
.Lpasetone_BB2_14:
	movzwl	-116(%rsp), %r10d
	jmp	.Lpasetone_BB2_15
.Lpasetone_BB2_18:
	movzbl	6(%rdx), %ebx
	movzbl	2(%r8,%rax), %ebp
	xorl	%r12d, %r12d
	testb	%bpl, %bpl
	setne	%r12b
	leal	-5(%rbx), %esi
	movzbl	%sil, %r13d
	movzbl	-111(%rsp,%r13), %esi
	movzbl	7(%rdx), %r10d
	xorb	%sil, %r10b
	andb	8(%rdx), %r10b
	xorb	%sil, %r10b
	movzbl	%r10b, %esi
	movb	%sil, -111(%rsp,%r13)
	shll	$8, %esi
	orq	%rbx, %rsi
	movq	%r15, %r10
	shlq	$4, %r10
	shll	$8, %r12d
	orq	%r14, %r12
	leaq	3(%rax), %rbx
	testb	%bpl, %bpl
	setne	-84(%rsp,%r13)
	movq	%r12, (%r9,%r10)
	movq	%rsi, 8(%r9,%r10)
	je	.Lpasetone_BB2_20
	movq	%r15, %rax
	movzwl	-116(%rsp), %r10d
	jmp	.Lpasetone_BB2_23
.Lpasetone_BB2_20:
	cmpq	$3, %rcx
	jne	.Lpasetone_BB2_22
	movq	%r15, %rax
	jmp	.Lpasetone_BB2_14
.Lpasetone_BB2_22:
	movzbl	9(%rdx), %r15d
	movzbl	3(%r8,%rax), %ebp
	xorl	%ecx, %ecx
	testb	%bpl, %bpl
	setne	%cl
	leal	-5(%r15), %esi
	movzbl	%sil, %r12d
	movzbl	-111(%rsp,%r12), %esi
	movzbl	10(%rdx), %r10d
	xorb	%sil, %r10b
	andb	11(%rdx), %r10b
	xorb	%sil, %r10b
	movzbl	%r10b, %edx
	movb	%dl, -111(%rsp,%r12)
	shll	$8, %edx
	orq	%r15, %rdx
	movq	%rbx, %rsi
	shlq	$4, %rsi
	shll	$8, %ecx
	orq	%r14, %rcx
	movq	%rax, %r10
	addq	$4, %r10
	testb	%bpl, %bpl
	setne	-84(%rsp,%r12)
	movq	%rbx, %rax
	movq	%rcx, (%r9,%rsi)
	movq	%rdx, 8(%r9,%rsi)
	movq	%r10, %rbx
	movzwl	-116(%rsp), %r10d
	jne	.Lpasetone_BB2_23
	jmp	.Lpasetone_BB2_15
.Lpasetone_func_end2:
	.size	"chip::with_repeater", .Lpasetone_func_end2-"chip::with_repeater"
	.cfi_endproc

	.section	".text.bands::plan_by_table","ax",@progbits
	.p2align	4
	.type	"bands::plan_by_table",@function
"bands::plan_by_table":
	.cfi_startproc
	movq	%rdx, %r8
	movabsq	$-7515340178177965473, %rdx
	movq	%r8, %rax
	mulq	%rdx
	cmpq	$432, %r8
	ja	.Lpasetone_BB3_14
	shrq	$4, %rdx
	leaq	(%rdx,%rdx,8), %rax
	leaq	(%rax,%rax,2), %rax
	movq	%r8, %rdx
	subq	%rax, %rdx
	jne	.Lpasetone_BB3_14
	cmpq	$26, %r8
	ja	.Lpasetone_BB3_3
	.p2align	4
.Lpasetone_BB3_15:
	subq	$27, %r8
	jb	.Lpasetone_BB3_16
	movq	%rsi, %rdx
	addq	$27, %rsi
	cmpq	%rcx, (%rdx)
	ja	.Lpasetone_BB3_15
	cmpq	8(%rdx), %rcx
	ja	.Lpasetone_BB3_15
	movq	16(%rdx), %rax
	movzbl	24(%rdx), %esi
	movzbl	25(%rdx), %r8d
	movzbl	26(%rdx), %r9d
	testq	%rax, %rax
	js	.Lpasetone_BB3_23
	xorl	%edx, %edx
	addq	%rcx, %rax
	jb	.Lpasetone_BB3_21
	jmp	.Lpasetone_BB3_25
.Lpasetone_BB3_3:
	movq	8(%rsi), %rax
	cmpq	%rax, (%rsi)
	ja	.Lpasetone_BB3_14
	cmpb	$1, 24(%rsi)
	ja	.Lpasetone_BB3_14
	cmpb	$3, 25(%rsi)
	ja	.Lpasetone_BB3_14
	cmpb	$1, 26(%rsi)
	ja	.Lpasetone_BB3_14
	leaq	53(%rsi), %r9
	leaq	-27(%r8), %rdx
	.p2align	4
.Lpasetone_BB3_8:
	subq	$27, %rdx
	jb	.Lpasetone_BB3_15
	movq	-26(%r9), %r10
	cmpq	%r10, %rax
	jae	.Lpasetone_BB3_14
	movq	-18(%r9), %rax
	cmpq	%rax, %r10
	ja	.Lpasetone_BB3_14
	cmpb	$1, -2(%r9)
	ja	.Lpasetone_BB3_14
	cmpb	$3, -1(%r9)
	ja	.Lpasetone_BB3_14
	cmpb	$2, (%r9)
	leaq	27(%r9), %r9
	jb	.Lpasetone_BB3_8
.Lpasetone_BB3_14:
	movq	$19, (%rdi)
	xorps	%xmm0, %xmm0
	movups	%xmm0, 8(%rdi)
	retq
.Lpasetone_BB3_16:
	xorl	%eax, %eax
	movl	$2, %ecx
	xorl	%edx, %edx
	jmp	.Lpasetone_BB3_22
.Lpasetone_BB3_23:
	movq	%rax, %r10
	negq	%r10
	xorl	%edx, %edx
	cmpq	%r10, %rcx
	jae	.Lpasetone_BB3_24
.Lpasetone_BB3_21:
	movl	$2, %ecx
	xorl	%eax, %eax
.Lpasetone_BB3_22:
	xorl	%esi, %esi
	xorl	%r8d, %r8d
	xorl	%r9d, %r9d
	jmp	.Lpasetone_BB3_26
.Lpasetone_BB3_24:
	addq	%rcx, %rax
.Lpasetone_BB3_25:
	cmpb	$1, %sil
	sete	%r10b
	cmpb	$3, %r8b
	setb	%sil
	movzbl	%r8b, %r8d
	cmovael	%edx, %r8d
	cmpb	$1, %r9b
	sete	%r9b
	xorl	%ecx, %ecx
	movl	%r10d, %edx
.Lpasetone_BB3_26:
	movq	%rcx, (%rdi)
	movq	%rax, 8(%rdi)
	movb	%dl, 16(%rdi)
	movb	%sil, 17(%rdi)
	movb	%r8b, 18(%rdi)
	movb	%r9b, 19(%rdi)
	movl	$0, 20(%rdi)
	retq
.Lpasetone_func_end3:
	.size	"bands::plan_by_table", .Lpasetone_func_end3-"bands::plan_by_table"
	.cfi_endproc

	.section	".text.transcript::read_section","ax",@progbits
	.p2align	4
	.type	"transcript::read_section",@function
"transcript::read_section":
	.cfi_startproc
	pushq	%rbp
	.cfi_def_cfa_offset 16
	pushq	%r15
	.cfi_def_cfa_offset 24
	pushq	%r14
	.cfi_def_cfa_offset 32
	pushq	%r12
	.cfi_def_cfa_offset 40
	pushq	%rbx
	.cfi_def_cfa_offset 48
	.cfi_offset %rbx, -48
	.cfi_offset %r12, -40
	.cfi_offset %r14, -32
	.cfi_offset %r15, -24
	.cfi_offset %rbp, -16
	cmpq	$7, %rdx
	jbe	.Lpasetone_BB4_1
	movl	-8(%rsi,%rdx), %eax
	cmpq	$4097, %rax
	jae	.Lpasetone_BB4_1
	movl	-4(%rsi,%rdx), %ecx
	movq	%rax, %r8
	shlq	$4, %r8
	cmpq	%rcx, %r8
	jne	.Lpasetone_BB4_1
	addq	$-8, %rdx
	subq	%rcx, %rdx
	jae	.Lpasetone_BB4_6
.Lpasetone_BB4_1:
	xorps	%xmm0, %xmm0
	movups	%xmm0, (%rdi)
	movq	$0, 16(%rdi)
.Lpasetone_BB4_2:
	popq	%rbx
	.cfi_def_cfa_offset 40
	popq	%r12
	.cfi_def_cfa_offset 32
	popq	%r14
	.cfi_def_cfa_offset 24
	popq	%r15
	.cfi_def_cfa_offset 16
	popq	%rbp
	.cfi_def_cfa_offset 8
	retq
.Lpasetone_BB4_6:
	.cfi_def_cfa_offset 48
	testq	%rax, %rax
	je	.Lpasetone_BB4_7
	addq	%rdx, %rsi
	xorl	%r9d, %r9d
	.p2align	4
.Lpasetone_BB4_11:
	movzbl	(%rsi,%r9), %r11d
	movzbl	1(%rsi,%r9), %ebx
	movzbl	3(%rsi,%r9), %ecx
	movq	8(%rsi,%r9), %r10
	leal	-1(%r11), %r15d
	cmpl	$8, %r15d
	ja	.Lpasetone_BB4_12
	movzbl	2(%rsi,%r9), %r14d
	movl	4(%rsi,%r9), %ebp
	leaq	.Lpasetone_JTI4_0(%rip), %r12
	movslq	(%r12,%r15,4), %r15
	addq	%r12, %r15
	jmpq	*%r15
.Lpasetone_BB4_21:
	testq	%rcx, %rcx
	setne	%r14b
	movl	%ecx, %r15d
	orb	%bl, %r15b
	cmpb	$2, %r15b
	setb	%r15b
	jmp	.Lpasetone_BB4_19
.Lpasetone_BB4_18:
	cmpb	$2, %bl
	setb	%r14b
	cmpl	$2, %ecx
	sete	%r15b
.Lpasetone_BB4_19:
	cmpl	$65536, %ebp
	setb	%bpl
	andb	%r14b, %bpl
	jmp	.Lpasetone_BB4_23
.Lpasetone_BB4_17:
	cmpb	$2, %bl
	setb	%r14b
	leal	-1(%rcx), %r15d
	cmpb	$5, %r15b
	jmp	.Lpasetone_BB4_16
.Lpasetone_BB4_14:
	cmpb	$2, %bl
	setb	%r15b
	movl	%ecx, %r12d
	xorb	$1, %r12b
	orb	%r12b, %r14b
	sete	%r14b
	testl	%ebp, %ebp
	sete	%r12b
	andb	%r15b, %r12b
	andb	%r14b, %r12b
	cmpb	$2, %r10b
	setb	%bpl
	andb	%r12b, %bpl
	jmp	.Lpasetone_BB4_24
.Lpasetone_BB4_15:
	cmpb	$2, %bl
	setb	%r14b
	leal	-1(%rcx), %r15d
	cmpb	$8, %r15b
.Lpasetone_BB4_16:
	setb	%r15b
	testl	%ebp, %ebp
	sete	%bpl
	andb	%r14b, %bpl
	jmp	.Lpasetone_BB4_23
.Lpasetone_BB4_22:
	cmpl	$65536, %ebp
	setb	%r15b
	movl	%ecx, %ebp
	orb	%bl, %bpl
	orb	%r14b, %bpl
	orb	%r10b, %bpl
	sete	%bpl
	.p2align	4
.Lpasetone_BB4_23:
	andb	%r15b, %bpl
.Lpasetone_BB4_24:
	xorl	%r14d, %r14d
	testb	%bl, %bl
	movq	%rcx, %rbx
	cmovneq	%r14, %rbx
	cmpb	$8, %r11b
	cmoveq	%rbx, %rcx
	cmpb	$3, %r11b
	cmoveq	%rbx, %rcx
	cmpq	$8, %rcx
	setae	%r11b
	shll	$3, %ecx
	shrq	%cl, %r10
	testq	%r10, %r10
	sete	%cl
	orb	%r11b, %cl
	cmpb	$1, %cl
	jne	.Lpasetone_BB4_25
	movl	$0, %r10d
	movl	$0, %ecx
	testb	%bpl, %bpl
	je	.Lpasetone_BB4_27
	addq	$16, %r9
	cmpq	%r9, %r8
	jne	.Lpasetone_BB4_11
	jmp	.Lpasetone_BB4_9
.Lpasetone_BB4_12:
	xorl	%ebp, %ebp
	jmp	.Lpasetone_BB4_24
.Lpasetone_BB4_7:
	xorl	%ecx, %ecx
	movq	%rdx, %r14
	movl	$1, %r10d
	jmp	.Lpasetone_BB4_27
.Lpasetone_BB4_9:
	movq	%rdx, %r14
	movl	$1, %r10d
	movq	%rax, %rcx
	jmp	.Lpasetone_BB4_27
.Lpasetone_BB4_25:
	xorl	%r10d, %r10d
	xorl	%ecx, %ecx
.Lpasetone_BB4_27:
	movq	%r10, (%rdi)
	movq	%r14, 8(%rdi)
	movq	%rcx, 16(%rdi)
	jmp	.Lpasetone_BB4_2
.Lpasetone_func_end4:
	.size	"transcript::read_section", .Lpasetone_func_end4-"transcript::read_section"
	.cfi_endproc
	.section	".rodata.transcript::read_section","a",@progbits
	.p2align	2, 0x0
.Lpasetone_JTI4_0:
	.long	.Lpasetone_BB4_14-.Lpasetone_JTI4_0
	.long	.Lpasetone_BB4_15-.Lpasetone_JTI4_0
	.long	.Lpasetone_BB4_17-.Lpasetone_JTI4_0
	.long	.Lpasetone_BB4_21-.Lpasetone_JTI4_0
	.long	.Lpasetone_BB4_18-.Lpasetone_JTI4_0
	.long	.Lpasetone_BB4_21-.Lpasetone_JTI4_0
	.long	.Lpasetone_BB4_18-.Lpasetone_JTI4_0
	.long	.Lpasetone_BB4_21-.Lpasetone_JTI4_0
	.long	.Lpasetone_BB4_22-.Lpasetone_JTI4_0

	.section	.rodata.cst16,"aM",@progbits,16
	.p2align	4, 0x0
.Lpasetone_CPI5_0:
	.long	1
	.long	0
	.long	0
	.long	0
	.section	.rodata.cst4,"aM",@progbits,4
	.p2align	2, 0x0
.Lpasetone_CPI5_1:
	.long	1
	.section	".text.tuners::set_frequency","ax",@progbits
	.p2align	4
	.type	"tuners::set_frequency",@function
"tuners::set_frequency":
	.cfi_startproc
	pushq	%rbp
	.cfi_def_cfa_offset 16
	pushq	%r15
	.cfi_def_cfa_offset 24
	pushq	%r14
	.cfi_def_cfa_offset 32
	pushq	%r13
	.cfi_def_cfa_offset 40
	pushq	%r12
	.cfi_def_cfa_offset 48
	pushq	%rbx
	.cfi_def_cfa_offset 56
	subq	$536, %rsp
	.cfi_def_cfa_offset 592
	.cfi_offset %rbx, -56
	.cfi_offset %r12, -48
	.cfi_offset %r13, -40
	.cfi_offset %r14, -32
	.cfi_offset %r15, -24
	.cfi_offset %rbp, -16
	movq	%r9, %r12
	movq	%r8, %r15
	movq	%rcx, %r14
	movq	%rdi, %rbx
	leaq	304(%rsp), %rdi
	callq	"records::decode_tuner"
	cmpb	$1, 304(%rsp)
	jne	.Lpasetone_BB5_3
	movq	384(%rsp), %r13
	movq	%r14, %rsi
	negq	%rsi
	cmpq	$78, 632(%rsp)
	setb	%al
	shlb	$3, %al
	cmpq	%rsi, %r13
	movzbl	%al, %edx
	movl	$2, %eax
	cmovael	%eax, %edx
	testb	%dl, %dl
	je	.Lpasetone_BB5_5
	movzbl	%dl, %eax
	xorps	%xmm0, %xmm0
	movups	%xmm0, (%rbx)
	movl	%eax, 16(%rbx)
	movq	$0, 20(%rbx)
	movl	$0, 28(%rbx)
	jmp	.Lpasetone_BB5_4
.Lpasetone_BB5_3:
	xorps	%xmm0, %xmm0
	movups	%xmm0, (%rbx)
	movss	.Lpasetone_CPI5_1(%rip), %xmm0
	movups	%xmm0, 16(%rbx)
	jmp	.Lpasetone_BB5_4
.Lpasetone_BB5_5:
	movzbl	312(%rsp), %r11d
	movzbl	313(%rsp), %ecx
	movb	%cl, (%rsp)
	leaq	314(%rsp), %rbp
	movl	368(%rsp), %r10d
	movl	372(%rsp), %ecx
	movzbl	376(%rsp), %edx
	movb	%dl, 1(%rsp)
	movd	380(%rsp), %xmm2
	movzbl	392(%rsp), %edx
	movb	%dl, 2(%rsp)
	cmpq	%rsi, %r13
	setae	%dl
	testl	%r10d, %r10d
	sete	%sil
	testl	%ecx, %ecx
	sete	%dil
	orb	%sil, %dil
	orb	%dil, %dl
	je	.Lpasetone_BB5_7
	movzbl	%dil, %edx
	subl	%edx, %eax
	jmp	.Lpasetone_BB5_10
.Lpasetone_BB5_7:
	movl	$8, %eax
	cmpq	$856, 616(%rsp)
	jb	.Lpasetone_BB5_10
	movl	$9, %eax
	cmpq	$53, %r12
	jb	.Lpasetone_BB5_10
	movl	$10, %eax
	cmpq	$34, 600(%rsp)
	ja	.Lpasetone_BB5_11
.Lpasetone_BB5_10:
	movups	(%rbp), %xmm0
	movups	11(%rbp), %xmm1
	movups	%xmm1, 59(%rsp)
	movaps	%xmm0, 48(%rsp)
	movups	27(%rbp), %xmm0
	movups	38(%rbp), %xmm1
	movaps	%xmm0, 16(%rsp)
	movups	%xmm1, 27(%rsp)
	xorl	%r14d, %r14d
	movb	$1, %dil
	xorl	%esi, %esi
	xorl	%r15d, %r15d
	xorl	%edx, %edx
.Lpasetone_BB5_12:
	testb	%dil, %dil
	setne	%r8b
	testq	%rsi, %rsi
	sete	%r9b
	testb	%r9b, %r8b
	jne	.Lpasetone_BB5_14
	movq	624(%rsp), %r8
	movl	%r11d, %r12d
	movzbl	2(%rsp), %r11d
	andb	$1, %r11b
	movd	%xmm2, %r9d
	ucomiss	%xmm2, %xmm2
	movl	%r10d, %ebp
	movl	$2143289344, %r10d
	cmovnpl	%r9d, %r10d
	movzbl	1(%rsp), %r9d
	andb	$1, %r9b
	movb	%r12b, (%r8)
	movzbl	(%rsp), %r12d
	movb	%r12b, 1(%r8)
	movaps	48(%rsp), %xmm0
	movups	%xmm0, 2(%r8)
	movups	59(%rsp), %xmm0
	movups	%xmm0, 13(%r8)
	movl	%ebp, 29(%r8)
	movl	%ecx, 33(%r8)
	movb	%r9b, 37(%r8)
	movl	%r10d, 38(%r8)
	movq	%r13, 42(%r8)
	movb	%r11b, 50(%r8)
	movaps	16(%rsp), %xmm0
	movups	%xmm0, 51(%r8)
	movups	27(%rsp), %xmm0
	movups	%xmm0, 62(%r8)
.Lpasetone_BB5_14:
	movzbl	%dil, %r8d
	testb	%dil, %dil
	je	.Lpasetone_BB5_15
	cmpl	$2, %r8d
	jne	.Lpasetone_BB5_17
	movl	$11, %r8d
	xorl	%edi, %edi
	jmp	.Lpasetone_BB5_19
.Lpasetone_BB5_15:
	movq	%r14, %rdi
	movq	%r8, %r14
	jmp	.Lpasetone_BB5_19
.Lpasetone_BB5_17:
	xorl	%edi, %edi
	xorl	%r14d, %r14d
	movl	%eax, %r8d
.Lpasetone_BB5_19:
	movq	%rdi, (%rbx)
	movq	%r14, 8(%rbx)
	movl	%r8d, 16(%rbx)
	movl	%esi, 20(%rbx)
	movl	%r15d, 24(%rbx)
	movl	%edx, 28(%rbx)
.Lpasetone_BB5_4:
	addq	$536, %rsp
	.cfi_def_cfa_offset 56
	popq	%rbx
	.cfi_def_cfa_offset 48
	popq	%r12
	.cfi_def_cfa_offset 40
	popq	%r13
	.cfi_def_cfa_offset 32
	popq	%r14
	.cfi_def_cfa_offset 24
	popq	%r15
	.cfi_def_cfa_offset 16
	popq	%rbp
	.cfi_def_cfa_offset 8
	retq
.Lpasetone_BB5_11:
	.cfi_def_cfa_offset 592
	leaq	(%r14,%r13), %rdx
	movzbl	%r11b, %r12d
	leaq	400(%rsp), %rdi
	movl	%r12d, %esi
	movl	%r10d, 12(%rsp)
	movl	%ecx, 8(%rsp)
	movb	%r11b, 3(%rsp)
	movd	%xmm2, 4(%rsp)
	callq	"pll::plan_pll"
	movzbl	400(%rsp), %ecx
	movq	$0, 240(%rsp)
	xorps	%xmm0, %xmm0
	movaps	%xmm0, 80(%rsp)
	movaps	%xmm0, 96(%rsp)
	movaps	%xmm0, 112(%rsp)
	movaps	%xmm0, 128(%rsp)
	movaps	%xmm0, 144(%rsp)
	movq	$0, 160(%rsp)
	movb	%r12b, 240(%rsp)
	movzbl	2(%rsp), %eax
	movb	%al, 241(%rsp)
	movq	%rcx, 248(%rsp)
	movq	%rcx, %r12
	movups	408(%rsp), %xmm1
	movups	424(%rsp), %xmm2
	movups	%xmm1, 256(%rsp)
	movups	%xmm2, 272(%rsp)
	movq	440(%rsp), %rax
	movq	%rax, 288(%rsp)
	movq	%r14, 296(%rsp)
	movzbl	(%rsp), %eax
	movb	%al, 448(%rsp)
	movups	(%rbp), %xmm1
	movups	11(%rbp), %xmm2
	movups	%xmm1, 449(%rsp)
	movups	%xmm2, 460(%rsp)
	movups	27(%rbp), %xmm1
	movups	38(%rbp), %xmm2
	movups	%xmm1, 476(%rsp)
	movups	%xmm2, 487(%rsp)
	movups	%xmm0, 503(%rsp)
	movups	%xmm0, 519(%rsp)
	movb	$0, 535(%rsp)
	leaq	80(%rsp), %rdi
	leaq	448(%rsp), %rsi
	leaq	240(%rsp), %rdx
	movq	%r15, %rcx
	movq	592(%rsp), %r8
	movq	608(%rsp), %rbp
	movq	%rbp, %r9
	callq	"tuning::tune"
	movd	4(%rsp), %xmm2
	movzbl	3(%rsp), %r11d
	movl	8(%rsp), %ecx
	movl	12(%rsp), %r10d
	movzwl	162(%rsp), %r15d
	cmpl	$10, %r15d
	setne	%r8b
	movzbl	164(%rsp), %edx
	andb	1(%rsp), %r8b
	orb	%dl, %r8b
	andb	$1, %r8b
	xorl	%eax, %eax
	testq	%r12, %r12
	sete	%al
	cmoveq	%r12, %r14
	movq	136(%rsp), %rsi
	movq	%rsi, %rdi
	shlq	$4, %rdi
	cmpb	$0, 144(%rsp)
	cmovneq	152(%rsp), %r14
	movl	%esi, (%rbp,%rdi)
	movl	%edi, 4(%rbp,%rdi)
	sete	%r9b
	movl	$2, %edi
	cmovel	%eax, %edi
	andb	%r9b, %al
	movzbl	%al, %eax
	addl	%eax, %eax
	movzbl	80(%rsp), %r9d
	movb	%r9b, (%rsp)
	movups	81(%rsp), %xmm0
	movaps	%xmm0, 208(%rsp)
	movups	92(%rsp), %xmm0
	movups	%xmm0, 219(%rsp)
	movups	108(%rsp), %xmm0
	movaps	%xmm0, 176(%rsp)
	movups	119(%rsp), %xmm0
	movups	%xmm0, 187(%rsp)
	movaps	208(%rsp), %xmm0
	movaps	%xmm0, 48(%rsp)
	movups	219(%rsp), %xmm0
	movups	%xmm0, 59(%rsp)
	movaps	176(%rsp), %xmm0
	movaps	%xmm0, 16(%rsp)
	movups	187(%rsp), %xmm0
	movups	%xmm0, 27(%rsp)
	andl	$1, %edx
	movb	%r8b, 1(%rsp)
	jmp	.Lpasetone_BB5_12
.Lpasetone_func_end5:
	.size	"tuners::set_frequency", .Lpasetone_func_end5-"tuners::set_frequency"
	.cfi_endproc

	.section	".text.pll::plan_pll","ax",@progbits
	.p2align	4
	.type	"pll::plan_pll",@function
"pll::plan_pll":
	.cfi_startproc
	testl	%ecx, %ecx
	je	.Lpasetone_BB6_68
	cmpq	$1799999999, %rdx
	ja	.Lpasetone_BB6_68
	cmpq	$884999999, %rdx
	jbe	.Lpasetone_BB6_4
	movl	$2, %r9d
	xorl	%r8d, %r8d
	jmp	.Lpasetone_BB6_14
.Lpasetone_BB6_4:
	cmpq	$442499999, %rdx
	jbe	.Lpasetone_BB6_6
	movb	$1, %r8b
	movl	$4, %r9d
	jmp	.Lpasetone_BB6_14
.Lpasetone_BB6_6:
	cmpq	$221249999, %rdx
	jbe	.Lpasetone_BB6_8
	movb	$2, %r8b
	movl	$8, %r9d
	jmp	.Lpasetone_BB6_14
.Lpasetone_BB6_8:
	cmpq	$110624999, %rdx
	jbe	.Lpasetone_BB6_10
	movb	$3, %r8b
	movl	$16, %r9d
	jmp	.Lpasetone_BB6_14
.Lpasetone_BB6_10:
	cmpq	$55312499, %rdx
	jbe	.Lpasetone_BB6_12
	movb	$4, %r8b
	movl	$32, %r9d
	jmp	.Lpasetone_BB6_14
.Lpasetone_BB6_12:
	cmpq	$27656250, %rdx
	jb	.Lpasetone_BB6_68
	movb	$5, %r8b
	movl	$64, %r9d
.Lpasetone_BB6_14:
	movl	%ecx, %ecx
	imulq	%r9, %rdx
	leaq	(%rcx,%rcx), %r10
	movq	%rdx, %rax
	orq	%r10, %rax
	shrq	$32, %rax
	je	.Lpasetone_BB6_15
	movq	%rdx, %rax
	xorl	%edx, %edx
	divq	%r10
	cmpq	$13, %rax
	jae	.Lpasetone_BB6_18
	jmp	.Lpasetone_BB6_68
.Lpasetone_BB6_15:
	movl	%edx, %eax
	xorl	%edx, %edx
	divl	%r10d
	cmpq	$13, %rax
	jb	.Lpasetone_BB6_68
.Lpasetone_BB6_18:
	xorl	%r10d, %r10d
	testb	%sil, %sil
	setne	%r10b
	shll	$6, %r10d
	orq	$63, %r10
	cmpq	%rax, %r10
	jae	.Lpasetone_BB6_19
.Lpasetone_BB6_68:
	xorps	%xmm0, %xmm0
	movups	%xmm0, 32(%rdi)
	movups	%xmm0, 16(%rdi)
	movups	%xmm0, (%rdi)
	retq
.Lpasetone_BB6_19:
	pushq	%rbx
	.cfi_def_cfa_offset 16
	.cfi_offset %rbx, -16
	movq	%rax, %r10
	movq	%rdx, %rax
	shrq	$3, %rax
	movabsq	$2361183241434822607, %rsi
	movq	%rdx, %r11
	mulq	%rsi
	shrq	$4, %rdx
	imulq	$274877907, %rcx, %rsi
	shrq	$37, %rsi
	andl	$-2, %esi
	cmpq	$2000, %r11
	jae	.Lpasetone_BB6_21
	xorl	%eax, %eax
	movq	%rdx, %r11
	cmpq	$2, %r11
	movq	%r10, %rcx
	jb	.Lpasetone_BB6_66
	jmp	.Lpasetone_BB6_23
.Lpasetone_BB6_21:
	movl	%esi, %ecx
	shrl	%ecx
	xorl	%ebx, %ebx
	xorl	%eax, %eax
	cmpq	%rcx, %rdx
	seta	%al
	cmovaq	%rcx, %rbx
	shll	$15, %eax
	movq	%rdx, %r11
	subq	%rbx, %r11
	cmpq	$2, %r11
	movq	%r10, %rcx
	jae	.Lpasetone_BB6_23
.Lpasetone_BB6_66:
	movq	%r11, %r10
.Lpasetone_BB6_67:
	leal	1011(%rcx), %esi
	shrl	$2, %esi
	movl	%ecx, %r11d
	shlb	$6, %r11b
	addb	%sil, %r11b
	addb	$-64, %r11b
	movq	$1, (%rdi)
	movq	%r9, 8(%rdi)
	movb	%r8b, 16(%rdi)
	movb	%cl, 17(%rdi)
	movb	%r11b, 18(%rdi)
	movl	$0, 19(%rdi)
	movb	$0, 23(%rdi)
	movq	%rdx, 24(%rdi)
	movw	%ax, 32(%rdi)
	movl	$0, 34(%rdi)
	movw	$0, 38(%rdi)
	movq	%r10, 40(%rdi)
	popq	%rbx
	.cfi_def_cfa_offset 8
	retq
.Lpasetone_BB6_23:
	.cfi_def_cfa_offset 16
	movl	%esi, %ebx
	shrl	$2, %ebx
	movq	%r11, %r10
	subq	%rbx, %r10
	jbe	.Lpasetone_BB6_24
	orl	$16384, %eax
	cmpq	$2, %r10
	jb	.Lpasetone_BB6_67
	jmp	.Lpasetone_BB6_26
.Lpasetone_BB6_24:
	movq	%r11, %r10
.Lpasetone_BB6_26:
	movl	%esi, %ebx
	shrl	$3, %ebx
	movq	%r10, %r11
	subq	%rbx, %r11
	jbe	.Lpasetone_BB6_27
	addl	$8192, %eax
	movq	%r11, %r10
	cmpq	$2, %r11
	jb	.Lpasetone_BB6_67
	jmp	.Lpasetone_BB6_29
.Lpasetone_BB6_27:
	movq	%r10, %r11
.Lpasetone_BB6_29:
	movl	%esi, %ebx
	shrl	$4, %ebx
	movq	%r11, %r10
	subq	%rbx, %r10
	jbe	.Lpasetone_BB6_30
	addl	$4096, %eax
	cmpq	$2, %r10
	jb	.Lpasetone_BB6_67
	jmp	.Lpasetone_BB6_32
.Lpasetone_BB6_30:
	movq	%r11, %r10
.Lpasetone_BB6_32:
	movl	%esi, %ebx
	shrl	$5, %ebx
	movq	%r10, %r11
	subq	%rbx, %r11
	jbe	.Lpasetone_BB6_33
	addl	$2048, %eax
	movq	%r11, %r10
	cmpq	$2, %r11
	jb	.Lpasetone_BB6_67
	jmp	.Lpasetone_BB6_35
.Lpasetone_BB6_33:
	movq	%r10, %r11
.Lpasetone_BB6_35:
	movl	%esi, %ebx
	shrl	$6, %ebx
	movq	%r11, %r10
	subq	%rbx, %r10
	jbe	.Lpasetone_BB6_36
	addl	$1024, %eax
	cmpq	$2, %r10
	jb	.Lpasetone_BB6_67
	jmp	.Lpasetone_BB6_38
.Lpasetone_BB6_36:
	movq	%r11, %r10
.Lpasetone_BB6_38:
	movl	%esi, %ebx
	shrl	$7, %ebx
	movq	%r10, %r11
	subq	%rbx, %r11
	jbe	.Lpasetone_BB6_39
	addl	$512, %eax
	movq	%r11, %r10
	cmpq	$2, %r11
	jb	.Lpasetone_BB6_67
	jmp	.Lpasetone_BB6_41
.Lpasetone_BB6_39:
	movq	%r10, %r11
.Lpasetone_BB6_41:
	movl	%esi, %ebx
	shrl	$8, %ebx
	movq	%r11, %r10
	subq	%rbx, %r10
	jbe	.Lpasetone_BB6_42
	addl	$256, %eax
	cmpq	$2, %r10
	jb	.Lpasetone_BB6_67
	jmp	.Lpasetone_BB6_44
.Lpasetone_BB6_42:
	movq	%r11, %r10
.Lpasetone_BB6_44:
	movl	%esi, %ebx
	shrl	$9, %ebx
	movq	%r10, %r11
	subq	%rbx, %r11
	jbe	.Lpasetone_BB6_45
	subl	$-128, %eax
	movq	%r11, %r10
	cmpq	$2, %r11
	jb	.Lpasetone_BB6_67
	jmp	.Lpasetone_BB6_47
.Lpasetone_BB6_45:
	movq	%r10, %r11
.Lpasetone_BB6_47:
	movl	%esi, %ebx
	shrl	$10, %ebx
	movq	%r11, %r10
	subq	%rbx, %r10
	jbe	.Lpasetone_BB6_48
	addl	$64, %eax
	cmpq	$2, %r10
	jb	.Lpasetone_BB6_67
	jmp	.Lpasetone_BB6_50
.Lpasetone_BB6_48:
	movq	%r11, %r10
.Lpasetone_BB6_50:
	movl	%esi, %ebx
	shrl	$11, %ebx
	movq	%r10, %r11
	subq	%rbx, %r11
	jbe	.Lpasetone_BB6_51
	addl	$32, %eax
	movq	%r11, %r10
	cmpq	$2, %r11
	jb	.Lpasetone_BB6_67
	jmp	.Lpasetone_BB6_53
.Lpasetone_BB6_51:
	movq	%r10, %r11
.Lpasetone_BB6_53:
	movl	%esi, %ebx
	shrl	$12, %ebx
	movq	%r11, %r10
	subq	%rbx, %r10
	jbe	.Lpasetone_BB6_54
	addl	$16, %eax
	cmpq	$2, %r10
	jb	.Lpasetone_BB6_67
	jmp	.Lpasetone_BB6_56
.Lpasetone_BB6_54:
	movq	%r11, %r10
.Lpasetone_BB6_56:
	movl	%esi, %ebx
	shrl	$13, %ebx
	movq	%r10, %r11
	subq	%rbx, %r11
	jbe	.Lpasetone_BB6_57
	addl	$8, %eax
	movq	%r11, %r10
	cmpq	$2, %r11
	jb	.Lpasetone_BB6_67
	jmp	.Lpasetone_BB6_59
.Lpasetone_BB6_57:
	movq	%r10, %r11
.Lpasetone_BB6_59:
	movl	%esi, %ebx
	shrl	$14, %ebx
	movq	%r11, %r10
	subq	%rbx, %r10
	jbe	.Lpasetone_BB6_60
	addl	$4, %eax
	cmpq	$2, %r10
	jb	.Lpasetone_BB6_67
	jmp	.Lpasetone_BB6_62
.Lpasetone_BB6_60:
	movq	%r11, %r10
.Lpasetone_BB6_62:
	movl	%esi, %ebx
	shrl	$15, %ebx
	movq	%r10, %r11
	subq	%rbx, %r11
	jbe	.Lpasetone_BB6_64
	addl	$2, %eax
	jmp	.Lpasetone_BB6_66
.Lpasetone_BB6_64:
	shrl	$16, %esi
	movq	%r10, %r11
	subq	%rsi, %r11
	jbe	.Lpasetone_BB6_67
	incl	%eax
	jmp	.Lpasetone_BB6_66
.Lpasetone_func_end6:
	.size	"pll::plan_pll", .Lpasetone_func_end6-"pll::plan_pll"
	.cfi_endproc

	.section	.rodata.cst16,"aM",@progbits,16
	.p2align	4, 0x0
.Lpasetone_CPI7_0:
	.byte	255
	.byte	16
	.byte	11
	.byte	11
	.byte	8
	.byte	0
	.byte	63
	.byte	9
	.byte	0
	.byte	63
	.byte	29
	.byte	24
	.byte	56
	.byte	28
	.byte	36
	.byte	4
	.section	".text.tuning::tune","ax",@progbits
	.p2align	4
	.type	"tuning::tune",@function
"tuning::tune":
	.cfi_startproc
	pushq	%rbp
	.cfi_def_cfa_offset 16
	pushq	%r15
	.cfi_def_cfa_offset 24
	pushq	%r14
	.cfi_def_cfa_offset 32
	pushq	%r13
	.cfi_def_cfa_offset 40
	pushq	%r12
	.cfi_def_cfa_offset 48
	pushq	%rbx
	.cfi_def_cfa_offset 56
	subq	$200, %rsp
	.cfi_def_cfa_offset 256
	.cfi_offset %rbx, -56
	.cfi_offset %r12, -48
	.cfi_offset %r13, -40
	.cfi_offset %r14, -32
	.cfi_offset %r15, -24
	.cfi_offset %rbp, -16
	movq	%r8, -56(%rsp)
	movq	80(%rsi), %rax
	movq	%rax, 32(%rsp)
	movups	64(%rsi), %xmm0
	movaps	%xmm0, 16(%rsp)
	movups	(%rsi), %xmm0
	movups	16(%rsi), %xmm1
	movups	32(%rsi), %xmm2
	movups	48(%rsi), %xmm3
	movaps	%xmm3, (%rsp)
	movaps	%xmm2, -16(%rsp)
	movaps	%xmm1, -32(%rsp)
	movaps	%xmm0, -48(%rsp)
	movzbl	(%rdx), %eax
	movb	%al, -112(%rsp)
	movzbl	1(%rdx), %r11d
	movzbl	8(%rdx), %ebp
	movzbl	24(%rdx), %eax
	movb	%al, -88(%rsp)
	movzbl	26(%rdx), %r12d
	movq	32(%rdx), %rax
	movq	%rax, 40(%rsp)
	movzwl	40(%rdx), %eax
	movq	%rax, 192(%rsp)
	movq	56(%rdx), %rdx
	xorps	%xmm0, %xmm0
	movaps	%xmm0, 112(%rsp)
	movaps	%xmm0, 96(%rsp)
	movaps	%xmm0, 80(%rsp)
	movaps	%xmm0, 64(%rsp)
	movaps	%xmm0, 48(%rsp)
	movq	$0, 128(%rsp)
	movq	8(%rsp), %rbx
	movq	16(%rsp), %r13
	testb	%r13b, %r13b
	je	.Lpasetone_BB7_4
	movq	%rcx, %rsi
	movzwl	38(%rsp), %r14d
	movzbl	37(%rsp), %ecx
	movzbl	33(%rsp), %r15d
	movzbl	32(%rsp), %eax
	movq	24(%rsp), %r8
	movq	%r13, %r10
	andq	$-256, %r10
	testb	%r13b, %r13b
	je	.Lpasetone_BB7_5
.Lpasetone_BB7_2:
	testb	$1, %al
	je	.Lpasetone_BB7_12
	xorl	%eax, %eax
	cmpb	$0, (%rsi,%rbx)
	setne	%al
	movq	%rbx, %rcx
	shlq	$4, %rcx
	shll	$8, %eax
	orq	$16777217, %rax
	movq	%rax, (%r9,%rcx)
	movq	$0, 8(%r9,%rcx)
	incq	%rbx
	movzbl	%r13b, %r10d
	xorl	%r15d, %r15d
	xorl	%ecx, %ecx
	xorl	%r14d, %r14d
	jmp	.Lpasetone_BB7_13
.Lpasetone_BB7_4:
	xorl	%r10d, %r10d
	xorl	%r13d, %r13d
	movq	%rcx, %rsi
	cmpb	$0, (%rcx,%rbx)
	sete	%r14b
	movq	%rbx, %r8
	cmoveq	%r10, %r8
	setne	%r13b
	movq	%rbx, %rax
	shlq	$4, %rax
	movl	%r13d, %ecx
	shll	$8, %ecx
	orq	$16777217, %rcx
	movq	%rcx, (%r9,%rax)
	movq	$1, 8(%r9,%rax)
	movl	%r14d, %eax
	incq	%rbx
	xorl	%r15d, %r15d
	xorl	%ecx, %ecx
	xorl	%r14d, %r14d
	testb	%r13b, %r13b
	jne	.Lpasetone_BB7_2
.Lpasetone_BB7_5:
	movl	%eax, -92(%rsp)
	movq	%rdi, -80(%rsp)
	movzbl	%r12b, %eax
	movq	%rax, 184(%rsp)
	movzwl	34(%rsp), %eax
	movq	%rax, -64(%rsp)
	movzbl	36(%rsp), %eax
	movb	%al, -113(%rsp)
	movzbl	-48(%rsp), %edi
	cmpq	$50000000, %rdx
	movl	$14615048, %eax
	movl	$12452360, %ecx
	cmovbq	%rax, %rcx
	cmpq	$55000000, %rdx
	movl	$9110024, %eax
	cmovbq	%rcx, %rax
	cmpq	$60000000, %rdx
	movl	$8061448, %ecx
	cmovbq	%rax, %rcx
	cmpq	$65000000, %rdx
	movl	$6881800, %eax
	cmovbq	%rcx, %rax
	cmpq	$70000000, %rdx
	movl	$5767688, %ecx
	cmovbq	%rax, %rcx
	cmpq	$75000000, %rdx
	movl	$4456960, %eax
	cmovbq	%rcx, %rax
	cmpq	$90000000, %rdx
	movl	$3408384, %ecx
	cmovbq	%rax, %rcx
	cmpq	$110000000, %rdx
	movl	$2359808, %eax
	cmovbq	%rcx, %rax
	cmpq	$140000000, %rdx
	movl	$1311232, %ecx
	cmovbq	%rax, %rcx
	cmpq	$180000000, %rdx
	movl	$1245696, %eax
	cmovbq	%rcx, %rax
	cmpq	$250000000, %rdx
	movl	$1114624, %ecx
	cmovbq	%rax, %rcx
	cmpq	$280000000, %rdx
	movl	$512, %eax
	cmovbq	%rcx, %rax
	cmpq	$310000000, %rdx
	movl	$16640, %ecx
	cmovbq	%rax, %rcx
	cmpq	$588000000, %rdx
	movl	$16384, %eax
	cmovbq	%rcx, %rax
	movl	%eax, %ecx
	shrl	$16, %ecx
	xorl	%r13d, %r13d
	testb	$1, %r11b
	movl	%eax, %edx
	cmovnel	%r13d, %edx
	movl	$389062679, 148(%rsp)
	movb	%dl, 152(%rsp)
	movw	$6664, 153(%rsp)
	movb	%ah, 155(%rsp)
	movw	$7107, 156(%rsp)
	movb	%cl, 158(%rsp)
	movaps	.Lpasetone_CPI7_0(%rip), %xmm0
	movups	%xmm0, 159(%rsp)
	movl	$438242846, 175(%rsp)
	movw	$12320, 179(%rsp)
	shll	$16, %edi
	movq	%rdi, -72(%rsp)
	leaq	33554434(%rdi), %r11
	leaq	150(%rsp), %r10
	movq	%rbx, %rdx
	shlq	$4, %rdx
	movq	%r9, -104(%rsp)
	addq	%r9, %rdx
	movq	%rbx, %rdi
	leaq	(%rsi,%rbx), %r15
	.p2align	4
.Lpasetone_BB7_6:
	movzbl	-2(%r10), %r8d
	movzbl	(%r15,%r13), %r9d
	xorl	%ecx, %ecx
	testb	%r9b, %r9b
	setne	%cl
	leal	-5(%r8), %eax
	movzbl	%al, %eax
	movzbl	-47(%rsp,%rax), %r14d
	movzbl	-1(%r10), %ebx
	xorb	%r14b, %bl
	andb	(%r10), %bl
	xorb	%r14b, %bl
	movzbl	%bl, %ebx
	movb	%bl, -47(%rsp,%rax)
	shll	$8, %ebx
	orq	%r8, %rbx
	shll	$8, %ecx
	orq	%r11, %rcx
	testb	%r9b, %r9b
	setne	-20(%rsp,%rax)
	movq	%rcx, (%rdx)
	movq	%rbx, 8(%rdx)
	jne	.Lpasetone_BB7_14
	incq	%r13
	addq	$3, %r10
	addq	$16, %rdx
	cmpq	$11, %r13
	jne	.Lpasetone_BB7_6
	leaq	(%rdi,%r13), %rcx
	cmpb	$1, %bpl
	jne	.Lpasetone_BB7_19
	movq	%rdi, %rbx
	cmpq	$0, 40(%rsp)
	sete	%dil
	movzbl	-88(%rsp), %ebp
	shlb	$5, %bpl
	leaq	(%rbx,%r13), %r8
	movq	%rsi, %r15
	movzbl	(%rsi,%r8), %r10d
	xorl	%r9d, %r9d
	testb	%r10b, %r10b
	setne	%r9b
	movzbl	-36(%rsp), %eax
	andl	$31, %eax
	movzbl	%bpl, %esi
	orq	%rax, %rsi
	movb	%sil, -36(%rsp)
	movl	%esi, %eax
	shll	$8, %eax
	orq	$16, %rax
	shll	$8, %r9d
	orq	%r11, %r9
	leaq	(%rbx,%r13), %r14
	incq	%r14
	testb	%r10b, %r10b
	setne	-9(%rsp)
	movq	%r9, (%rdx)
	movq	%rax, 8(%rdx)
	je	.Lpasetone_BB7_23
	movq	%rcx, %r10
	movq	-80(%rsp), %rdi
	movzbl	-113(%rsp), %r11d
	movq	-104(%rsp), %r12
	movq	-64(%rsp), %r13
	xorl	%edx, %edx
	testb	$1, -92(%rsp)
	je	.Lpasetone_BB7_32
.Lpasetone_BB7_11:
	xorl	%eax, %eax
	cmpb	$0, (%r15,%r14)
	setne	%al
	shlq	$4, %r14
	shll	$8, %eax
	orq	$16777217, %rax
	movq	%rax, (%r12,%r14)
	movq	$0, 8(%r12,%r14)
	movq	%r10, %r9
	leaq	2(%r10), %r14
	xorl	%edx, %edx
	jmp	.Lpasetone_BB7_33
.Lpasetone_BB7_12:
	movzbl	%r13b, %eax
	orq	%rax, %r10
.Lpasetone_BB7_13:
	movq	%rbx, 8(%rsp)
	movq	%r10, 16(%rsp)
	movq	%r8, 24(%rsp)
	movb	$0, 32(%rsp)
	movb	%r15b, 33(%rsp)
	movb	%cl, 37(%rsp)
	movw	%r14w, 38(%rsp)
	jmp	.Lpasetone_BB7_56
.Lpasetone_BB7_14:
	testb	$1, -92(%rsp)
	movq	%rdi, %r9
	je	.Lpasetone_BB7_17
	leaq	(%r9,%r13), %rax
	xorl	%ecx, %ecx
	movq	%rsi, %r15
	cmpb	$0, 1(%rsi,%rax)
	setne	%cl
	shll	$8, %ecx
	orq	$16777217, %rcx
	movq	%rcx, 16(%rdx)
	movq	$0, 24(%rdx)
	leaq	(%r9,%r13), %r14
	addq	$2, %r14
	movq	-80(%rsp), %rdi
	movq	-56(%rsp), %rsi
	addq	%r13, %r9
	cmpb	$1, %bpl
	je	.Lpasetone_BB7_18
.Lpasetone_BB7_16:
	movl	$1, %eax
	movzbl	-113(%rsp), %r11d
	movq	-64(%rsp), %r13
	jmp	.Lpasetone_BB7_55
.Lpasetone_BB7_17:
	leaq	(%r9,%r13), %r14
	incq	%r14
	movq	-80(%rsp), %rdi
	movq	%rsi, %r15
	movq	-56(%rsp), %rsi
	addq	%r13, %r9
	cmpb	$1, %bpl
	jne	.Lpasetone_BB7_16
.Lpasetone_BB7_18:
	movzbl	-88(%rsp), %ebp
	shlb	$5, %bpl
	xorl	%edx, %edx
	movl	$0, -92(%rsp)
	movzbl	-113(%rsp), %r11d
	movq	-64(%rsp), %r13
	jmp	.Lpasetone_BB7_35
.Lpasetone_BB7_19:
	movq	%rcx, %r14
	movq	-80(%rsp), %rdi
	movzbl	-113(%rsp), %r11d
	movq	-104(%rsp), %r10
	movq	-64(%rsp), %r13
	movq	%rsi, %r15
.Lpasetone_BB7_20:
	movl	-92(%rsp), %eax
	testb	$1, %al
	je	.Lpasetone_BB7_22
	xorl	%eax, %eax
	cmpb	$0, (%r15,%r14)
	setne	%al
	movq	%r14, %rcx
	shlq	$4, %rcx
	shll	$8, %eax
	orq	$16777217, %rax
	movq	%rax, (%r10,%rcx)
	movq	$0, 8(%r10,%rcx)
	incq	%r14
.Lpasetone_BB7_22:
	xorl	%r9d, %r9d
	xorl	%eax, %eax
	jmp	.Lpasetone_BB7_55
.Lpasetone_BB7_23:
	movzbl	1(%r15,%r8), %eax
	xorl	%r8d, %r8d
	testb	%al, %al
	setne	%r8b
	movq	184(%rsp), %rsi
	shll	$8, %esi
	orq	$20, %rsi
	shll	$8, %r8d
	orq	%r11, %r8
	leaq	(%rbx,%r13), %rcx
	addq	$2, %rcx
	testb	%al, %al
	movb	%r12b, -32(%rsp)
	setne	-5(%rsp)
	movq	%r8, 16(%rdx)
	movq	%rsi, 24(%rdx)
	movq	-104(%rsp), %r12
	je	.Lpasetone_BB7_25
	movq	%r14, %r10
	movq	%rcx, %r14
	movq	-80(%rsp), %rdi
	jmp	.Lpasetone_BB7_31
.Lpasetone_BB7_25:
	movb	%dil, 40(%rsp)
	movq	192(%rsp), %rsi
	movl	%esi, %eax
	shrl	$8, %eax
	leaq	(%rbx,%r13), %rdi
	movzbl	2(%r15,%rdi), %r8d
	xorl	%r9d, %r9d
	testb	%r8b, %r8b
	setne	%r9b
	movl	%esi, %r10d
	andl	$65280, %r10d
	orq	$22, %r10
	shll	$8, %r9d
	orq	%r11, %r9
	movb	%al, -30(%rsp)
	leaq	(%rbx,%r13), %r14
	addq	$3, %r14
	testb	%r8b, %r8b
	setne	-3(%rsp)
	movq	%r9, 32(%rdx)
	movq	%r10, 40(%rdx)
	movq	-80(%rsp), %rdi
	je	.Lpasetone_BB7_27
	movq	%rcx, %r10
	jmp	.Lpasetone_BB7_31
.Lpasetone_BB7_27:
	movl	%esi, %eax
	leaq	(%rbx,%r13), %rcx
	movzbl	3(%r15,%rcx), %ecx
	xorl	%r9d, %r9d
	testb	%cl, %cl
	setne	%r9b
	shll	$8, %esi
	orl	$21, %esi
	shll	$8, %r9d
	orq	%r11, %r9
	leaq	(%rbx,%r13), %r8
	addq	$4, %r8
	testb	%cl, %cl
	movb	%al, -31(%rsp)
	setne	-4(%rsp)
	movzwl	%si, %eax
	movq	%r9, 48(%rdx)
	movq	%rax, 56(%rdx)
	je	.Lpasetone_BB7_29
	movq	%r14, %r10
	movq	%r8, %r14
	jmp	.Lpasetone_BB7_31
.Lpasetone_BB7_29:
	movzbl	40(%rsp), %esi
	shlb	$3, %sil
	leaq	(%rbx,%r13), %rax
	movzbl	4(%r15,%rax), %r9d
	xorl	%ecx, %ecx
	testb	%r9b, %r9b
	setne	%cl
	movzbl	-34(%rsp), %eax
	andl	$-9, %eax
	movzbl	%sil, %esi
	orq	%rax, %rsi
	movb	%sil, -34(%rsp)
	movl	%esi, %eax
	shll	$8, %eax
	orq	$18, %rax
	shll	$8, %ecx
	orq	%r11, %rcx
	leaq	(%rbx,%r13), %r14
	addq	$5, %r14
	testb	%r9b, %r9b
	setne	-7(%rsp)
	movq	%rcx, 64(%rdx)
	movq	%rax, 72(%rdx)
	je	.Lpasetone_BB7_73
	movq	%r8, %r10
.Lpasetone_BB7_31:
	movzbl	-113(%rsp), %r11d
	movq	-64(%rsp), %r13
	xorl	%edx, %edx
	testb	$1, -92(%rsp)
	jne	.Lpasetone_BB7_11
.Lpasetone_BB7_32:
	movq	%r10, %r9
.Lpasetone_BB7_33:
	movl	$0, -92(%rsp)
.Lpasetone_BB7_34:
	movq	-56(%rsp), %rsi
.Lpasetone_BB7_35:
	movzbl	4(%rsi), %eax
	leaq	.Lpasetone_static.0(%rip), %rcx
	movzbl	(%rax,%rcx), %ecx
	shrb	$4, %cl
	andb	$3, %cl
	xorl	%eax, %eax
	cmpb	$1, -112(%rsp)
	movl	$0, %r8d
	adcb	$1, %r8b
	cmpb	%cl, %r8b
	jae	.Lpasetone_BB7_39
	movzbl	-88(%rsp), %ebx
	cmpb	$1, %bl
	adcb	$-1, %bl
	shlb	$5, %bl
	movb	$1, %r8b
	testb	%dl, %dl
	jne	.Lpasetone_BB7_40
.Lpasetone_BB7_37:
	testb	$1, -92(%rsp)
	je	.Lpasetone_BB7_54
	xorl	%eax, %eax
	cmpb	$0, (%r15,%r14)
	setne	%al
	movq	%r14, %rcx
	shlq	$4, %rcx
	shll	$8, %eax
	orq	$16777217, %rax
	movq	-104(%rsp), %rdx
	movq	%rax, (%rdx,%rcx)
	movq	$0, 8(%rdx,%rcx)
	incq	%r14
	jmp	.Lpasetone_BB7_54
.Lpasetone_BB7_39:
	addb	$32, %bpl
	cmpb	%r8b, %cl
	setb	%r8b
	movzbl	%bpl, %ecx
	cmovbl	%ecx, %eax
	movl	%eax, %ebx
	testb	%dl, %dl
	je	.Lpasetone_BB7_37
.Lpasetone_BB7_40:
	movl	(%rsi), %r9d
	movzbl	4(%rsi), %ecx
	movq	%r14, %rax
	shlq	$4, %rax
	movabsq	$8589934601, %rdx
	movq	-104(%rsp), %r12
	movq	%rdx, (%r12,%rax)
	movq	$0, 8(%r12,%rax)
	leaq	1(%r14), %r11
	movzbl	1(%r15,%r14), %eax
	xorl	%r10d, %r10d
	testb	%al, %al
	setne	%r10b
	movq	%r15, %rsi
	movq	%r11, %r15
	shlq	$4, %r11
	shll	$8, %r10d
	leaq	2(%r14), %rdx
	movq	-72(%rsp), %rbp
	addq	%rbp, %r10
	addq	$16777218, %r10
	movq	%r10, (%r12,%r11)
	movq	$0, 8(%r12,%r11)
	testb	%al, %al
	je	.Lpasetone_BB7_43
	testb	$1, -92(%rsp)
	je	.Lpasetone_BB7_46
	xorl	%eax, %eax
	cmpb	$0, 2(%rsi,%r14)
	setne	%al
	shlq	$4, %rdx
	shll	$8, %eax
	orq	$16777217, %rax
	movq	-104(%rsp), %rcx
	movq	%rax, (%rcx,%rdx)
	movq	$0, 8(%rcx,%rdx)
	addq	$3, %r14
	jmp	.Lpasetone_BB7_47
.Lpasetone_BB7_43:
	shlq	$32, %rcx
	orq	%r9, %rcx
	movzbl	2(%rsi,%r14), %eax
	xorl	%r9d, %r9d
	testb	%al, %al
	setne	%r9b
	movq	%rdx, %r10
	shlq	$4, %r10
	shll	$8, %r9d
	leaq	3(%r14), %r11
	movq	%r11, -88(%rsp)
	xorl	%r11d, %r11d
	testb	%al, %al
	cmoveq	%rcx, %r11
	leaq	83886083(%rbp,%r9), %rax
	movq	%rax, (%r12,%r10)
	movq	%r11, 8(%r12,%r10)
	movq	%rsi, %r15
	je	.Lpasetone_BB7_48
	testb	$1, -92(%rsp)
	movzbl	-113(%rsp), %r11d
	je	.Lpasetone_BB7_52
	xorl	%eax, %eax
	cmpb	$0, 3(%r15,%r14)
	setne	%al
	leaq	3(%r14), %rbp
	shlq	$4, %rbp
	shll	$8, %eax
	orq	$16777217, %rax
	movq	-104(%rsp), %rcx
	movq	%rax, (%rcx,%rbp)
	movq	$0, 8(%rcx,%rbp)
	addq	$4, %r14
	jmp	.Lpasetone_BB7_53
.Lpasetone_BB7_46:
	movq	%rdx, %r14
.Lpasetone_BB7_47:
	movq	%r15, %r9
	movzbl	-113(%rsp), %r11d
	jmp	.Lpasetone_BB7_54
.Lpasetone_BB7_48:
	testb	%r8b, %r8b
	movzbl	-113(%rsp), %r11d
	je	.Lpasetone_BB7_57
	movzbl	3(%r15,%r14), %edx
	xorl	%ecx, %ecx
	testb	%dl, %dl
	setne	%cl
	movzbl	-36(%rsp), %eax
	andl	$31, %eax
	movzbl	%bl, %r8d
	orq	%rax, %r8
	movb	%r8b, -36(%rsp)
	shll	$8, %r8d
	orq	$16, %r8
	leaq	3(%r14), %r9
	shlq	$4, %r9
	shll	$8, %ecx
	leaq	4(%r14), %rax
	testb	%dl, %dl
	setne	-9(%rsp)
	movq	-72(%rsp), %r12
	leaq	33554434(%r12,%rcx), %rcx
	movq	-104(%rsp), %rdx
	movq	%rcx, (%rdx,%r9)
	movq	%r8, 8(%rdx,%r9)
	je	.Lpasetone_BB7_58
	testb	$1, -92(%rsp)
	je	.Lpasetone_BB7_67
	xorl	%ecx, %ecx
	cmpb	$0, 4(%r15,%r14)
	setne	%cl
	shlq	$4, %rax
	shll	$8, %ecx
	orq	$16777217, %rcx
	movq	-104(%rsp), %rdx
	movq	%rcx, (%rdx,%rax)
	movq	$0, 8(%rdx,%rax)
	addq	$5, %r14
	movq	-88(%rsp), %r9
	jmp	.Lpasetone_BB7_54
.Lpasetone_BB7_52:
	movq	-88(%rsp), %r14
.Lpasetone_BB7_53:
	movq	%rdx, %r9
.Lpasetone_BB7_54:
	movl	$1, %eax
.Lpasetone_BB7_55:
	movq	%r14, 8(%rsp)
	movq	%rax, 16(%rsp)
	movq	%r9, 24(%rsp)
	movw	$0, 32(%rsp)
	movw	%r13w, 34(%rsp)
	movb	%r11b, 36(%rsp)
	movb	$0, 37(%rsp)
	movw	$0, 38(%rsp)
.Lpasetone_BB7_56:
	movaps	-48(%rsp), %xmm0
	movaps	-32(%rsp), %xmm1
	movaps	-16(%rsp), %xmm2
	movaps	%xmm0, 48(%rsp)
	movaps	%xmm1, 64(%rsp)
	movaps	%xmm2, 80(%rsp)
	movq	(%rsp), %rax
	movq	%rax, 96(%rsp)
	movq	8(%rsp), %rax
	movq	%rax, 104(%rsp)
	movq	16(%rsp), %rax
	movq	%rax, 112(%rsp)
	movq	24(%rsp), %rax
	movq	%rax, 120(%rsp)
	movq	32(%rsp), %rax
	movq	%rax, 128(%rsp)
	movq	128(%rsp), %rax
	movq	%rax, 80(%rdi)
	movq	112(%rsp), %rax
	movq	%rax, 64(%rdi)
	movq	120(%rsp), %rax
	movq	%rax, 72(%rdi)
	movaps	48(%rsp), %xmm0
	movaps	64(%rsp), %xmm1
	movaps	80(%rsp), %xmm2
	movaps	96(%rsp), %xmm3
	movups	%xmm3, 48(%rdi)
	movups	%xmm2, 32(%rdi)
	movups	%xmm1, 16(%rdi)
	movups	%xmm0, (%rdi)
	addq	$200, %rsp
	.cfi_def_cfa_offset 56
	popq	%rbx
	.cfi_def_cfa_offset 48
	popq	%r12
	.cfi_def_cfa_offset 40
	popq	%r13
	.cfi_def_cfa_offset 32
	popq	%r14
	.cfi_def_cfa_offset 24
	popq	%r15
	.cfi_def_cfa_offset 16
	popq	%rbp
	.cfi_def_cfa_offset 8
	retq
.Lpasetone_BB7_57:
	.cfi_def_cfa_offset 256
	movq	-72(%rsp), %r12
	jmp	.Lpasetone_BB7_59
.Lpasetone_BB7_58:
	movq	%rax, -88(%rsp)
.Lpasetone_BB7_59:
	movq	-56(%rsp), %rax
	movzbl	7(%rax), %ecx
	movzwl	5(%rax), %eax
	movq	-88(%rsp), %r10
	movzbl	(%r15,%r10), %r8d
	xorl	%esi, %esi
	testb	%r8b, %r8b
	setne	%sil
	movq	%r10, %r9
	shlq	$4, %r9
	shll	$8, %esi
	leaq	.Lpasetone_static.0(%rip), %rdx
	movzbl	(%rcx,%rdx), %edx
	addq	%r12, %rsi
	addq	$16777218, %rsi
	movq	-104(%rsp), %r11
	movq	%rsi, (%r11,%r9)
	leaq	1(%r10), %r14
	movq	$0, 8(%r11,%r9)
	testb	%r8b, %r8b
	je	.Lpasetone_BB7_62
	testb	$1, -92(%rsp)
	je	.Lpasetone_BB7_66
	xorl	%eax, %eax
	movq	-88(%rsp), %r9
	cmpb	$0, 1(%r15,%r9)
	setne	%al
	shlq	$4, %r14
	shll	$8, %eax
	orq	$16777217, %rax
	movq	-104(%rsp), %rcx
	movq	%rax, (%rcx,%r14)
	movq	$0, 8(%rcx,%r14)
	leaq	2(%r9), %r14
	movzbl	-113(%rsp), %r11d
	jmp	.Lpasetone_BB7_54
.Lpasetone_BB7_62:
	shll	$16, %ecx
	orq	%rax, %rcx
	movzbl	(%r15,%r14), %eax
	xorl	%r8d, %r8d
	testb	%al, %al
	setne	%r8b
	movq	%r14, %r9
	shlq	$4, %r9
	shll	$8, %r8d
	xorl	%r10d, %r10d
	testb	%al, %al
	cmoveq	%rcx, %r10
	leaq	50331651(%r12,%r8), %rax
	movq	%rax, (%r11,%r9)
	movq	%r10, 8(%r11,%r9)
	je	.Lpasetone_BB7_68
	movq	-88(%rsp), %r12
	movq	%r14, %r9
	movzbl	-113(%rsp), %r11d
.Lpasetone_BB7_64:
	leaq	2(%r12), %r14
	testb	$1, -92(%rsp)
	movq	-104(%rsp), %rcx
	je	.Lpasetone_BB7_54
	xorl	%eax, %eax
	cmpb	$0, 2(%r15,%r12)
	setne	%al
	shlq	$4, %r14
	shll	$8, %eax
	orq	$16777217, %rax
	movq	%rax, (%rcx,%r14)
	movq	$0, 8(%rcx,%r14)
	addq	$3, %r12
	movq	%r12, %r14
	jmp	.Lpasetone_BB7_54
.Lpasetone_BB7_66:
	movq	-88(%rsp), %r9
	movzbl	-113(%rsp), %r11d
	jmp	.Lpasetone_BB7_54
.Lpasetone_BB7_67:
	movq	%rax, %r14
	movq	-88(%rsp), %r9
	jmp	.Lpasetone_BB7_54
.Lpasetone_BB7_68:
	shrl	$16, %ecx
	leal	1(%r13), %eax
	leaq	.Lpasetone_static.0(%rip), %r10
	movzbl	(%rcx,%r10), %ecx
	shrb	$6, %cl
	movzbl	-113(%rsp), %r11d
	orb	%cl, %r11b
	andb	$1, %r11b
	movq	-88(%rsp), %rsi
	leaq	2(%rsi), %rcx
	testb	$64, %dl
	jne	.Lpasetone_BB7_74
	movzbl	2(%r15,%rsi), %edx
	xorl	%r8d, %r8d
	testb	%dl, %dl
	setne	%r8b
	movq	%rcx, %r9
	shlq	$4, %r9
	shll	$8, %r8d
	leaq	3(%rsi), %r14
	testb	%dl, %dl
	movb	$6, -34(%rsp)
	setne	-7(%rsp)
	leaq	33554434(%r12,%r8), %rdx
	movq	-104(%rsp), %r8
	movq	%rdx, (%r8,%r9)
	movq	$1554, 8(%r8,%r9)
	je	.Lpasetone_BB7_78
	testb	$1, -92(%rsp)
	je	.Lpasetone_BB7_72
	xorl	%edx, %edx
	movq	-88(%rsp), %rbp
	cmpb	$0, 3(%r15,%rbp)
	setne	%dl
	shlq	$4, %r14
	shll	$8, %edx
	orq	$16777217, %rdx
	movq	-104(%rsp), %r8
	movq	%rdx, (%r8,%r14)
	movq	$0, 8(%r8,%r14)
	addq	$4, %rbp
	movq	%rbp, %r14
.Lpasetone_BB7_72:
	movq	%rcx, %r9
	movl	%eax, %r13d
	jmp	.Lpasetone_BB7_54
.Lpasetone_BB7_73:
	xorl	%r9d, %r9d
	movb	$1, %dl
	movzbl	-113(%rsp), %r11d
	movq	-64(%rsp), %r13
	jmp	.Lpasetone_BB7_34
.Lpasetone_BB7_74:
	movq	%rcx, %r9
	movl	%eax, %r13d
.Lpasetone_BB7_75:
	movzbl	(%r15,%r9), %ecx
	xorl	%eax, %eax
	testb	%cl, %cl
	setne	%al
	movzbl	-26(%rsp), %edx
	orq	$8, %rdx
	movb	%dl, -26(%rsp)
	shll	$8, %edx
	orq	$26, %rdx
	movq	%r9, %r8
	shlq	$4, %r8
	shll	$8, %eax
	leaq	1(%r9), %r14
	testb	%cl, %cl
	setne	1(%rsp)
	leaq	33554434(%r12,%rax), %rax
	movq	-104(%rsp), %r10
	movq	%rax, (%r10,%r8)
	movq	%rdx, 8(%r10,%r8)
	je	.Lpasetone_BB7_20
	testb	$1, -92(%rsp)
	je	.Lpasetone_BB7_54
	xorl	%eax, %eax
	cmpb	$0, 1(%r15,%r9)
	setne	%al
	shlq	$4, %r14
	shll	$8, %eax
	orq	$16777217, %rax
	movq	%rax, (%r10,%r14)
	movq	$0, 8(%r10,%r14)
	leaq	2(%r9), %r14
	jmp	.Lpasetone_BB7_54
.Lpasetone_BB7_78:
	movl	%r11d, %ebx
	shlq	$4, %r14
	movq	%r15, %rdx
	movabsq	$4294967305, %rbp
	movq	-104(%rsp), %r13
	movq	%rbp, (%r13,%r14)
	movq	$0, 8(%r13,%r14)
	movq	-88(%rsp), %r11
	movq	%r12, %r15
	leaq	4(%r11), %r12
	movq	-56(%rsp), %rsi
	movzwl	8(%rsi), %ecx
	movzbl	10(%rsi), %r8d
	movq	%rdx, -112(%rsp)
	movzbl	4(%rdx,%r11), %r9d
	xorl	%esi, %esi
	testb	%r9b, %r9b
	setne	%sil
	movq	%r10, %rdx
	movq	%r12, %r10
	shlq	$4, %r10
	shll	$8, %esi
	movzbl	(%r8,%rdx), %edx
	addq	%r15, %rsi
	addq	$16777218, %rsi
	movq	%rsi, (%r13,%r10)
	leaq	5(%r11), %r14
	movq	$0, 8(%r13,%r10)
	testb	%r9b, %r9b
	je	.Lpasetone_BB7_81
	movq	%r12, %r9
	movl	%eax, %r13d
	testb	$1, -92(%rsp)
	movl	%ebx, %r11d
	je	.Lpasetone_BB7_54
.Lpasetone_BB7_80:
	xorl	%eax, %eax
	movq	-112(%rsp), %rcx
	cmpb	$0, (%rcx,%r14)
	setne	%al
	shlq	$4, %r14
	shll	$8, %eax
	orq	$16777217, %rax
	movq	-104(%rsp), %rcx
	movq	%rax, (%rcx,%r14)
	movq	$0, 8(%rcx,%r14)
	leaq	2(%r9), %r14
	jmp	.Lpasetone_BB7_54
.Lpasetone_BB7_81:
	shll	$16, %r8d
	orl	%r8d, %ecx
	movq	-112(%rsp), %rsi
	movzbl	(%rsi,%r14), %r8d
	xorl	%r9d, %r9d
	testb	%r8b, %r8b
	setne	%r9b
	movq	%r14, %r10
	shlq	$4, %r10
	shll	$8, %r9d
	xorl	%r11d, %r11d
	testb	%r8b, %r8b
	cmoveq	%rcx, %r11
	leaq	50331651(%r15,%r9), %r8
	movq	-104(%rsp), %r9
	movq	%r8, (%r9,%r10)
	movq	%r11, 8(%r9,%r10)
	je	.Lpasetone_BB7_83
	movl	%eax, %r13d
	movq	%r14, %r9
	movq	-112(%rsp), %r15
	movl	%ebx, %r11d
	jmp	.Lpasetone_BB7_64
.Lpasetone_BB7_83:
	shrl	$16, %ecx
	movq	-64(%rsp), %rax
	addl	$2, %eax
	leaq	.Lpasetone_static.0(%rip), %rsi
	movzbl	(%rcx,%rsi), %ecx
	andb	$64, %cl
	shrb	$6, %cl
	orb	%cl, %bl
	movq	-88(%rsp), %rcx
	addq	$6, %rcx
	testb	$64, %dl
	jne	.Lpasetone_BB7_111
	movq	-72(%rsp), %r13
	orq	$16777218, %r13
	shlq	$4, %rcx
	movq	-104(%rsp), %r11
	movq	%rbp, (%r11,%rcx)
	movq	$0, 8(%r11,%rcx)
	movq	-88(%rsp), %rdi
	leaq	7(%rdi), %r12
	movq	-56(%rsp), %rdx
	movzwl	11(%rdx), %ecx
	movzbl	13(%rdx), %r8d
	movq	-112(%rsp), %rdx
	movzbl	7(%rdx,%rdi), %r9d
	xorl	%esi, %esi
	testb	%r9b, %r9b
	setne	%sil
	movq	%r12, %r10
	shlq	$4, %r10
	shll	$8, %esi
	orq	%r13, %rsi
	leaq	.Lpasetone_static.0(%rip), %rdx
	movzbl	(%r8,%rdx), %edx
	movq	%rsi, (%r11,%r10)
	leaq	8(%rdi), %r14
	movq	$0, 8(%r11,%r10)
	testb	%r9b, %r9b
	je	.Lpasetone_BB7_86
.Lpasetone_BB7_85:
	movq	%r12, %r9
	movl	%eax, %r13d
	movq	-80(%rsp), %rdi
	testb	$1, -92(%rsp)
	movl	%ebx, %r11d
	je	.Lpasetone_BB7_54
	jmp	.Lpasetone_BB7_80
.Lpasetone_BB7_86:
	shll	$16, %r8d
	orl	%r8d, %ecx
	movq	-112(%rsp), %rsi
	movzbl	(%rsi,%r14), %r8d
	xorl	%r9d, %r9d
	testb	%r8b, %r8b
	setne	%r9b
	movq	%r14, %r10
	shlq	$4, %r10
	shll	$8, %r9d
	xorl	%r11d, %r11d
	testb	%r8b, %r8b
	cmoveq	%rcx, %r11
	movq	-72(%rsp), %rsi
	leaq	50331651(%rsi,%r9), %r8
	movq	-104(%rsp), %rdi
	movq	%r8, (%rdi,%r10)
	movq	%r11, 8(%rdi,%r10)
	je	.Lpasetone_BB7_88
.Lpasetone_BB7_87:
	movl	%eax, %r13d
	movq	%r14, %r9
	movq	-80(%rsp), %rdi
	movl	%ebx, %r11d
	movq	-112(%rsp), %r15
	jmp	.Lpasetone_BB7_64
.Lpasetone_BB7_88:
	shrl	$16, %ecx
	movq	-64(%rsp), %rax
	addl	$3, %eax
	leaq	.Lpasetone_static.0(%rip), %rsi
	movzbl	(%rcx,%rsi), %ecx
	andb	$64, %cl
	shrb	$6, %cl
	orb	%cl, %bl
	movq	-88(%rsp), %rcx
	addq	$9, %rcx
	testb	$64, %dl
	jne	.Lpasetone_BB7_111
	shlq	$4, %rcx
	movq	-104(%rsp), %r11
	movq	%rbp, (%r11,%rcx)
	movq	$0, 8(%r11,%rcx)
	movq	-88(%rsp), %rdi
	leaq	10(%rdi), %r12
	movq	-56(%rsp), %rdx
	movzwl	14(%rdx), %ecx
	movzbl	16(%rdx), %r8d
	movq	-112(%rsp), %rdx
	movzbl	10(%rdx,%rdi), %r9d
	xorl	%esi, %esi
	testb	%r9b, %r9b
	setne	%sil
	movq	%r12, %r10
	shlq	$4, %r10
	shll	$8, %esi
	orq	%r13, %rsi
	leaq	.Lpasetone_static.0(%rip), %rdx
	movzbl	(%r8,%rdx), %edx
	movq	%rsi, (%r11,%r10)
	leaq	11(%rdi), %r14
	movq	$0, 8(%r11,%r10)
	testb	%r9b, %r9b
	jne	.Lpasetone_BB7_85
	shll	$16, %r8d
	orl	%r8d, %ecx
	movq	-112(%rsp), %rsi
	movzbl	(%rsi,%r14), %r8d
	xorl	%r9d, %r9d
	testb	%r8b, %r8b
	setne	%r9b
	movq	%r14, %r10
	shlq	$4, %r10
	shll	$8, %r9d
	xorl	%r11d, %r11d
	testb	%r8b, %r8b
	cmoveq	%rcx, %r11
	movq	-72(%rsp), %rsi
	leaq	50331651(%rsi,%r9), %r8
	movq	-104(%rsp), %rdi
	movq	%r8, (%rdi,%r10)
	movq	%r11, 8(%rdi,%r10)
	jne	.Lpasetone_BB7_87
	shrl	$16, %ecx
	movq	-64(%rsp), %rax
	addl	$4, %eax
	leaq	.Lpasetone_static.0(%rip), %rsi
	movzbl	(%rcx,%rsi), %ecx
	andb	$64, %cl
	shrb	$6, %cl
	orb	%cl, %bl
	movq	-88(%rsp), %rcx
	addq	$12, %rcx
	testb	$64, %dl
	jne	.Lpasetone_BB7_111
	shlq	$4, %rcx
	movq	-104(%rsp), %r11
	movq	%rbp, (%r11,%rcx)
	movq	$0, 8(%r11,%rcx)
	movq	-88(%rsp), %rdi
	leaq	13(%rdi), %r12
	movq	-56(%rsp), %rdx
	movzwl	17(%rdx), %ecx
	movzbl	19(%rdx), %r8d
	movq	-112(%rsp), %rdx
	movzbl	13(%rdx,%rdi), %r9d
	xorl	%esi, %esi
	testb	%r9b, %r9b
	setne	%sil
	movq	%r12, %r10
	shlq	$4, %r10
	shll	$8, %esi
	orq	%r13, %rsi
	leaq	.Lpasetone_static.0(%rip), %rdx
	movzbl	(%r8,%rdx), %edx
	movq	%rsi, (%r11,%r10)
	leaq	14(%rdi), %r14
	movq	$0, 8(%r11,%r10)
	testb	%r9b, %r9b
	jne	.Lpasetone_BB7_85
	shll	$16, %r8d
	orl	%r8d, %ecx
	movq	-112(%rsp), %rsi
	movzbl	(%rsi,%r14), %r8d
	xorl	%r9d, %r9d
	testb	%r8b, %r8b
	setne	%r9b
	movq	%r14, %r10
	shlq	$4, %r10
	shll	$8, %r9d
	xorl	%r11d, %r11d
	testb	%r8b, %r8b
	cmoveq	%rcx, %r11
	movq	-72(%rsp), %rsi
	leaq	50331651(%rsi,%r9), %r8
	movq	-104(%rsp), %rdi
	movq	%r8, (%rdi,%r10)
	movq	%r11, 8(%rdi,%r10)
	jne	.Lpasetone_BB7_87
	shrl	$16, %ecx
	movq	-64(%rsp), %rax
	addl	$5, %eax
	leaq	.Lpasetone_static.0(%rip), %rsi
	movzbl	(%rcx,%rsi), %ecx
	andb	$64, %cl
	shrb	$6, %cl
	orb	%cl, %bl
	movq	-88(%rsp), %rcx
	addq	$15, %rcx
	testb	$64, %dl
	jne	.Lpasetone_BB7_111
	shlq	$4, %rcx
	movq	-104(%rsp), %r11
	movq	%rbp, (%r11,%rcx)
	movq	$0, 8(%r11,%rcx)
	movq	-88(%rsp), %rdi
	leaq	16(%rdi), %r12
	movq	-56(%rsp), %rdx
	movzwl	20(%rdx), %ecx
	movzbl	22(%rdx), %r8d
	movq	-112(%rsp), %rdx
	movzbl	16(%rdx,%rdi), %r9d
	xorl	%esi, %esi
	testb	%r9b, %r9b
	setne	%sil
	movq	%r12, %r10
	shlq	$4, %r10
	shll	$8, %esi
	orq	%r13, %rsi
	leaq	.Lpasetone_static.0(%rip), %rdx
	movzbl	(%r8,%rdx), %edx
	movq	%rsi, (%r11,%r10)
	leaq	17(%rdi), %r14
	movq	$0, 8(%r11,%r10)
	testb	%r9b, %r9b
	jne	.Lpasetone_BB7_85
	shll	$16, %r8d
	orl	%r8d, %ecx
	movq	-112(%rsp), %rsi
	movzbl	(%rsi,%r14), %r8d
	xorl	%r9d, %r9d
	testb	%r8b, %r8b
	setne	%r9b
	movq	%r14, %r10
	shlq	$4, %r10
	shll	$8, %r9d
	xorl	%r11d, %r11d
	testb	%r8b, %r8b
	cmoveq	%rcx, %r11
	movq	-72(%rsp), %rsi
	leaq	50331651(%rsi,%r9), %r8
	movq	-104(%rsp), %rdi
	movq	%r8, (%rdi,%r10)
	movq	%r11, 8(%rdi,%r10)
	jne	.Lpasetone_BB7_87
	shrl	$16, %ecx
	movq	-64(%rsp), %rax
	addl	$6, %eax
	leaq	.Lpasetone_static.0(%rip), %rsi
	movzbl	(%rcx,%rsi), %ecx
	andb	$64, %cl
	shrb	$6, %cl
	orb	%cl, %bl
	movq	-88(%rsp), %rcx
	addq	$18, %rcx
	testb	$64, %dl
	jne	.Lpasetone_BB7_111
	shlq	$4, %rcx
	movq	-104(%rsp), %r11
	movq	%rbp, (%r11,%rcx)
	movq	$0, 8(%r11,%rcx)
	movq	-88(%rsp), %rdi
	leaq	19(%rdi), %r12
	movq	-56(%rsp), %rdx
	movzwl	23(%rdx), %ecx
	movzbl	25(%rdx), %r8d
	movq	-112(%rsp), %rdx
	movzbl	19(%rdx,%rdi), %r9d
	xorl	%esi, %esi
	testb	%r9b, %r9b
	setne	%sil
	movq	%r12, %r10
	shlq	$4, %r10
	shll	$8, %esi
	orq	%r13, %rsi
	leaq	.Lpasetone_static.0(%rip), %rdx
	movzbl	(%r8,%rdx), %edx
	movq	%rsi, (%r11,%r10)
	leaq	20(%rdi), %r14
	movq	$0, 8(%r11,%r10)
	testb	%r9b, %r9b
	jne	.Lpasetone_BB7_85
	shll	$16, %r8d
	orl	%r8d, %ecx
	movq	-112(%rsp), %rsi
	movzbl	(%rsi,%r14), %r8d
	xorl	%r9d, %r9d
	testb	%r8b, %r8b
	setne	%r9b
	movq	%r14, %r10
	shlq	$4, %r10
	shll	$8, %r9d
	xorl	%r11d, %r11d
	testb	%r8b, %r8b
	cmoveq	%rcx, %r11
	movq	-72(%rsp), %rsi
	leaq	50331651(%rsi,%r9), %r8
	movq	-104(%rsp), %rdi
	movq	%r8, (%rdi,%r10)
	movq	%r11, 8(%rdi,%r10)
	jne	.Lpasetone_BB7_87
	shrl	$16, %ecx
	movq	-64(%rsp), %rax
	addl	$7, %eax
	leaq	.Lpasetone_static.0(%rip), %rsi
	movzbl	(%rcx,%rsi), %ecx
	andb	$64, %cl
	shrb	$6, %cl
	orb	%cl, %bl
	movq	-88(%rsp), %rcx
	addq	$21, %rcx
	testb	$64, %dl
	jne	.Lpasetone_BB7_111
	shlq	$4, %rcx
	movq	-104(%rsp), %r11
	movq	%rbp, (%r11,%rcx)
	movq	$0, 8(%r11,%rcx)
	movq	-88(%rsp), %rdi
	leaq	22(%rdi), %r12
	movq	-56(%rsp), %rdx
	movzwl	26(%rdx), %ecx
	movzbl	28(%rdx), %r8d
	movq	-112(%rsp), %rdx
	movzbl	22(%rdx,%rdi), %r9d
	xorl	%esi, %esi
	testb	%r9b, %r9b
	setne	%sil
	movq	%r12, %r10
	shlq	$4, %r10
	shll	$8, %esi
	orq	%r13, %rsi
	leaq	.Lpasetone_static.0(%rip), %rdx
	movzbl	(%r8,%rdx), %edx
	movq	%rsi, (%r11,%r10)
	leaq	23(%rdi), %r14
	movq	$0, 8(%r11,%r10)
	testb	%r9b, %r9b
	jne	.Lpasetone_BB7_85
	shll	$16, %r8d
	orl	%r8d, %ecx
	movq	-112(%rsp), %rsi
	movzbl	(%rsi,%r14), %r8d
	xorl	%r9d, %r9d
	testb	%r8b, %r8b
	setne	%r9b
	movq	%r14, %r10
	shlq	$4, %r10
	shll	$8, %r9d
	xorl	%r11d, %r11d
	testb	%r8b, %r8b
	cmoveq	%rcx, %r11
	movq	-72(%rsp), %rsi
	leaq	50331651(%rsi,%r9), %r8
	movq	-104(%rsp), %rdi
	movq	%r8, (%rdi,%r10)
	movq	%r11, 8(%rdi,%r10)
	jne	.Lpasetone_BB7_87
	shrl	$16, %ecx
	movq	-64(%rsp), %rax
	addl	$8, %eax
	leaq	.Lpasetone_static.0(%rip), %rsi
	movzbl	(%rcx,%rsi), %ecx
	andb	$64, %cl
	shrb	$6, %cl
	orb	%cl, %bl
	movq	-88(%rsp), %rcx
	addq	$24, %rcx
	testb	$64, %dl
	jne	.Lpasetone_BB7_111
	shlq	$4, %rcx
	movq	-104(%rsp), %r11
	movq	%rbp, (%r11,%rcx)
	movq	$0, 8(%r11,%rcx)
	movq	-88(%rsp), %rdi
	leaq	25(%rdi), %r12
	movq	-56(%rsp), %rdx
	movzwl	29(%rdx), %ecx
	movzbl	31(%rdx), %r8d
	movq	-112(%rsp), %rdx
	movzbl	25(%rdx,%rdi), %r9d
	xorl	%esi, %esi
	testb	%r9b, %r9b
	setne	%sil
	movq	%r12, %r10
	shlq	$4, %r10
	shll	$8, %esi
	orq	%r13, %rsi
	leaq	.Lpasetone_static.0(%rip), %rdx
	movzbl	(%r8,%rdx), %edx
	movq	%rsi, (%r11,%r10)
	leaq	26(%rdi), %r14
	movq	$0, 8(%r11,%r10)
	testb	%r9b, %r9b
	jne	.Lpasetone_BB7_85
	shll	$16, %r8d
	orl	%r8d, %ecx
	movq	-112(%rsp), %rsi
	movzbl	(%rsi,%r14), %r8d
	xorl	%r9d, %r9d
	testb	%r8b, %r8b
	setne	%r9b
	movq	%r14, %r10
	shlq	$4, %r10
	shll	$8, %r9d
	xorl	%r11d, %r11d
	testb	%r8b, %r8b
	cmoveq	%rcx, %r11
	movq	-72(%rsp), %rsi
	leaq	50331651(%rsi,%r9), %r8
	movq	-104(%rsp), %rdi
	movq	%r8, (%rdi,%r10)
	movq	%r11, 8(%rdi,%r10)
	jne	.Lpasetone_BB7_87
	shrl	$16, %ecx
	movq	-64(%rsp), %rax
	addl	$9, %eax
	leaq	.Lpasetone_static.0(%rip), %rsi
	movzbl	(%rcx,%rsi), %ecx
	andb	$64, %cl
	shrb	$6, %cl
	orb	%cl, %bl
	movq	-88(%rsp), %rcx
	addq	$27, %rcx
	testb	$64, %dl
	jne	.Lpasetone_BB7_111
	shlq	$4, %rcx
	movq	-104(%rsp), %r11
	movq	%rbp, (%r11,%rcx)
	movq	$0, 8(%r11,%rcx)
	movq	-88(%rsp), %rdi
	leaq	28(%rdi), %r12
	movq	-56(%rsp), %rdx
	movzwl	32(%rdx), %ecx
	movzbl	34(%rdx), %r8d
	movq	-112(%rsp), %rdx
	movzbl	28(%rdx,%rdi), %r9d
	xorl	%esi, %esi
	testb	%r9b, %r9b
	setne	%sil
	movq	%r12, %r10
	shlq	$4, %r10
	shll	$8, %esi
	orq	%r13, %rsi
	leaq	.Lpasetone_static.0(%rip), %rdx
	movzbl	(%r8,%rdx), %edx
	movq	%rsi, (%r11,%r10)
	leaq	29(%rdi), %r14
	movq	$0, 8(%r11,%r10)
	testb	%r9b, %r9b
	jne	.Lpasetone_BB7_85
	shll	$16, %r8d
	orl	%r8d, %ecx
	movq	-112(%rsp), %rsi
	movzbl	(%rsi,%r14), %r8d
	xorl	%r9d, %r9d
	testb	%r8b, %r8b
	setne	%r9b
	movq	%r14, %r10
	shlq	$4, %r10
	shll	$8, %r9d
	xorl	%r11d, %r11d
	testb	%r8b, %r8b
	cmoveq	%rcx, %r11
	movq	-72(%rsp), %rsi
	leaq	50331651(%rsi,%r9), %r8
	movq	-104(%rsp), %rdi
	movq	%r8, (%rdi,%r10)
	movq	%r11, 8(%rdi,%r10)
	jne	.Lpasetone_BB7_87
	movq	-64(%rsp), %rax
	addl	$10, %eax
	movq	%rax, -64(%rsp)
	shrl	$16, %ecx
	leaq	.Lpasetone_static.0(%rip), %rax
	movzbl	(%rcx,%rax), %eax
	andb	$64, %al
	shrb	$6, %al
	orb	%al, %bl
	movq	-88(%rsp), %rax
	addq	$30, %rax
	testb	$64, %dl
	jne	.Lpasetone_BB7_113
	shlq	$4, %rax
	movq	-104(%rsp), %r10
	movq	%rbp, (%r10,%rax)
	movq	$0, 8(%r10,%rax)
	movq	-88(%rsp), %r14
	addq	$31, %r14
	movq	-80(%rsp), %rdi
	movl	%ebx, %r11d
	movq	-64(%rsp), %r13
	movq	-112(%rsp), %r15
	jmp	.Lpasetone_BB7_20
.Lpasetone_BB7_111:
	movq	%rcx, %r9
	movl	%eax, %r13d
	movq	-80(%rsp), %rdi
	movl	%ebx, %r11d
.Lpasetone_BB7_112:
	movq	-112(%rsp), %r15
	movq	-72(%rsp), %r12
	jmp	.Lpasetone_BB7_75
.Lpasetone_BB7_113:
	movq	%rax, %r9
	movq	-80(%rsp), %rdi
	movl	%ebx, %r11d
	movq	-64(%rsp), %r13
	jmp	.Lpasetone_BB7_112
.Lpasetone_func_end7:
	.size	"tuning::tune", .Lpasetone_func_end7-"tuning::tune"
	.cfi_endproc

	.section	".text.drivers::set_sample_rate","ax",@progbits
	.p2align	4
	.type	"drivers::set_sample_rate",@function
"drivers::set_sample_rate":
	.cfi_startproc
	pushq	%rbp
	.cfi_def_cfa_offset 16
	pushq	%r15
	.cfi_def_cfa_offset 24
	pushq	%r14
	.cfi_def_cfa_offset 32
	pushq	%r13
	.cfi_def_cfa_offset 40
	pushq	%r12
	.cfi_def_cfa_offset 48
	pushq	%rbx
	.cfi_def_cfa_offset 56
	subq	$568, %rsp
	.cfi_def_cfa_offset 624
	.cfi_offset %rbx, -56
	.cfi_offset %r12, -48
	.cfi_offset %r13, -40
	.cfi_offset %r14, -32
	.cfi_offset %r15, -24
	.cfi_offset %rbp, -16
	movq	%r9, 40(%rsp)
	movq	%rdi, 296(%rsp)
	xorps	%xmm0, %xmm0
	movaps	%xmm0, 544(%rsp)
	movq	$0, 560(%rsp)
	movl	$0, 48(%rsp)
	movb	$0, 52(%rsp)
	movaps	%xmm0, 368(%rsp)
	movups	%xmm0, 377(%rsp)
	movq	$0, 216(%rsp)
	movq	$0, 221(%rsp)
	movl	$0, 24(%rsp)
	movb	$0, 28(%rsp)
	movaps	%xmm0, 336(%rsp)
	movups	%xmm0, 345(%rsp)
	movq	$0, 144(%rsp)
	movq	$0, 149(%rsp)
	movabsq	$4835703278458516699, %r11
	movabsq	$4294967296, %r15
	cmpq	$29, %rdx
	jne	.Lpasetone_BB8_1
	movzbl	(%rsi), %r10d
	movl	1(%rsi), %edi
	movslq	5(%rsi), %r9
	movq	%r9, %rax
	imulq	%rdi, %rax
	movq	%r11, %r12
	imulq	%r11
	movq	%rdx, %rax
	shrq	$63, %rax
	sarq	$18, %rdx
	addq	%rax, %rdx
	addq	%rdi, %rdx
	cmpq	%r15, %rdx
	movq	%r15, %rax
	cmovbq	%rdx, %rax
	xorl	%ebp, %ebp
	cmpb	$1, %r10b
	ja	.Lpasetone_BB8_3
	movabsq	$-4294967296, %r11
	addq	%r11, %rdx
	incq	%r11
	cmpq	%r11, %rdx
	jb	.Lpasetone_BB8_3
	movl	%eax, %eax
	movl	$0, %edx
	movl	$0, %r14d
	movl	$0, %ebx
	movl	$0, %r13d
	movl	$0, 12(%rsp)
	movl	$0, %r11d
	testq	%rax, %rax
	je	.Lpasetone_BB8_7
	movq	21(%rsi), %r11
	movl	17(%rsi), %eax
	movl	%eax, 12(%rsp)
	movq	9(%rsi), %r13
	cmpb	$1, %r10b
	sete	%dl
	movb	$1, %bpl
	movl	%edi, %r14d
	movl	%r9d, %ebx
	jmp	.Lpasetone_BB8_7
.Lpasetone_BB8_1:
	movq	%r11, %r12
	xorl	%ebp, %ebp
.Lpasetone_BB8_3:
	xorl	%edx, %edx
	xorl	%r14d, %r14d
	xorl	%ebx, %ebx
	xorl	%r13d, %r13d
	movl	$0, 12(%rsp)
	xorl	%r11d, %r11d
.Lpasetone_BB8_7:
	movq	%r11, 168(%rsp)
	movq	%rdx, 288(%rsp)
	leaq	416(%rsp), %rdi
	movq	%rcx, %rsi
	movq	%r8, %rdx
	callq	"records::decode_tuner"
	movzbl	416(%rsp), %eax
	movl	$0, 112(%rsp)
	movb	$0, 116(%rsp)
	xorps	%xmm0, %xmm0
	movaps	%xmm0, 240(%rsp)
	movups	%xmm0, 249(%rsp)
	movq	$0, 88(%rsp)
	movq	$0, 93(%rsp)
	movl	$0, 104(%rsp)
	movb	$0, 108(%rsp)
	movaps	%xmm0, 176(%rsp)
	movups	%xmm0, 185(%rsp)
	movq	$0, 128(%rsp)
	movq	$0, 133(%rsp)
	testb	%bpl, %bpl
	je	.Lpasetone_BB8_8
	cmpb	$1, %al
	sete	%al
	jne	.Lpasetone_BB8_10
	movzbl	424(%rsp), %esi
	movzbl	425(%rsp), %edi
	movl	426(%rsp), %ecx
	movl	%ecx, 104(%rsp)
	movzbl	430(%rsp), %ecx
	movb	%cl, 108(%rsp)
	movzbl	431(%rsp), %r10d
	movzbl	432(%rsp), %r11d
	movups	433(%rsp), %xmm0
	movaps	%xmm0, 176(%rsp)
	movups	442(%rsp), %xmm0
	movups	%xmm0, 185(%rsp)
	movzbl	458(%rsp), %ecx
	movq	%rcx, 72(%rsp)
	movzbl	459(%rsp), %ecx
	movq	%rcx, 120(%rsp)
	movq	465(%rsp), %rcx
	movq	%rcx, 133(%rsp)
	movq	460(%rsp), %rcx
	movq	%rcx, 128(%rsp)
	movzbl	479(%rsp), %ecx
	shll	$16, %ecx
	movzwl	477(%rsp), %edx
	orl	%ecx, %edx
	shlq	$32, %rdx
	movl	473(%rsp), %r9d
	movl	480(%rsp), %ebp
	orq	%rdx, %r9
	movl	484(%rsp), %ecx
	movl	%ecx, 84(%rsp)
	movzbl	488(%rsp), %ecx
	movd	492(%rsp), %xmm1
	movq	496(%rsp), %rdx
	movq	%rdx, 16(%rsp)
	movzbl	504(%rsp), %edx
	andb	$1, %cl
	movq	%rcx, 280(%rsp)
	andb	$1, %dl
	movq	%rdx, 272(%rsp)
	movl	%r14d, %r8d
	movq	%r13, 160(%rsp)
	movq	%rsi, %r14
	jmp	.Lpasetone_BB8_12
.Lpasetone_BB8_8:
	pxor	%xmm1, %xmm1
	xorl	%r14d, %r14d
	xorl	%edi, %edi
	xorl	%r10d, %r10d
	xorl	%r11d, %r11d
	movq	$0, 72(%rsp)
	movq	$0, 120(%rsp)
	xorl	%r9d, %r9d
	movl	$0, 84(%rsp)
	movq	$0, 280(%rsp)
	movq	$0, 16(%rsp)
	movq	$0, 272(%rsp)
	movq	$0, 288(%rsp)
	xorl	%r8d, %r8d
	xorl	%ebx, %ebx
	movq	$0, 160(%rsp)
	movl	$0, 12(%rsp)
	movq	$0, 168(%rsp)
	xorl	%eax, %eax
	xorl	%ebp, %ebp
	jmp	.Lpasetone_BB8_13
.Lpasetone_BB8_10:
	xorl	%r14d, %r14d
	pxor	%xmm1, %xmm1
	xorl	%edi, %edi
	xorl	%r10d, %r10d
	xorl	%r11d, %r11d
	movq	$0, 72(%rsp)
	movq	$0, 120(%rsp)
	xorl	%r9d, %r9d
	xorl	%ebp, %ebp
	movl	$0, 84(%rsp)
	movq	$0, 280(%rsp)
	movq	$0, 16(%rsp)
	movq	$0, 272(%rsp)
	movq	$0, 288(%rsp)
	xorl	%r8d, %r8d
	xorl	%ebx, %ebx
	movq	$0, 160(%rsp)
	movl	$0, 12(%rsp)
	movq	$0, 168(%rsp)
.Lpasetone_BB8_12:
	movzbl	108(%rsp), %ecx
	movb	%cl, 116(%rsp)
	movl	104(%rsp), %ecx
	movl	%ecx, 112(%rsp)
	movaps	176(%rsp), %xmm0
	movaps	%xmm0, 240(%rsp)
	movups	185(%rsp), %xmm0
	movups	%xmm0, 249(%rsp)
	movq	128(%rsp), %rcx
	movq	133(%rsp), %rdx
	movq	%rcx, 88(%rsp)
	movq	%rdx, 93(%rsp)
.Lpasetone_BB8_13:
	movzbl	116(%rsp), %ecx
	movb	%cl, 236(%rsp)
	movl	112(%rsp), %ecx
	movl	%ecx, 232(%rsp)
	movaps	240(%rsp), %xmm0
	movaps	%xmm0, 304(%rsp)
	movups	249(%rsp), %xmm0
	movups	%xmm0, 313(%rsp)
	movq	88(%rsp), %rdx
	movq	93(%rsp), %rsi
	movq	%rdx, 512(%rsp)
	movq	%rsi, 517(%rsp)
	movl	%ecx, 24(%rsp)
	movzbl	236(%rsp), %ecx
	movb	%cl, 28(%rsp)
	movups	313(%rsp), %xmm0
	movups	%xmm0, 345(%rsp)
	movaps	304(%rsp), %xmm0
	movaps	%xmm0, 336(%rsp)
	movq	512(%rsp), %rcx
	movq	517(%rsp), %rdx
	movq	%rdx, 149(%rsp)
	movq	%rcx, 144(%rsp)
	testb	%al, %al
	je	.Lpasetone_BB8_23
	movq	%r14, 408(%rsp)
	movd	%xmm1, 8(%rsp)
	movq	%r11, 64(%rsp)
	movq	%r10, 32(%rsp)
	movq	%r9, 536(%rsp)
	movq	%rdi, 400(%rsp)
	movl	632(%rsp), %r14d
	movq	624(%rsp), %rdx
	leaq	544(%rsp), %rdi
	movq	40(%rsp), %rsi
	movq	160(%rsp), %r13
	movq	%r13, %rcx
	movl	%r8d, 40(%rsp)
	callq	"bands::plan_by_table"
	movzbl	544(%rsp), %esi
	movl	40(%rsp), %ecx
	movslq	%ebx, %rax
	imulq	%rcx, %rax
	imulq	%r12
	movq	%rdx, %rax
	shrq	$63, %rax
	sarq	$18, %rdx
	addq	%rax, %rdx
	leaq	(%rdx,%rcx), %rax
	cmpq	%r15, %rax
	cmovbq	%rax, %r15
	leaq	(%rcx,%rdx), %rax
	decq	%rax
	xorl	%r9d, %r9d
	movl	$4294967295, %ecx
	cmpq	%rcx, %rax
	cmovbl	%r15d, %r9d
	movl	%r14d, %r15d
	testl	%r9d, %r9d
	sete	%al
	shlb	$2, %al
	testl	%r14d, %r14d
	movzbl	%al, %eax
	movl	$3, %ecx
	cmovnel	%eax, %ecx
	movl	%ecx, %eax
	testb	%cl, %cl
	jne	.Lpasetone_BB8_20
	testl	%r15d, %r15d
	je	.Lpasetone_BB8_98
	movl	%r15d, %edi
	movl	%r9d, %eax
	shlq	$22, %rax
	movabsq	$18014394214514688, %rdx
	testq	%rdx, %rax
	je	.Lpasetone_BB8_17
	xorl	%edx, %edx
	divq	%rdi
	jmp	.Lpasetone_BB8_19
.Lpasetone_BB8_23:
	xorps	%xmm0, %xmm0
	movq	296(%rsp), %rax
	movups	%xmm0, (%rax)
	movq	$1, 16(%rax)
	jmp	.Lpasetone_BB8_24
.Lpasetone_BB8_17:
	xorl	%edx, %edx
	divl	%edi
.Lpasetone_BB8_19:
	leaq	-4(%rax), %rdx
	movl	%eax, %edi
	shrl	$27, %edi
	shrl	$28, %eax
	xorl	%edi, %eax
	andl	$1, %eax
	movl	$13, %edi
	cmovnel	%edi, %eax
	cmpq	$536870908, %rdx
	cmovael	%edi, %eax
.Lpasetone_BB8_20:
	cmpb	$19, %sil
	movzbl	%al, %edx
	movl	$19, %eax
	cmovnel	%edx, %eax
	testb	%al, %al
	jne	.Lpasetone_BB8_22
	cmpq	$29, 680(%rsp)
	setb	%al
	cmpq	$78, 696(%rsp)
	setb	%dl
	orb	%al, %dl
	movb	$8, %al
	je	.Lpasetone_BB8_25
.Lpasetone_BB8_22:
	movzbl	%al, %eax
	xorps	%xmm0, %xmm0
	movq	296(%rsp), %rcx
	movups	%xmm0, (%rcx)
	movl	%eax, 16(%rcx)
	movl	$0, 20(%rcx)
.Lpasetone_BB8_24:
	addq	$568, %rsp
	.cfi_def_cfa_offset 56
	popq	%rbx
	.cfi_def_cfa_offset 48
	popq	%r12
	.cfi_def_cfa_offset 40
	popq	%r13
	.cfi_def_cfa_offset 32
	popq	%r14
	.cfi_def_cfa_offset 24
	popq	%r15
	.cfi_def_cfa_offset 16
	popq	%rbp
	.cfi_def_cfa_offset 8
	retq
.Lpasetone_BB8_25:
	.cfi_def_cfa_offset 624
	testl	%ebp, %ebp
	setne	%r8b
	cmpl	$0, 84(%rsp)
	setne	%r11b
	testl	%r9d, %r9d
	setne	%r10b
	movzbl	560(%rsp), %edi
	testb	%cl, %cl
	movd	8(%rsp), %xmm1
	movq	408(%rsp), %r14
	jne	.Lpasetone_BB8_31
	testl	%r15d, %r15d
	je	.Lpasetone_BB8_98
	movl	%r15d, %ecx
	movl	%r9d, %eax
	shlq	$22, %rax
	movabsq	$18014394214514688, %rdx
	testq	%rdx, %rax
	je	.Lpasetone_BB8_28
	xorl	%edx, %edx
	divq	%rcx
	movq	%rax, %rcx
	jmp	.Lpasetone_BB8_30
.Lpasetone_BB8_28:
	xorl	%edx, %edx
	divl	%ecx
	movl	%eax, %ecx
.Lpasetone_BB8_30:
	leaq	-4(%rcx), %rax
	movl	%ecx, %edx
	shrl	$27, %edx
	shrl	$28, %ecx
	xorl	%edx, %ecx
	andl	$1, %ecx
	movl	$13, %edx
	cmovnel	%edx, %ecx
	cmpq	$536870908, %rax
	cmovael	%edx, %ecx
.Lpasetone_BB8_31:
	andb	%r11b, %r8b
	movb	$1, %al
	movb	$1, %dl
	andb	%r10b, %r8b
	je	.Lpasetone_BB8_35
	cmpb	$19, %sil
	movzbl	%cl, %ecx
	movl	$19, %edx
	cmovnel	%ecx, %edx
	testb	%dl, %dl
	jne	.Lpasetone_BB8_35
	movb	$8, %dl
	cmpq	$280, 664(%rsp)
	jb	.Lpasetone_BB8_35
	movb	$9, %dl
	cmpq	$16, 648(%rsp)
	ja	.Lpasetone_BB8_36
.Lpasetone_BB8_35:
	movzbl	28(%rsp), %ecx
	movb	%cl, 52(%rsp)
	movl	24(%rsp), %ecx
	movl	%ecx, 48(%rsp)
	movaps	336(%rsp), %xmm0
	movaps	%xmm0, 368(%rsp)
	movups	345(%rsp), %xmm0
	movups	%xmm0, 377(%rsp)
	movq	144(%rsp), %rcx
	movq	149(%rsp), %rsi
	movq	%rcx, 216(%rsp)
	movq	%rsi, 221(%rsp)
	movzbl	%dl, %ecx
	xorl	%r9d, %r9d
	xorl	%edi, %edi
	movl	40(%rsp), %r8d
	movq	32(%rsp), %r10
	movq	64(%rsp), %r11
	testb	%al, %al
	je	.Lpasetone_BB8_91
.Lpasetone_BB8_90:
	testq	%rdi, %rdi
	je	.Lpasetone_BB8_92
.Lpasetone_BB8_91:
	movq	672(%rsp), %rdx
	movq	288(%rsp), %rsi
	movb	%sil, (%rdx)
	movl	%r8d, 1(%rdx)
	movl	%ebx, 5(%rdx)
	movq	%r13, 9(%rdx)
	movl	12(%rsp), %esi
	movl	%esi, 17(%rdx)
	movd	%xmm1, %esi
	ucomiss	%xmm1, %xmm1
	movq	168(%rsp), %r8
	movq	%r8, 21(%rdx)
	movl	$2143289344, %r8d
	cmovnpl	%esi, %r8d
	movq	688(%rsp), %rdx
	movb	%r14b, (%rdx)
	movq	400(%rsp), %rsi
	movb	%sil, 1(%rdx)
	movl	48(%rsp), %esi
	movl	%esi, 2(%rdx)
	movzbl	52(%rsp), %esi
	movb	%sil, 6(%rdx)
	movb	%r10b, 7(%rdx)
	movb	%r11b, 8(%rdx)
	movaps	368(%rsp), %xmm0
	movups	%xmm0, 9(%rdx)
	movl	384(%rsp), %esi
	movl	%esi, 25(%rdx)
	movl	%ebp, 29(%rdx)
	movl	84(%rsp), %esi
	movl	%esi, 33(%rdx)
	movq	280(%rsp), %rsi
	movb	%sil, 37(%rdx)
	movl	%r8d, 38(%rdx)
	movq	16(%rsp), %rsi
	movq	%rsi, 42(%rdx)
	movq	272(%rsp), %rsi
	movb	%sil, 50(%rdx)
	movl	388(%rsp), %esi
	movl	%esi, 51(%rdx)
	movzbl	392(%rsp), %esi
	movb	%sil, 55(%rdx)
	movq	72(%rsp), %rsi
	movb	%sil, 56(%rdx)
	movq	120(%rsp), %rsi
	movb	%sil, 57(%rdx)
	movq	216(%rsp), %rsi
	movq	221(%rsp), %r8
	movq	%r8, 63(%rdx)
	movq	%rsi, 58(%rdx)
	movq	536(%rsp), %r8
	movq	%r8, %rsi
	shrq	$48, %rsi
	movb	%sil, 77(%rdx)
	movq	%r8, %rsi
	shrq	$32, %rsi
	movw	%si, 75(%rdx)
	movl	%r8d, 71(%rdx)
.Lpasetone_BB8_92:
	movzbl	%al, %edx
	testb	%al, %al
	je	.Lpasetone_BB8_93
	cmpl	$2, %edx
	jne	.Lpasetone_BB8_95
	movl	$11, %edx
	xorl	%eax, %eax
	jmp	.Lpasetone_BB8_97
.Lpasetone_BB8_93:
	movq	%r9, %rax
	movq	%rdx, %r9
	jmp	.Lpasetone_BB8_97
.Lpasetone_BB8_95:
	xorl	%eax, %eax
	xorl	%r9d, %r9d
	movl	%ecx, %edx
.Lpasetone_BB8_97:
	movq	296(%rsp), %rcx
	movq	%rax, (%rcx)
	movq	%r9, 8(%rcx)
	movl	%edx, 16(%rcx)
	movl	%edi, 20(%rcx)
	jmp	.Lpasetone_BB8_24
.Lpasetone_BB8_36:
	movq	656(%rsp), %r14
	movq	640(%rsp), %rsi
	cmpq	$0, 16(%rsp)
	je	.Lpasetone_BB8_37
	movl	$3570000, %r10d
	cmpl	$2499999, %r15d
	ja	.Lpasetone_BB8_40
	xorl	%eax, %eax
	cmpl	$1000000, %r15d
	movl	$2300000, %r10d
	cmovbl	%eax, %r10d
	jmp	.Lpasetone_BB8_40
.Lpasetone_BB8_37:
	xorl	%r10d, %r10d
.Lpasetone_BB8_40:
	movzbl	28(%rsp), %eax
	movb	%al, 92(%rsp)
	movl	24(%rsp), %eax
	movl	%eax, 88(%rsp)
	movups	345(%rsp), %xmm0
	movups	%xmm0, 425(%rsp)
	movaps	336(%rsp), %xmm0
	movaps	%xmm0, 416(%rsp)
	movq	144(%rsp), %rax
	movq	149(%rsp), %rcx
	movq	%rcx, 181(%rsp)
	movq	%rax, 176(%rsp)
	cmpl	$3500000, %r10d
	movl	$107, %eax
	movl	$128, %ecx
	cmovael	%eax, %ecx
	movzbl	(%rsi), %eax
	xorl	%edx, %edx
	testb	%al, %al
	setne	%dl
	shll	$8, %edx
	orq	$16777217, %rdx
	movq	%rdx, (%r14)
	movq	$1, 8(%r14)
	testb	%al, %al
	je	.Lpasetone_BB8_42
	xorl	%r12d, %r12d
	movl	$1, %r11d
	jmp	.Lpasetone_BB8_48
.Lpasetone_BB8_42:
	cmpl	$3500000, %r10d
	setae	%al
	shlb	$4, %al
	movzbl	1(%rsi), %r11d
	xorl	%edx, %edx
	testb	%r11b, %r11b
	setne	%dl
	movq	%rsi, %r8
	movq	32(%rsp), %rsi
	andb	$-113, %sil
	orb	%al, %sil
	movq	%rsi, 32(%rsp)
	movzbl	%sil, %r15d
	shll	$8, %r15d
	orq	$10, %r15
	movzbl	400(%rsp), %eax
	shll	$16, %eax
	shll	$8, %edx
	orl	%eax, %edx
	orq	$33554434, %rdx
	movq	%rdx, 16(%r14)
	movq	%r15, 24(%r14)
	movzbl	2(%r8), %edx
	testb	%r11b, %r11b
	je	.Lpasetone_BB8_44
	movq	%r8, %rsi
	xorl	%eax, %eax
	testb	%dl, %dl
	setne	%al
	shll	$8, %eax
	orq	$16777217, %rax
	movq	%rax, 32(%r14)
	movq	$0, 40(%r14)
	movl	$1, %r12d
	movl	$3, %r11d
	movb	$1, %al
	movq	%rax, 72(%rsp)
	movl	632(%rsp), %r15d
	jmp	.Lpasetone_BB8_48
.Lpasetone_BB8_44:
	xorl	%r11d, %r11d
	testb	%dl, %dl
	setne	%r11b
	movq	64(%rsp), %rsi
	andb	$16, %sil
	orb	%cl, %sil
	movq	%rsi, 64(%rsp)
	movzbl	%sil, %ecx
	movq	%r8, %rsi
	shll	$8, %ecx
	orq	$11, %rcx
	shll	$8, %r11d
	addq	%rax, %r11
	addq	$33554434, %r11
	movq	%r11, 32(%r14)
	movq	%rcx, 40(%r14)
	xorl	%ecx, %ecx
	cmpb	$0, 3(%r8)
	setne	%cl
	shll	$8, %ecx
	orq	$16777217, %rcx
	movq	%rcx, 48(%r14)
	movq	$0, 56(%r14)
	testb	%dl, %dl
	movl	632(%rsp), %r15d
	je	.Lpasetone_BB8_46
	movq	$0, 72(%rsp)
	movl	$2, %r12d
	movl	$4, %r11d
	movb	$1, %al
	movq	%rax, 120(%rsp)
	jmp	.Lpasetone_BB8_48
.Lpasetone_BB8_46:
	movzbl	4(%rsi), %ecx
	xorl	%edx, %edx
	testb	%cl, %cl
	setne	%dl
	shll	$8, %edx
	orq	$16777217, %rdx
	xorl	%esi, %esi
	movq	%rdx, 64(%r14)
	movq	$1, 72(%r14)
	testb	%cl, %cl
	je	.Lpasetone_BB8_49
	movq	$0, 120(%rsp)
	movl	$4, %r12d
	movl	$5, %r11d
	movq	$0, 72(%rsp)
	movq	%r8, %rsi
.Lpasetone_BB8_48:
	movzbl	92(%rsp), %eax
	movb	%al, 132(%rsp)
	movl	88(%rsp), %eax
	movl	%eax, 128(%rsp)
	movaps	416(%rsp), %xmm0
	movaps	%xmm0, 240(%rsp)
	movups	425(%rsp), %xmm0
	movups	%xmm0, 249(%rsp)
	movq	176(%rsp), %rax
	movq	181(%rsp), %rcx
	movq	%rax, 304(%rsp)
	movq	%rcx, 309(%rsp)
	xorl	%r14d, %r14d
	movq	%rbp, 56(%rsp)
	testl	%r15d, %r15d
	je	.Lpasetone_BB8_98
.Lpasetone_BB8_56:
	movl	%r15d, %ebp
	movl	%r9d, %r9d
	movq	%r9, %rcx
	shlq	$22, %rcx
	movabsq	$18014394214514688, %rax
	testq	%rax, %rcx
	je	.Lpasetone_BB8_57
	movq	%rcx, %rax
	xorl	%edx, %edx
	divq	%rbp
	jmp	.Lpasetone_BB8_59
.Lpasetone_BB8_57:
	movl	%ecx, %eax
	xorl	%edx, %edx
	divl	%ebp
.Lpasetone_BB8_59:
	testb	%r14b, %r14b
	je	.Lpasetone_BB8_60
	movl	%r10d, 16(%rsp)
	movl	%eax, %edx
	andl	$134217728, %edx
	movl	%eax, %r12d
	andl	$268369920, %r12d
	leal	(%r12,%rdx,2), %edx
	shrl	$16, %edx
	rolw	$8, %dx
	movzwl	%dx, %edx
	movl	%r11d, %r14d
	shll	$4, %r14d
	movabsq	$682933420037, %rbp
	leaq	256(%rbp), %r8
	leaq	1(%r11), %r12
	cmpb	$0, (%rsi,%r11)
	cmoveq	%rbp, %r8
	movq	%rsi, %r10
	movq	656(%rsp), %rsi
	movq	%r8, (%rsi,%r14)
	movq	%rdx, 8(%rsi,%r14)
	je	.Lpasetone_BB8_63
	movq	%r12, %r14
	movq	%r11, %r12
	jmp	.Lpasetone_BB8_67
.Lpasetone_BB8_60:
	movq	%r11, %r14
	movq	56(%rsp), %rbp
	jmp	.Lpasetone_BB8_68
.Lpasetone_BB8_63:
	movl	%eax, %edx
	andl	$65532, %edx
	rolw	$8, %dx
	movzwl	%dx, %r8d
	movl	%r12d, %r14d
	shll	$4, %r14d
	movabsq	$691523354629, %rbp
	leaq	256(%rbp), %r15
	leaq	2(%r11), %rdx
	cmpb	$0, 1(%r10,%r11)
	cmoveq	%rbp, %r15
	movq	%r15, (%rsi,%r14)
	movq	%r8, 8(%rsi,%r14)
	je	.Lpasetone_BB8_65
	movq	%rdx, %r14
	jmp	.Lpasetone_BB8_67
.Lpasetone_BB8_65:
	movl	%edx, %r8d
	shll	$4, %r8d
	movabsq	$270599782404, %r15
	leaq	256(%r15), %r12
	leaq	3(%r11), %r14
	cmpb	$0, 2(%r10,%r11)
	cmoveq	%r15, %r12
	movq	%r12, (%rsi,%r8)
	movq	$0, 8(%rsi,%r8)
	je	.Lpasetone_BB8_69
	movq	%rdx, %r12
.Lpasetone_BB8_67:
	movq	56(%rsp), %rbp
	movl	16(%rsp), %r10d
.Lpasetone_BB8_68:
	movl	%r10d, %eax
	movq	%rax, 16(%rsp)
	movq	%r14, %r9
	movq	%r12, %r14
	movl	40(%rsp), %r8d
	movq	32(%rsp), %r10
	movq	64(%rsp), %r11
	movq	160(%rsp), %r13
.Lpasetone_BB8_80:
	movzbl	132(%rsp), %eax
	movb	%al, 92(%rsp)
	movl	128(%rsp), %eax
	movl	%eax, 88(%rsp)
	movaps	240(%rsp), %xmm0
	movaps	%xmm0, 416(%rsp)
	movups	249(%rsp), %xmm0
	movups	%xmm0, 425(%rsp)
	movq	304(%rsp), %rax
	movq	309(%rsp), %rcx
	movq	%rax, 176(%rsp)
	movq	%rcx, 181(%rsp)
	movb	$2, %al
	movq	%r9, %rdi
	movq	%r14, %r9
.Lpasetone_BB8_88:
	movl	%edi, %ecx
	shll	$4, %ecx
	movq	656(%rsp), %rdx
	movl	%edi, (%rdx,%rcx)
	movl	%ecx, 4(%rdx,%rcx)
	movzbl	92(%rsp), %ecx
	movb	%cl, 52(%rsp)
	movl	88(%rsp), %ecx
	movl	%ecx, 48(%rsp)
	movaps	416(%rsp), %xmm0
	movaps	%xmm0, 368(%rsp)
	movups	425(%rsp), %xmm0
	movups	%xmm0, 377(%rsp)
	movq	176(%rsp), %rcx
	movq	181(%rsp), %rdx
	movq	%rcx, 216(%rsp)
	movq	%rdx, 221(%rsp)
	xorl	%ecx, %ecx
	movq	408(%rsp), %r14
	testb	%al, %al
	jne	.Lpasetone_BB8_90
	jmp	.Lpasetone_BB8_91
.Lpasetone_BB8_69:
	movq	160(%rsp), %r13
	movq	%rax, 528(%rsp)
	movq	%r10, %r12
	movzbl	3(%r10,%r11), %ebp
	movl	%r14d, %eax
	shll	$4, %eax
	movabsq	$266304815108, %rdx
	leaq	256(%rdx), %r8
	testb	%bpl, %bpl
	cmoveq	%rdx, %r8
	movq	656(%rsp), %rdx
	movq	%r8, (%rdx,%rax)
	movq	$0, 8(%rdx,%rax)
	movl	16(%rsp), %eax
	movq	%rax, 16(%rsp)
	shlq	$22, %rax
	movabsq	$17587891077120, %rdx
	testq	%rdx, %rax
	je	.Lpasetone_BB8_70
	xorl	%edx, %edx
	divq	%r9
	jmp	.Lpasetone_BB8_72
.Lpasetone_BB8_49:
	movl	%r10d, 16(%rsp)
	cmpl	$7000001, %r15d
	movl	$6, %ecx
	movl	$0, %edx
	movq	%rdx, 120(%rsp)
	cmovael	%esi, %ecx
	cmpl	$6000001, %r15d
	movl	$8, %edx
	cmovael	%ecx, %edx
	movzbl	5(%r8), %ecx
	xorl	%r11d, %r11d
	testb	%cl, %cl
	setne	%r11b
	movq	32(%rsp), %rsi
	andb	$-112, %sil
	orb	%dl, %sil
	movq	%rsi, 32(%rsp)
	movzbl	%sil, %edx
	movq	%r8, %rsi
	shll	$8, %edx
	orq	$10, %rdx
	shll	$8, %r11d
	addq	%r11, %rax
	addq	$33554434, %rax
	movq	%rax, 80(%r14)
	movq	%rdx, 88(%r14)
	xorl	%eax, %eax
	cmpb	$0, 6(%r8)
	setne	%al
	shll	$8, %eax
	orq	$16777217, %rax
	movq	%rax, 96(%r14)
	movq	$0, 104(%r14)
	movzbl	28(%rsp), %eax
	movb	%al, 132(%rsp)
	movl	24(%rsp), %eax
	movl	%eax, 128(%rsp)
	movaps	336(%rsp), %xmm0
	movaps	%xmm0, 240(%rsp)
	movups	345(%rsp), %xmm0
	movups	%xmm0, 249(%rsp)
	movq	144(%rsp), %rax
	movq	149(%rsp), %rdx
	movq	%rax, 304(%rsp)
	movq	%rdx, 309(%rsp)
	testb	%cl, %cl
	je	.Lpasetone_BB8_51
	movl	$5, %r12d
	movl	$7, %r11d
	movb	$1, %al
	movq	%rax, 72(%rsp)
	xorl	%r14d, %r14d
	jmp	.Lpasetone_BB8_54
.Lpasetone_BB8_70:
	xorl	%edx, %edx
	divl	%r9d
.Lpasetone_BB8_72:
	leaq	4(%r11), %rdx
	testb	%bpl, %bpl
	je	.Lpasetone_BB8_74
.Lpasetone_BB8_73:
	movq	%rdx, %r9
	jmp	.Lpasetone_BB8_79
.Lpasetone_BB8_74:
	negl	%eax
	movl	%eax, %r8d
	shrl	$16, %r8d
	andl	$63, %r8d
	movl	%edx, %r9d
	shll	$4, %r9d
	movabsq	$107391025156, %r10
	leaq	256(%r10), %r15
	leaq	5(%r11), %r14
	cmpb	$0, 4(%r12,%r11)
	cmoveq	%r10, %r15
	movq	%r15, (%rsi,%r9)
	movq	%r8, 8(%rsi,%r9)
	je	.Lpasetone_BB8_76
	movq	%r14, %r9
.Lpasetone_BB8_78:
	movq	%rdx, %r14
.Lpasetone_BB8_79:
	movq	56(%rsp), %rbp
	movl	40(%rsp), %r8d
	movq	32(%rsp), %r10
	movq	64(%rsp), %r11
	movd	8(%rsp), %xmm1
	jmp	.Lpasetone_BB8_80
.Lpasetone_BB8_51:
	movabsq	$4311810052, %rax
	leaq	256(%rax), %rcx
	cmpb	$0, 7(%rsi)
	cmoveq	%rax, %rcx
	movq	656(%rsp), %rsi
	movq	%rcx, 112(%rsi)
	movq	$20, 120(%rsi)
	je	.Lpasetone_BB8_53
	movq	$0, 72(%rsp)
	movl	$7, %r12d
	movl	$8, %r11d
	movq	$0, 120(%rsp)
	xorl	%r14d, %r14d
	movd	8(%rsp), %xmm1
	movq	%r8, %rsi
	jmp	.Lpasetone_BB8_54
.Lpasetone_BB8_76:
	movzbl	%ah, %edx
	movzwl	%dx, %r8d
	movl	%r14d, %r9d
	shll	$4, %r9d
	movabsq	$111685992452, %r10
	leaq	256(%r10), %r15
	leaq	6(%r11), %rdx
	cmpb	$0, 5(%r12,%r11)
	cmoveq	%r10, %r15
	movq	%r15, (%rsi,%r9)
	movq	%r8, 8(%rsi,%r9)
	jne	.Lpasetone_BB8_73
	movzbl	%al, %eax
	movzwl	%ax, %eax
	movl	%edx, %r8d
	shll	$4, %r8d
	movabsq	$115980959748, %r10
	leaq	256(%r10), %r15
	leaq	7(%r11), %r9
	cmpb	$0, 6(%r12,%r11)
	cmoveq	%r10, %r15
	movq	%r15, (%rsi,%r8)
	movq	%rax, 8(%rsi,%r8)
	jne	.Lpasetone_BB8_78
	movzbl	%dil, %eax
	andl	$1, %eax
	leaq	1(,%rax,4), %rax
	movl	%r9d, %edx
	shll	$4, %edx
	movabsq	$90211155972, %rdi
	leaq	256(%rdi), %r8
	cmpb	$0, 7(%r12,%r11)
	cmoveq	%rdi, %r8
	leaq	8(%r11), %rdi
	movq	%r8, (%rsi,%rdx)
	movq	%rax, 8(%rsi,%rdx)
	movzbl	132(%rsp), %eax
	movb	%al, 92(%rsp)
	movl	128(%rsp), %eax
	movl	%eax, 88(%rsp)
	movaps	240(%rsp), %xmm0
	movaps	%xmm0, 416(%rsp)
	movups	249(%rsp), %xmm0
	movups	%xmm0, 425(%rsp)
	movq	304(%rsp), %rax
	movq	309(%rsp), %rdx
	movq	%rax, 176(%rsp)
	movq	%rdx, 181(%rsp)
	movb	$2, %al
	jne	.Lpasetone_BB8_87
	movq	528(%rsp), %r12
	movl	%r12d, %eax
	andl	$268435452, %eax
	addl	%r12d, %r12d
	andl	$268435456, %r12d
	orl	%eax, %r12d
	je	.Lpasetone_BB8_98
	movq	%r12, %rax
	movl	%eax, %r8d
	movabsq	$18014394214514688, %rax
	xorl	%r9d, %r9d
	testq	%rax, %rcx
	je	.Lpasetone_BB8_84
	movq	%rcx, %rax
	xorl	%edx, %edx
	divq	%r8
	jmp	.Lpasetone_BB8_86
.Lpasetone_BB8_53:
	leaq	256(%rax), %rcx
	xorl	%r12d, %r12d
	movq	%r8, %rsi
	cmpb	$0, 8(%r8)
	setne	%r12b
	sete	%r14b
	cmoveq	%rax, %rcx
	shll	$3, %r12d
	movq	656(%rsp), %rax
	movq	%rcx, 128(%rax)
	movq	$16, 136(%rax)
	movl	$9, %r11d
	movq	$0, 72(%rsp)
	movq	$0, 120(%rsp)
	movd	8(%rsp), %xmm1
.Lpasetone_BB8_54:
	movl	16(%rsp), %r10d
	movq	%rbp, 56(%rsp)
	testl	%r15d, %r15d
	jne	.Lpasetone_BB8_56
.Lpasetone_BB8_98:
	ud2
.Lpasetone_BB8_84:
	movl	%ecx, %eax
	xorl	%edx, %edx
	divl	%r8d
.Lpasetone_BB8_86:
	movq	%rax, 168(%rsp)
	xorl	%eax, %eax
	movl	632(%rsp), %ecx
	movl	%ecx, 12(%rsp)
.Lpasetone_BB8_87:
	movq	56(%rsp), %rbp
	movl	40(%rsp), %r8d
	movq	32(%rsp), %r10
	movq	64(%rsp), %r11
	movd	8(%rsp), %xmm1
	jmp	.Lpasetone_BB8_88
.Lpasetone_func_end8:
	.size	"drivers::set_sample_rate", .Lpasetone_func_end8-"drivers::set_sample_rate"
	.cfi_endproc

	.section	.rodata.cst4,"aM",@progbits,4
	.p2align	2, 0x0
.Lpasetone_CPI9_0:
	.long	0x41200000
	.section	.rodata.cst16,"aM",@progbits,16
	.p2align	4, 0x0
.Lpasetone_CPI9_1:
	.long	218
	.long	241
	.long	267
	.long	288
.Lpasetone_CPI9_2:
	.long	150
	.long	161
	.long	181
	.long	202
.Lpasetone_CPI9_3:
	.long	57
	.long	82
	.long	106
	.long	134
.Lpasetone_CPI9_4:
	.long	4
	.long	11
	.long	20
	.long	32
.Lpasetone_CPI9_5:
	.long	436
	.long	442
	.long	462
	.long	488
.Lpasetone_CPI9_6:
	.long	379
	.long	394
	.long	411
	.long	427
.Lpasetone_CPI9_7:
	.long	312
	.long	333
	.long	351
	.long	368
	.section	".text.tuners::set_gain","ax",@progbits
	.p2align	4
	.type	"tuners::set_gain",@function
"tuners::set_gain":
	.cfi_startproc
	pushq	%rbp
	.cfi_def_cfa_offset 16
	pushq	%r15
	.cfi_def_cfa_offset 24
	pushq	%r14
	.cfi_def_cfa_offset 32
	pushq	%r12
	.cfi_def_cfa_offset 40
	pushq	%rbx
	.cfi_def_cfa_offset 48
	subq	$288, %rsp
	.cfi_def_cfa_offset 336
	.cfi_offset %rbx, -48
	.cfi_offset %r12, -40
	.cfi_offset %r14, -32
	.cfi_offset %r15, -24
	.cfi_offset %rbp, -16
	movq	%r9, %r14
	movq	%r8, %r15
	movq	%rcx, %r12
	movss	%xmm0, 12(%rsp)
	movq	%rdi, %rbx
	leaq	192(%rsp), %rdi
	callq	"records::decode_tuner"
	cmpb	$1, 192(%rsp)
	jne	.Lpasetone_BB9_6
	cmpq	$78, 352(%rsp)
	jb	.Lpasetone_BB9_7
	movq	336(%rsp), %rdi
	leaq	200(%rsp), %rsi
	movss	12(%rsp), %xmm1
	mulss	.Lpasetone_CPI9_0(%rip), %xmm1
	movaps	%xmm1, %xmm0
	xorl	%edx, %edx
	ucomiss	%xmm0, %xmm0
	jp	.Lpasetone_BB9_14
	movd	%xmm1, %r8d
	movl	%r8d, %ecx
	shrl	$23, %ecx
	movzbl	%cl, %eax
	cmpl	$127, %eax
	jb	.Lpasetone_BB9_14
	movl	%r8d, %edx
	andl	$8388607, %edx
	orl	$8388608, %edx
	cmpl	$150, %eax
	ja	.Lpasetone_BB9_10
	movb	$-106, %al
	subb	%cl, %al
	movl	%eax, %ecx
	shrl	%cl, %edx
	testl	%r8d, %r8d
	js	.Lpasetone_BB9_12
.Lpasetone_BB9_14:
	movd	%edx, %xmm0
	pshufd	$0, %xmm0, %xmm0
	movdqa	%xmm0, %xmm1
	pcmpgtd	.Lpasetone_CPI9_1(%rip), %xmm1
	movdqa	%xmm0, %xmm2
	pcmpgtd	.Lpasetone_CPI9_2(%rip), %xmm2
	movdqa	%xmm0, %xmm3
	pcmpgtd	.Lpasetone_CPI9_3(%rip), %xmm3
	movdqa	%xmm0, %xmm4
	pcmpgtd	.Lpasetone_CPI9_4(%rip), %xmm4
	packssdw	%xmm1, %xmm2
	packssdw	%xmm3, %xmm4
	packsswb	%xmm2, %xmm4
	pmovmskb	%xmm4, %eax
	movdqa	%xmm0, %xmm1
	pcmpgtd	.Lpasetone_CPI9_5(%rip), %xmm1
	movdqa	%xmm0, %xmm2
	pcmpgtd	.Lpasetone_CPI9_6(%rip), %xmm2
	pcmpgtd	.Lpasetone_CPI9_7(%rip), %xmm0
	packssdw	%xmm1, %xmm1
	packssdw	%xmm2, %xmm0
	packsswb	%xmm1, %xmm0
	pmovmskb	%xmm0, %ecx
	shll	$16, %ecx
	orl	%eax, %ecx
	andl	$268435455, %ecx
	xorl	%edx, %edx
	popcntl	%ecx, %edx
.Lpasetone_BB9_15:
	movq	%rdi, (%rsp)
	leaq	80(%rsp), %rdi
	movq	%r12, %rcx
	movq	%r15, %r8
	movq	%r14, %r9
	callq	"r82xx::Tuner::set_gain_by_index"
	movzbl	80(%rsp), %edx
	movzbl	81(%rsp), %esi
	movups	82(%rsp), %xmm0
	movaps	%xmm0, 48(%rsp)
	movups	93(%rsp), %xmm0
	movups	%xmm0, 59(%rsp)
	movups	109(%rsp), %xmm0
	movaps	%xmm0, 16(%rsp)
	movups	120(%rsp), %xmm0
	movups	%xmm0, 27(%rsp)
	movzbl	168(%rsp), %eax
	testl	%eax, %eax
	setne	%dil
	movq	184(%rsp), %rcx
	testq	%rcx, %rcx
	sete	%r8b
	testb	%r8b, %dil
	jne	.Lpasetone_BB9_17
	movq	344(%rsp), %rdi
	movsd	136(%rsp), %xmm0
	movzbl	144(%rsp), %r8d
	movd	148(%rsp), %xmm1
	movzbl	160(%rsp), %r9d
	andb	$1, %r9b
	movd	%xmm1, %r10d
	ucomiss	%xmm1, %xmm1
	movq	152(%rsp), %r11
	movl	$2143289344, %ebp
	cmovnpl	%r10d, %ebp
	andb	$1, %r8b
	movb	%dl, (%rdi)
	movb	%sil, 1(%rdi)
	movaps	48(%rsp), %xmm1
	movups	%xmm1, 2(%rdi)
	movdqu	59(%rsp), %xmm1
	movdqu	%xmm1, 13(%rdi)
	movlps	%xmm0, 29(%rdi)
	movb	%r8b, 37(%rdi)
	movl	%ebp, 38(%rdi)
	movq	%r11, 42(%rdi)
	movb	%r9b, 50(%rdi)
	movaps	16(%rsp), %xmm0
	movups	%xmm0, 51(%rdi)
	movups	27(%rsp), %xmm0
	movups	%xmm0, 62(%rdi)
.Lpasetone_BB9_17:
	movq	176(%rsp), %rdx
	testl	%eax, %eax
	je	.Lpasetone_BB9_20
	cmpl	$2, %eax
	jne	.Lpasetone_BB9_21
	movl	$11, %eax
	xorl	%esi, %esi
	jmp	.Lpasetone_BB9_9
.Lpasetone_BB9_6:
	xorl	%esi, %esi
	movl	$1, %eax
	jmp	.Lpasetone_BB9_8
.Lpasetone_BB9_7:
	xorl	%esi, %esi
	movl	$8, %eax
.Lpasetone_BB9_8:
	xorl	%edx, %edx
	xorl	%ecx, %ecx
.Lpasetone_BB9_9:
	movq	%rsi, (%rbx)
	movq	%rdx, 8(%rbx)
	movl	%eax, 16(%rbx)
	movl	%ecx, 20(%rbx)
	addq	$288, %rsp
	.cfi_def_cfa_offset 48
	popq	%rbx
	.cfi_def_cfa_offset 40
	popq	%r12
	.cfi_def_cfa_offset 32
	popq	%r14
	.cfi_def_cfa_offset 24
	popq	%r15
	.cfi_def_cfa_offset 16
	popq	%rbp
	.cfi_def_cfa_offset 8
	retq
.Lpasetone_BB9_20:
	.cfi_def_cfa_offset 336
	movq	%rdx, %rsi
	movq	%rax, %rdx
	jmp	.Lpasetone_BB9_9
.Lpasetone_BB9_21:
	movzbl	169(%rsp), %eax
	xorl	%esi, %esi
	xorl	%edx, %edx
	jmp	.Lpasetone_BB9_9
.Lpasetone_BB9_10:
	cmpl	$157, %eax
	ja	.Lpasetone_BB9_13
	addb	$106, %cl
	shll	%cl, %edx
	testl	%r8d, %r8d
	jns	.Lpasetone_BB9_14
.Lpasetone_BB9_12:
	xorl	%edx, %edx
	jmp	.Lpasetone_BB9_15
.Lpasetone_BB9_13:
	movl	$2147483647, %edx
	testl	%r8d, %r8d
	jns	.Lpasetone_BB9_14
	jmp	.Lpasetone_BB9_12
.Lpasetone_func_end9:
	.size	"tuners::set_gain", .Lpasetone_func_end9-"tuners::set_gain"
	.cfi_endproc

	.section	.rodata.cst4,"aM",@progbits,4
	.p2align	2, 0x0
.Lpasetone_CPI10_0:
	.long	0x41200000
	.section	.rodata.cst16,"aM",@progbits,16
	.p2align	4, 0x0
.Lpasetone_CPI10_1:
	.byte	1
	.byte	0
	.byte	2
	.byte	2
	.byte	0
	.byte	2
	.byte	3
	.byte	0
	.byte	2
	.byte	4
	.byte	1
	.byte	3
	.byte	5
	.byte	1
	.byte	3
	.byte	6
.Lpasetone_CPI10_2:
	.byte	2
	.byte	4
	.byte	7
	.byte	2
	.byte	4
	.byte	8
	.byte	3
	.byte	5
	.byte	9
	.byte	3
	.byte	5
	.byte	10
	.byte	4
	.byte	6
	.byte	11
	.byte	4
.Lpasetone_CPI10_3:
	.byte	6
	.byte	12
	.byte	5
	.byte	7
	.byte	13
	.byte	5
	.byte	7
	.byte	14
	.byte	6
	.byte	8
	.byte	15
	.byte	6
	.byte	8
	.byte	15
	.byte	7
	.byte	9
.Lpasetone_CPI10_4:
	.byte	15
	.byte	7
	.byte	9
	.byte	15
	.byte	8
	.byte	10
	.byte	15
	.byte	8
	.byte	10
	.byte	15
	.byte	9
	.byte	11
	.byte	15
	.byte	9
	.byte	11
	.byte	15
.Lpasetone_CPI10_5:
	.byte	10
	.byte	12
	.byte	15
	.byte	10
	.byte	12
	.byte	15
	.byte	11
	.byte	13
	.byte	15
	.byte	11
	.byte	13
	.byte	15
	.byte	12
	.byte	14
	.byte	15
	.byte	12
	.section	".text.r82xx::Tuner::set_gain_by_index","ax",@progbits
	.p2align	4
	.type	"r82xx::Tuner::set_gain_by_index",@function
"r82xx::Tuner::set_gain_by_index":
	.cfi_startproc
	pushq	%rbp
	.cfi_def_cfa_offset 16
	pushq	%r15
	.cfi_def_cfa_offset 24
	pushq	%r14
	.cfi_def_cfa_offset 32
	pushq	%r13
	.cfi_def_cfa_offset 40
	pushq	%r12
	.cfi_def_cfa_offset 48
	pushq	%rbx
	.cfi_def_cfa_offset 56
	subq	$280, %rsp
	.cfi_def_cfa_offset 336
	.cfi_offset %rbx, -56
	.cfi_offset %r12, -48
	.cfi_offset %r13, -40
	.cfi_offset %r14, -32
	.cfi_offset %r15, -24
	.cfi_offset %rbp, -16
	movd	(%rsi), %xmm0
	movzbl	4(%rsi), %eax
	movq	%rax, -112(%rsp)
	movl	5(%rsi), %eax
	movl	%eax, -104(%rsp)
	movzbl	9(%rsi), %eax
	movb	%al, -127(%rsp)
	movzbl	29(%rsi), %ebx
	movzbl	30(%rsi), %eax
	movb	%al, -125(%rsp)
	movzbl	31(%rsi), %r13d
	movl	32(%rsi), %eax
	movl	%eax, -100(%rsp)
	movl	56(%rsi), %r10d
	movl	60(%rsi), %eax
	cmpq	$28, %rdx
	movl	$28, %r14d
	cmovbq	%rdx, %r14
	testl	%r10d, %r10d
	sete	%dl
	testl	%eax, %eax
	sete	%r11b
	orb	%dl, %r11b
	movzbl	64(%rsi), %r15d
	movss	68(%rsi), %xmm1
	movzbl	80(%rsi), %edx
	movb	%dl, -126(%rsp)
	xorps	%xmm2, %xmm2
	movzbl	36(%rsi), %edx
	movq	72(%rsi), %r11
	movq	%r11, 40(%rsp)
	movaps	%xmm2, 80(%rsp)
	movl	$0, 95(%rsp)
	movaps	%xmm2, 48(%rsp)
	movl	$0, 63(%rsp)
	movw	$0, -124(%rsp)
	movb	$0, -122(%rsp)
	movl	$0, -120(%rsp)
	movl	$0, -117(%rsp)
	movaps	%xmm2, -48(%rsp)
	movl	$0, -33(%rsp)
	movaps	%xmm2, -80(%rsp)
	movl	$0, -65(%rsp)
	movb	$1, %bpl
	leaq	10(%rsi), %r11
	leaq	37(%rsi), %r12
	jne	.Lpasetone_BB10_3
	movb	$8, %bpl
	cmpq	$120, 336(%rsp)
	jb	.Lpasetone_BB10_3
	movb	$9, %bpl
	cmpq	$6, %r8
	ja	.Lpasetone_BB10_5
.Lpasetone_BB10_3:
	movl	15(%r11), %ecx
	movl	%ecx, 95(%rsp)
	movups	(%r11), %xmm3
	movaps	%xmm3, 80(%rsp)
	movl	15(%r12), %ecx
	movl	%ecx, 63(%rsp)
	movups	(%r12), %xmm3
	leaq	65(%rsi), %rcx
	movaps	%xmm3, 48(%rsp)
	movzbl	2(%rcx), %r8d
	movb	%r8b, -122(%rsp)
	addq	$81, %rsi
	movzwl	(%rcx), %ecx
	movw	%cx, -124(%rsp)
	movl	(%rsi), %ecx
	movl	3(%rsi), %esi
	movl	%ecx, -120(%rsp)
	movl	%esi, -117(%rsp)
	movd	%xmm0, (%rdi)
	movq	-112(%rsp), %rcx
	movb	%cl, 4(%rdi)
	movl	-104(%rsp), %ecx
	movl	%ecx, 5(%rdi)
	movzbl	-127(%rsp), %ecx
	movb	%cl, 9(%rdi)
	movaps	80(%rsp), %xmm0
	movups	%xmm0, 10(%rdi)
	movl	95(%rsp), %ecx
	movl	%ecx, 25(%rdi)
	movb	%bl, 29(%rdi)
	movzbl	-125(%rsp), %ecx
	movb	%cl, 30(%rdi)
	movb	%r13b, 31(%rdi)
	movl	-100(%rsp), %ecx
	movl	%ecx, 32(%rdi)
	movb	%dl, 36(%rdi)
	movaps	48(%rsp), %xmm0
	movups	%xmm0, 37(%rdi)
	movl	63(%rsp), %ecx
	movl	%ecx, 52(%rdi)
	movl	%r10d, 56(%rdi)
	movl	%eax, 60(%rdi)
	movb	%r15b, 64(%rdi)
	movzwl	-124(%rsp), %eax
	movw	%ax, 65(%rdi)
	movzbl	-122(%rsp), %eax
	movb	%al, 67(%rdi)
	movss	%xmm1, 68(%rdi)
	movq	40(%rsp), %rax
	movq	%rax, 72(%rdi)
	movzbl	-126(%rsp), %eax
	movb	%al, 80(%rdi)
	movl	-120(%rsp), %eax
	movl	-117(%rsp), %ecx
	movl	%ecx, 84(%rdi)
	movl	%eax, 81(%rdi)
	movb	$1, 88(%rdi)
	movb	%bpl, 89(%rdi)
	movups	%xmm2, 90(%rdi)
	movq	$0, 104(%rdi)
.Lpasetone_BB10_4:
	addq	$280, %rsp
	.cfi_def_cfa_offset 56
	popq	%rbx
	.cfi_def_cfa_offset 48
	popq	%r12
	.cfi_def_cfa_offset 40
	popq	%r13
	.cfi_def_cfa_offset 32
	popq	%r14
	.cfi_def_cfa_offset 24
	popq	%r15
	.cfi_def_cfa_offset 16
	popq	%rbp
	.cfi_def_cfa_offset 8
	retq
.Lpasetone_BB10_5:
	.cfi_def_cfa_offset 336
	movl	15(%r11), %esi
	movl	%esi, 159(%rsp)
	movups	(%r11), %xmm2
	movaps	%xmm2, 144(%rsp)
	movl	15(%r12), %esi
	movl	%esi, 127(%rsp)
	movups	(%r12), %xmm2
	movaps	%xmm2, 112(%rsp)
	movzbl	(%rcx), %esi
	xorl	%r8d, %r8d
	testb	%sil, %sil
	setne	%r8b
	leaq	.Lpasetone_static.5(%rip), %r11
	movzwl	(%r11,%r14,2), %r11d
	xorps	%xmm2, %xmm2
	cvtsi2ss	%r11d, %xmm2
	shll	$8, %r8d
	orq	$16777217, %r8
	divss	.Lpasetone_CPI10_0(%rip), %xmm2
	movss	%xmm2, -84(%rsp)
	movq	%r9, %r12
	movq	%r8, (%r9)
	movq	$1, 8(%r9)
	testb	%sil, %sil
	je	.Lpasetone_BB10_7
	movl	159(%rsp), %ecx
	movl	%ecx, 31(%rsp)
	movaps	144(%rsp), %xmm2
	movaps	%xmm2, 16(%rsp)
	movaps	112(%rsp), %xmm2
	movaps	%xmm2, -16(%rsp)
	movl	127(%rsp), %ecx
	movl	%ecx, -1(%rsp)
	movaps	16(%rsp), %xmm2
	movaps	%xmm2, -48(%rsp)
	movl	31(%rsp), %ecx
	movl	%ecx, -33(%rsp)
	movaps	-16(%rsp), %xmm2
	movaps	%xmm2, -80(%rsp)
	movl	-1(%rsp), %ecx
	pextrb	$2, %xmm0, %r8d
	movl	%ecx, -65(%rsp)
	movl	$1, %ecx
	xorl	%esi, %esi
	jmp	.Lpasetone_BB10_14
.Lpasetone_BB10_7:
	movb	$0, 194(%rsp)
	movw	$0, 192(%rsp)
	movaps	.Lpasetone_CPI10_1(%rip), %xmm3
	movups	%xmm3, 195(%rsp)
	movaps	.Lpasetone_CPI10_2(%rip), %xmm3
	movups	%xmm3, 211(%rsp)
	movaps	.Lpasetone_CPI10_3(%rip), %xmm3
	movups	%xmm3, 227(%rsp)
	movaps	.Lpasetone_CPI10_4(%rip), %xmm3
	movups	%xmm3, 243(%rsp)
	movaps	.Lpasetone_CPI10_5(%rip), %xmm3
	movups	%xmm3, 259(%rsp)
	movl	$252514062, 275(%rsp)
	leaq	(%r14,%r14,2), %rsi
	movzbl	192(%rsp,%rsi), %r8d
	movzbl	193(%rsp,%rsi), %r14d
	movzbl	194(%rsp,%rsi), %ebx
	movzbl	1(%rcx), %ebp
	xorl	%r11d, %r11d
	testb	%bpl, %bpl
	setne	%r11b
	pextrb	$2, %xmm0, %esi
	orq	$16, %rsi
	movq	%r12, %r9
	movq	%rsi, -96(%rsp)
	movl	%esi, %r12d
	shll	$8, %r12d
	orq	$5, %r12
	pextrb	$1, %xmm0, %esi
	shll	$16, %esi
	shll	$8, %r11d
	orl	%esi, %r11d
	orq	$33554434, %r11
	movq	%r11, 16(%r9)
	movq	%r12, 24(%r9)
	movzbl	2(%rcx), %r12d
	testb	%bpl, %bpl
	je	.Lpasetone_BB10_9
	xorl	%ecx, %ecx
	testb	%r12b, %r12b
	setne	%cl
	shll	$8, %ecx
	orq	$16777217, %rcx
	movq	%rcx, 32(%r9)
	movq	$0, 40(%r9)
	movl	$3, %ecx
	movb	$1, %bl
	movl	$1, %esi
	jmp	.Lpasetone_BB10_11
.Lpasetone_BB10_9:
	movq	%r8, 184(%rsp)
	movq	%r14, 176(%rsp)
	movq	%rbx, 168(%rsp)
	movzbl	-112(%rsp), %r13d
	xorl	%r11d, %r11d
	testb	%r12b, %r12b
	setne	%r11b
	movl	%r13d, %ebp
	andl	$-17, %ebp
	movq	%rbp, -112(%rsp)
	shll	$8, %ebp
	orq	$7, %rbp
	shll	$8, %r11d
	addq	%rsi, %r11
	addq	$33554434, %r11
	movq	%r11, 32(%r9)
	movq	%rbp, 40(%r9)
	movzbl	3(%rcx), %ebp
	testb	%r12b, %r12b
	je	.Lpasetone_BB10_16
	xorl	%ecx, %ecx
	testb	%bpl, %bpl
	setne	%cl
	shll	$8, %ecx
	orq	$16777217, %rcx
	movq	%rcx, 48(%r9)
	movq	$0, 56(%r9)
	movl	$4, %ecx
	movb	$1, %r13b
	movl	$2, %esi
	xorl	%ebx, %ebx
.Lpasetone_BB10_11:
	xorl	%ebp, %ebp
	movq	%r9, %r12
	movq	-96(%rsp), %r8
.Lpasetone_BB10_12:
	movl	159(%rsp), %r11d
	movl	%r11d, 31(%rsp)
	movaps	144(%rsp), %xmm3
	movaps	%xmm3, 16(%rsp)
	movaps	112(%rsp), %xmm3
	movaps	%xmm3, -16(%rsp)
	movl	127(%rsp), %r11d
	movl	%r11d, -1(%rsp)
	movaps	16(%rsp), %xmm3
	movaps	%xmm3, -48(%rsp)
	movl	31(%rsp), %r11d
	movl	%r11d, -33(%rsp)
	movaps	-16(%rsp), %xmm3
	movaps	%xmm3, -80(%rsp)
	movl	-1(%rsp), %r11d
	movl	%r11d, -65(%rsp)
	testb	%bpl, %bpl
	je	.Lpasetone_BB10_14
	movb	$1, %r14b
	movaps	%xmm2, %xmm1
	jmp	.Lpasetone_BB10_15
.Lpasetone_BB10_14:
	xorl	%r14d, %r14d
.Lpasetone_BB10_15:
	andb	$1, %r15b
	movzbl	-126(%rsp), %r9d
	andb	$1, %r9b
	movl	%ecx, %r11d
	shll	$4, %r11d
	movl	%r14d, %ebp
	xorb	$1, %bpl
	addb	%bpl, %bpl
	testb	%r14b, %r14b
	movl	-84(%rsp), %r14d
	cmoveq	%rsi, %r14
	movl	%ecx, (%r12,%r11)
	movl	%r11d, 4(%r12,%r11)
	pextrb	$0, %xmm0, (%rdi)
	pextrb	$1, %xmm0, 1(%rdi)
	movb	%r8b, 2(%rdi)
	pextrb	$3, %xmm0, 3(%rdi)
	movq	-112(%rsp), %rsi
	movb	%sil, 4(%rdi)
	movl	-104(%rsp), %esi
	movl	%esi, 5(%rdi)
	movzbl	-127(%rsp), %esi
	movb	%sil, 9(%rdi)
	movaps	-48(%rsp), %xmm0
	movups	%xmm0, 10(%rdi)
	movl	-33(%rsp), %esi
	movl	%esi, 25(%rdi)
	movb	%bl, 29(%rdi)
	movzbl	-125(%rsp), %esi
	movb	%sil, 30(%rdi)
	movb	%r13b, 31(%rdi)
	movl	-100(%rsp), %esi
	movl	%esi, 32(%rdi)
	movb	%dl, 36(%rdi)
	movaps	-80(%rsp), %xmm0
	movups	%xmm0, 37(%rdi)
	movl	-65(%rsp), %esi
	movl	%esi, 52(%rdi)
	movl	%r10d, 56(%rdi)
	movl	%eax, 60(%rdi)
	movb	%r15b, 64(%rdi)
	movb	$0, 67(%rdi)
	movw	$0, 65(%rdi)
	movss	%xmm1, 68(%rdi)
	movq	40(%rsp), %rax
	movq	%rax, 72(%rdi)
	movb	%r9b, 80(%rdi)
	movl	$0, 84(%rdi)
	movl	$0, 81(%rdi)
	movb	%bpl, 88(%rdi)
	movl	$0, 92(%rdi)
	movl	$0, 89(%rdi)
	movq	%r14, 96(%rdi)
	movq	%rcx, 104(%rdi)
	jmp	.Lpasetone_BB10_4
.Lpasetone_BB10_16:
	xorl	%r11d, %r11d
	testb	%bpl, %bpl
	setne	%r11b
	movq	-96(%rsp), %r8
	andl	$-16, %r8d
	movq	184(%rsp), %rbx
	andl	$15, %ebx
	orq	%r8, %rbx
	movl	%ebx, %r12d
	shll	$8, %r12d
	orq	$5, %r12
	shll	$8, %r11d
	movl	%ebx, %r8d
	addq	%rsi, %r11
	addq	$33554434, %r11
	movq	%r11, 48(%r9)
	movq	%r12, 56(%r9)
	movzbl	4(%rcx), %r14d
	testb	%bpl, %bpl
	movq	%r9, %r12
	je	.Lpasetone_BB10_18
	xorl	%ecx, %ecx
	testb	%r14b, %r14b
	setne	%cl
	shll	$8, %ecx
	orq	$16777217, %rcx
	movq	%rcx, 64(%r12)
	movq	$0, 72(%r12)
	movl	$5, %ecx
	movb	$1, %bl
	movl	$3, %esi
	xorl	%r13d, %r13d
	xorl	%ebp, %ebp
	jmp	.Lpasetone_BB10_12
.Lpasetone_BB10_18:
	xorl	%r11d, %r11d
	testb	%r14b, %r14b
	setne	%r11b
	andl	$-32, %r13d
	movq	176(%rsp), %rbx
	andl	$15, %ebx
	orq	%r13, %rbx
	movl	%ebx, %r9d
	shll	$8, %r9d
	orq	$7, %r9
	shll	$8, %r11d
	addq	%rsi, %r11
	addq	$33554434, %r11
	movq	%r11, 64(%r12)
	movq	%r9, 72(%r12)
	movzbl	5(%rcx), %r9d
	testb	%r9b, %r9b
	sete	%bpl
	movq	%rbx, -112(%rsp)
	testb	%r14b, %r14b
	je	.Lpasetone_BB10_20
	xorl	%ecx, %ecx
	testb	%r9b, %r9b
	setne	%cl
	shll	$8, %ecx
	orq	$16777217, %rcx
	movq	%rcx, 80(%r12)
	movq	$0, 88(%r12)
	movl	$6, %ecx
	movb	$1, %r13b
	movl	$4, %esi
	xorl	%ebx, %ebx
	xorl	%ebp, %ebp
	jmp	.Lpasetone_BB10_12
.Lpasetone_BB10_20:
	movzbl	-127(%rsp), %r11d
	xorl	%edx, %edx
	testb	%r9b, %r9b
	setne	%dl
	andl	$-16, %r11d
	movq	168(%rsp), %r14
	andl	$15, %r14d
	orq	%r11, %r14
	movl	%r14d, %r9d
	shll	$8, %r9d
	orq	$12, %r9
	movl	%edx, %r11d
	shll	$8, %r11d
	addq	%r11, %rsi
	addq	$33554434, %rsi
	movq	%rsi, 80(%r12)
	movq	%r9, 88(%r12)
	xorl	%esi, %esi
	cmpb	$0, 6(%rcx)
	setne	%sil
	shll	$8, %esi
	orq	$16777217, %rsi
	movq	%rsi, 96(%r12)
	movq	$0, 104(%r12)
	leaq	(%rdx,%rdx,4), %rsi
	movl	$7, %ecx
	xorl	%r13d, %r13d
	xorl	%ebx, %ebx
	movb	%r14b, -127(%rsp)
	jmp	.Lpasetone_BB10_12
.Lpasetone_func_end10:
	.size	"r82xx::Tuner::set_gain_by_index", .Lpasetone_func_end10-"r82xx::Tuner::set_gain_by_index"
	.cfi_endproc

	.section	".text.tuners::set_gain_by_index","ax",@progbits
	.p2align	4
	.type	"tuners::set_gain_by_index",@function
"tuners::set_gain_by_index":
	.cfi_startproc
	pushq	%rbp
	.cfi_def_cfa_offset 16
	pushq	%r15
	.cfi_def_cfa_offset 24
	pushq	%r14
	.cfi_def_cfa_offset 32
	pushq	%r12
	.cfi_def_cfa_offset 40
	pushq	%rbx
	.cfi_def_cfa_offset 48
	subq	$288, %rsp
	.cfi_def_cfa_offset 336
	.cfi_offset %rbx, -48
	.cfi_offset %r12, -40
	.cfi_offset %r14, -32
	.cfi_offset %r15, -24
	.cfi_offset %rbp, -16
	movq	%r9, %r14
	movq	%r8, %r15
	movq	%rcx, %r12
	movq	%rdi, %rbx
	leaq	192(%rsp), %rdi
	callq	"records::decode_tuner"
	cmpb	$1, 192(%rsp)
	jne	.Lpasetone_BB11_1
	cmpq	$78, 360(%rsp)
	jb	.Lpasetone_BB11_4
	movq	344(%rsp), %rax
	movq	336(%rsp), %r9
	leaq	200(%rsp), %rsi
	movq	%rax, (%rsp)
	leaq	80(%rsp), %rdi
	movq	%r12, %rdx
	movq	%r15, %rcx
	movq	%r14, %r8
	callq	"r82xx::Tuner::set_gain_by_index"
	movzbl	80(%rsp), %edx
	movzbl	81(%rsp), %esi
	movups	82(%rsp), %xmm0
	movaps	%xmm0, 48(%rsp)
	movups	93(%rsp), %xmm0
	movups	%xmm0, 59(%rsp)
	movups	109(%rsp), %xmm0
	movaps	%xmm0, 16(%rsp)
	movups	120(%rsp), %xmm0
	movups	%xmm0, 27(%rsp)
	movzbl	168(%rsp), %eax
	testl	%eax, %eax
	setne	%dil
	movq	184(%rsp), %rcx
	testq	%rcx, %rcx
	sete	%r8b
	testb	%r8b, %dil
	jne	.Lpasetone_BB11_7
	movq	352(%rsp), %rdi
	movsd	136(%rsp), %xmm0
	movzbl	144(%rsp), %r8d
	movd	148(%rsp), %xmm1
	movzbl	160(%rsp), %r9d
	andb	$1, %r9b
	movd	%xmm1, %r10d
	ucomiss	%xmm1, %xmm1
	movq	152(%rsp), %r11
	movl	$2143289344, %ebp
	cmovnpl	%r10d, %ebp
	andb	$1, %r8b
	movb	%dl, (%rdi)
	movb	%sil, 1(%rdi)
	movaps	48(%rsp), %xmm1
	movups	%xmm1, 2(%rdi)
	movups	59(%rsp), %xmm1
	movups	%xmm1, 13(%rdi)
	movlps	%xmm0, 29(%rdi)
	movb	%r8b, 37(%rdi)
	movl	%ebp, 38(%rdi)
	movq	%r11, 42(%rdi)
	movb	%r9b, 50(%rdi)
	movaps	16(%rsp), %xmm0
	movups	%xmm0, 51(%rdi)
	movups	27(%rsp), %xmm0
	movups	%xmm0, 62(%rdi)
.Lpasetone_BB11_7:
	movq	176(%rsp), %rdx
	testl	%eax, %eax
	je	.Lpasetone_BB11_8
	cmpl	$2, %eax
	jne	.Lpasetone_BB11_10
	movl	$11, %eax
	xorl	%esi, %esi
	jmp	.Lpasetone_BB11_12
.Lpasetone_BB11_1:
	xorl	%esi, %esi
	movl	$1, %eax
	jmp	.Lpasetone_BB11_2
.Lpasetone_BB11_4:
	xorl	%esi, %esi
	movl	$8, %eax
.Lpasetone_BB11_2:
	xorl	%edx, %edx
	xorl	%ecx, %ecx
.Lpasetone_BB11_12:
	movq	%rsi, (%rbx)
	movq	%rdx, 8(%rbx)
	movl	%eax, 16(%rbx)
	movl	%ecx, 20(%rbx)
	addq	$288, %rsp
	.cfi_def_cfa_offset 48
	popq	%rbx
	.cfi_def_cfa_offset 40
	popq	%r12
	.cfi_def_cfa_offset 32
	popq	%r14
	.cfi_def_cfa_offset 24
	popq	%r15
	.cfi_def_cfa_offset 16
	popq	%rbp
	.cfi_def_cfa_offset 8
	retq
.Lpasetone_BB11_8:
	.cfi_def_cfa_offset 336
	movq	%rdx, %rsi
	movq	%rax, %rdx
	jmp	.Lpasetone_BB11_12
.Lpasetone_BB11_10:
	movzbl	169(%rsp), %eax
	xorl	%esi, %esi
	xorl	%edx, %edx
	jmp	.Lpasetone_BB11_12
.Lpasetone_func_end11:
	.size	"tuners::set_gain_by_index", .Lpasetone_func_end11-"tuners::set_gain_by_index"
	.cfi_endproc

	.section	".text.tuners::set_bandwidth","ax",@progbits
	.p2align	4
	.type	"tuners::set_bandwidth",@function
"tuners::set_bandwidth":
	.cfi_startproc
	pushq	%rbp
	.cfi_def_cfa_offset 16
	pushq	%r15
	.cfi_def_cfa_offset 24
	pushq	%r14
	.cfi_def_cfa_offset 32
	pushq	%r13
	.cfi_def_cfa_offset 40
	pushq	%r12
	.cfi_def_cfa_offset 48
	pushq	%rbx
	.cfi_def_cfa_offset 56
	subq	$488, %rsp
	.cfi_def_cfa_offset 544
	.cfi_offset %rbx, -56
	.cfi_offset %r12, -48
	.cfi_offset %r13, -40
	.cfi_offset %r14, -32
	.cfi_offset %r15, -24
	.cfi_offset %rbp, -16
	movq	%r9, %r15
	movq	%r8, %r14
	movl	%ecx, %ebp
	movq	%rdi, %rbx
	leaq	392(%rsp), %rdi
	callq	"records::decode_tuner"
	cmpb	$1, 392(%rsp)
	jne	.Lpasetone_BB12_1
	cmpq	$78, 568(%rsp)
	jb	.Lpasetone_BB12_4
	movzbl	400(%rsp), %eax
	movb	%al, 7(%rsp)
	movzbl	401(%rsp), %esi
	leaq	402(%rsp), %rax
	movl	456(%rsp), %r12d
	movl	460(%rsp), %r13d
	movzbl	464(%rsp), %ecx
	movb	%cl, 8(%rsp)
	movd	468(%rsp), %xmm2
	movq	472(%rsp), %r11
	movzbl	480(%rsp), %r10d
	xorps	%xmm0, %xmm0
	movaps	%xmm0, 48(%rsp)
	movups	%xmm0, 59(%rsp)
	movaps	%xmm0, 16(%rsp)
	movups	%xmm0, 27(%rsp)
	movaps	%xmm0, 112(%rsp)
	movups	%xmm0, 123(%rsp)
	movaps	%xmm0, 80(%rsp)
	xorl	%ecx, %ecx
	cmpl	$7000001, %ebp
	movl	$6, %edx
	cmovael	%ecx, %edx
	cmpl	$6000001, %ebp
	movl	$8, %ecx
	cmovbl	%ecx, %edx
	movups	%xmm0, 91(%rsp)
	movb	$10, 9(%rsp)
	movb	%dl, 10(%rsp)
	movb	$15, 11(%rsp)
	movaps	%xmm0, 272(%rsp)
	movaps	%xmm0, 256(%rsp)
	movaps	%xmm0, 240(%rsp)
	movaps	%xmm0, 224(%rsp)
	movaps	%xmm0, 208(%rsp)
	movq	$0, 288(%rsp)
	testl	%r12d, %r12d
	sete	%dl
	testl	%r13d, %r13d
	sete	%dil
	movl	$1, %ecx
	orb	%dl, %dil
	jne	.Lpasetone_BB12_8
	cmpq	$56, 552(%rsp)
	movl	$8, %ecx
	jb	.Lpasetone_BB12_8
	movl	$9, %ecx
	cmpq	$2, %r15
	ja	.Lpasetone_BB12_9
.Lpasetone_BB12_8:
	movups	(%rax), %xmm0
	movups	11(%rax), %xmm1
	movups	%xmm1, 187(%rsp)
	movaps	%xmm0, 176(%rsp)
	movups	27(%rax), %xmm0
	movups	38(%rax), %xmm1
	movaps	%xmm0, 144(%rsp)
	movups	%xmm1, 155(%rsp)
	movb	$1, %dil
	xorl	%edx, %edx
	xorl	%eax, %eax
.Lpasetone_BB12_13:
	movaps	176(%rsp), %xmm0
	movaps	%xmm0, 112(%rsp)
	movups	187(%rsp), %xmm0
	movups	%xmm0, 123(%rsp)
	movaps	144(%rsp), %xmm0
	movaps	%xmm0, 80(%rsp)
	movups	155(%rsp), %xmm0
	movups	%xmm0, 91(%rsp)
	movaps	112(%rsp), %xmm0
	movaps	%xmm0, 48(%rsp)
	movups	123(%rsp), %xmm0
	movups	%xmm0, 59(%rsp)
	movups	91(%rsp), %xmm0
	movups	%xmm0, 27(%rsp)
	movaps	80(%rsp), %xmm0
	movaps	%xmm0, 16(%rsp)
	movups	59(%rsp), %xmm0
	movups	%xmm0, 315(%rsp)
	movaps	48(%rsp), %xmm0
	movaps	%xmm0, 304(%rsp)
	movups	27(%rsp), %xmm0
	movups	%xmm0, 219(%rsp)
	movaps	16(%rsp), %xmm0
	movaps	%xmm0, 208(%rsp)
	testb	%dil, %dil
	setne	%r8b
	testq	%rax, %rax
	sete	%r9b
	testb	%r9b, %r8b
	jne	.Lpasetone_BB12_15
	movq	560(%rsp), %r8
	andb	$1, %r10b
	movd	%xmm2, %r9d
	ucomiss	%xmm2, %xmm2
	movl	%r10d, %ebp
	movl	$2143289344, %r10d
	cmovnpl	%r9d, %r10d
	movzbl	8(%rsp), %r9d
	andb	$1, %r9b
	movzbl	7(%rsp), %r14d
	movb	%r14b, (%r8)
	movb	%sil, 1(%r8)
	movaps	304(%rsp), %xmm0
	movups	%xmm0, 2(%r8)
	movups	315(%rsp), %xmm0
	movups	%xmm0, 13(%r8)
	movl	%r12d, 29(%r8)
	movl	%r13d, 33(%r8)
	movb	%r9b, 37(%r8)
	movl	%r10d, 38(%r8)
	movq	%r11, 42(%r8)
	movb	%bpl, 50(%r8)
	movaps	208(%rsp), %xmm0
	movups	%xmm0, 51(%r8)
	movups	219(%rsp), %xmm0
	movups	%xmm0, 62(%r8)
.Lpasetone_BB12_15:
	movzbl	%dil, %esi
	testb	%dil, %dil
	je	.Lpasetone_BB12_16
	cmpl	$2, %esi
	jne	.Lpasetone_BB12_18
	movl	$11, %esi
	xorl	%edi, %edi
	jmp	.Lpasetone_BB12_20
.Lpasetone_BB12_1:
	xorl	%edi, %edi
	movl	$1, %esi
	jmp	.Lpasetone_BB12_2
.Lpasetone_BB12_4:
	xorl	%edi, %edi
	movl	$8, %esi
.Lpasetone_BB12_2:
	xorl	%edx, %edx
	xorl	%eax, %eax
.Lpasetone_BB12_20:
	movq	%rdi, (%rbx)
	movq	%rdx, 8(%rbx)
	movl	%esi, 16(%rbx)
	movl	%eax, 20(%rbx)
	addq	$488, %rsp
	.cfi_def_cfa_offset 56
	popq	%rbx
	.cfi_def_cfa_offset 48
	popq	%r12
	.cfi_def_cfa_offset 40
	popq	%r13
	.cfi_def_cfa_offset 32
	popq	%r14
	.cfi_def_cfa_offset 24
	popq	%r15
	.cfi_def_cfa_offset 16
	popq	%rbp
	.cfi_def_cfa_offset 8
	retq
.Lpasetone_BB12_16:
	.cfi_def_cfa_offset 544
	movq	%rdx, %rdi
	movq	%rsi, %rdx
	jmp	.Lpasetone_BB12_20
.Lpasetone_BB12_18:
	xorl	%edi, %edi
	xorl	%edx, %edx
	movl	%ecx, %esi
	jmp	.Lpasetone_BB12_20
.Lpasetone_BB12_9:
	movd	%xmm2, 12(%rsp)
	movb	%r10b, 6(%rsp)
	movq	%r11, %rbp
	movq	544(%rsp), %r15
	movb	%sil, 304(%rsp)
	movups	(%rax), %xmm0
	movups	11(%rax), %xmm1
	movups	%xmm0, 305(%rsp)
	movups	%xmm1, 316(%rsp)
	movups	27(%rax), %xmm0
	movups	38(%rax), %xmm1
	movups	%xmm0, 332(%rsp)
	movups	%xmm1, 343(%rsp)
	xorps	%xmm0, %xmm0
	movups	%xmm0, 359(%rsp)
	movups	%xmm0, 375(%rsp)
	movb	$0, 391(%rsp)
	leaq	208(%rsp), %rdi
	leaq	304(%rsp), %rsi
	leaq	9(%rsp), %rdx
	movl	$1, %ecx
	movq	%r14, %r8
	movq	%r15, %r9
	callq	"chip::with_repeater"
	movq	264(%rsp), %rax
	movq	%rax, %rsi
	shlq	$4, %rsi
	xorl	%ecx, %ecx
	cmpb	$0, 272(%rsp)
	setne	%dil
	je	.Lpasetone_BB12_10
	movq	280(%rsp), %rdx
	jmp	.Lpasetone_BB12_12
.Lpasetone_BB12_10:
	xorl	%edx, %edx
.Lpasetone_BB12_12:
	movl	%eax, (%r15,%rsi)
	movl	%esi, 4(%r15,%rsi)
	addb	%dil, %dil
	movzbl	208(%rsp), %esi
	movups	209(%rsp), %xmm0
	movaps	%xmm0, 176(%rsp)
	movups	220(%rsp), %xmm0
	movups	%xmm0, 187(%rsp)
	movups	236(%rsp), %xmm0
	movaps	%xmm0, 144(%rsp)
	movups	247(%rsp), %xmm0
	movups	%xmm0, 155(%rsp)
	movq	%rbp, %r11
	movzbl	6(%rsp), %r10d
	movd	12(%rsp), %xmm2
	jmp	.Lpasetone_BB12_13
.Lpasetone_func_end12:
	.size	"tuners::set_bandwidth", .Lpasetone_func_end12-"tuners::set_bandwidth"
	.cfi_endproc

	.section	".text.drivers::set_ppm","ax",@progbits
	.p2align	4
	.type	"drivers::set_ppm",@function
"drivers::set_ppm":
	.cfi_startproc
	pushq	%rbp
	.cfi_def_cfa_offset 16
	pushq	%r15
	.cfi_def_cfa_offset 24
	pushq	%r14
	.cfi_def_cfa_offset 32
	pushq	%r13
	.cfi_def_cfa_offset 40
	pushq	%r12
	.cfi_def_cfa_offset 48
	pushq	%rbx
	.cfi_def_cfa_offset 56
	subq	$456, %rsp
	.cfi_def_cfa_offset 512
	.cfi_offset %rbx, -56
	.cfi_offset %r12, -48
	.cfi_offset %r13, -40
	.cfi_offset %r14, -32
	.cfi_offset %r15, -24
	.cfi_offset %rbp, -16
	movl	%r9d, 28(%rsp)
	movq	%rsi, 40(%rsp)
	movq	%rdi, 32(%rsp)
	movabsq	$4835703278458516699, %r9
	movabsq	$4294967296, %r13
	cmpq	$29, %r8
	jne	.Lpasetone_BB13_1
	movq	%rdx, %r11
	movzbl	(%rcx), %r8d
	movl	1(%rcx), %esi
	movslq	5(%rcx), %rdi
	movq	%rdi, %rax
	imulq	%rsi, %rax
	imulq	%r9
	movq	%rdx, %rax
	shrq	$63, %rax
	sarq	$18, %rdx
	addq	%rax, %rdx
	addq	%rsi, %rdx
	cmpq	%r13, %rdx
	movq	%r13, %rax
	cmovbq	%rdx, %rax
	xorl	%ebx, %ebx
	cmpb	$1, %r8b
	ja	.Lpasetone_BB13_3
	movabsq	$-4294967296, %r9
	addq	%r9, %rdx
	incq	%r9
	cmpq	%r9, %rdx
	jb	.Lpasetone_BB13_3
	movl	%eax, %eax
	movl	$0, %r9d
	movl	$0, %r14d
	movl	$0, %ebp
	movl	$0, %r10d
	movl	$0, %r12d
	movl	$0, %r15d
	testq	%rax, %rax
	movq	%r11, %rdx
	je	.Lpasetone_BB13_7
	movq	21(%rcx), %r15
	movl	17(%rcx), %r12d
	movq	9(%rcx), %r10
	cmpb	$1, %r8b
	sete	%r9b
	movb	$1, %bl
	movl	%esi, %r14d
	movl	%edi, %ebp
	jmp	.Lpasetone_BB13_7
.Lpasetone_BB13_1:
	xorl	%ebx, %ebx
	xorl	%r9d, %r9d
	xorl	%r14d, %r14d
	xorl	%ebp, %ebp
	xorl	%r10d, %r10d
	xorl	%r12d, %r12d
	xorl	%r15d, %r15d
	jmp	.Lpasetone_BB13_7
.Lpasetone_BB13_3:
	xorl	%r9d, %r9d
	xorl	%r14d, %r14d
	xorl	%ebp, %ebp
	xorl	%r10d, %r10d
	xorl	%r12d, %r12d
	xorl	%r15d, %r15d
	movq	%r11, %rdx
.Lpasetone_BB13_7:
	movq	%rcx, 88(%rsp)
	movq	%r10, 8(%rsp)
	movq	%r9, 16(%rsp)
	leaq	360(%rsp), %rdi
	movq	40(%rsp), %rsi
	callq	"records::decode_tuner"
	movzbl	360(%rsp), %eax
	pxor	%xmm0, %xmm0
	movdqa	%xmm0, 192(%rsp)
	movdqu	%xmm0, 203(%rsp)
	movdqa	%xmm0, 160(%rsp)
	movdqu	%xmm0, 171(%rsp)
	movdqa	%xmm0, 128(%rsp)
	movdqu	%xmm0, 139(%rsp)
	movdqa	%xmm0, 96(%rsp)
	movdqu	%xmm0, 107(%rsp)
	testb	%bl, %bl
	je	.Lpasetone_BB13_8
	cmpb	$1, %al
	sete	%al
	jne	.Lpasetone_BB13_10
	movzbl	368(%rsp), %edi
	movzbl	369(%rsp), %r11d
	movups	370(%rsp), %xmm0
	movaps	%xmm0, 128(%rsp)
	movups	381(%rsp), %xmm0
	movups	%xmm0, 139(%rsp)
	movups	397(%rsp), %xmm0
	movaps	%xmm0, 96(%rsp)
	movups	408(%rsp), %xmm0
	movups	%xmm0, 107(%rsp)
	movl	424(%rsp), %r9d
	movl	428(%rsp), %r10d
	movzbl	432(%rsp), %r8d
	movd	436(%rsp), %xmm0
	movq	440(%rsp), %rsi
	movzbl	448(%rsp), %edx
	andb	$1, %r8b
	andb	$1, %dl
	movl	%r12d, %ecx
	movl	%r14d, %r12d
	jmp	.Lpasetone_BB13_12
.Lpasetone_BB13_8:
	pxor	%xmm0, %xmm0
	xorl	%edx, %edx
	xorl	%esi, %esi
	xorl	%r8d, %r8d
	xorl	%edi, %edi
	xorl	%r11d, %r11d
	xorl	%r10d, %r10d
	movq	$0, 16(%rsp)
	xorl	%r12d, %r12d
	xorl	%ebp, %ebp
	movq	$0, 8(%rsp)
	xorl	%ecx, %ecx
	xorl	%r15d, %r15d
	xorl	%eax, %eax
	xorl	%r9d, %r9d
	jmp	.Lpasetone_BB13_13
.Lpasetone_BB13_10:
	xorl	%edx, %edx
	pxor	%xmm0, %xmm0
	xorl	%esi, %esi
	xorl	%r8d, %r8d
	xorl	%edi, %edi
	xorl	%r11d, %r11d
	xorl	%r9d, %r9d
	xorl	%r10d, %r10d
	movq	$0, 16(%rsp)
	xorl	%r12d, %r12d
	xorl	%ebp, %ebp
	movq	$0, 8(%rsp)
	xorl	%ecx, %ecx
	xorl	%r15d, %r15d
.Lpasetone_BB13_12:
	movups	139(%rsp), %xmm1
	movups	%xmm1, 203(%rsp)
	movaps	128(%rsp), %xmm1
	movaps	%xmm1, 192(%rsp)
	movaps	96(%rsp), %xmm1
	movaps	%xmm1, 160(%rsp)
	movups	107(%rsp), %xmm1
	movups	%xmm1, 171(%rsp)
.Lpasetone_BB13_13:
	movups	203(%rsp), %xmm1
	movups	%xmm1, 331(%rsp)
	movaps	192(%rsp), %xmm1
	movaps	%xmm1, 320(%rsp)
	movaps	160(%rsp), %xmm1
	movaps	%xmm1, 288(%rsp)
	movups	171(%rsp), %xmm1
	movups	%xmm1, 299(%rsp)
	movaps	320(%rsp), %xmm1
	movaps	%xmm1, 256(%rsp)
	movups	331(%rsp), %xmm1
	movups	%xmm1, 267(%rsp)
	movups	299(%rsp), %xmm1
	movups	%xmm1, 235(%rsp)
	movaps	288(%rsp), %xmm1
	movaps	%xmm1, 224(%rsp)
	testb	%al, %al
	je	.Lpasetone_BB13_23
	movq	%r11, 48(%rsp)
	movq	%rdi, 56(%rsp)
	movq	%rsi, 64(%rsp)
	movq	%rdx, 72(%rsp)
	movl	%r12d, %r11d
	movslq	%ebp, %rax
	imulq	%r11, %rax
	movabsq	$4835703278458516699, %rdx
	imulq	%rdx
	movq	%rdx, %rax
	shrq	$63, %rax
	sarq	$18, %rdx
	addq	%rax, %rdx
	leaq	(%rdx,%r11), %rsi
	cmpq	%r13, %rsi
	cmovaeq	%r13, %rsi
	xorl	%eax, %eax
	movl	$1, %ebx
	testl	%r9d, %r9d
	movq	%r9, 80(%rsp)
	je	.Lpasetone_BB13_19
	testl	%r10d, %r10d
	je	.Lpasetone_BB13_19
	addq	%r11, %rdx
	decq	%rdx
	movl	$4294967294, %edi
	cmpq	%rdi, %rdx
	ja	.Lpasetone_BB13_19
	movl	%esi, %edx
	testq	%rdx, %rdx
	je	.Lpasetone_BB13_19
	movl	%r9d, %edi
	movslq	28(%rsp), %rbx
	movq	%rdi, %rax
	imulq	%rbx, %rax
	movabsq	$4835703278458516699, %rdx
	movq	%r15, %r14
	movl	%ebp, %r15d
	movl	%r12d, %ebp
	movl	%ecx, %r12d
	movq	%rdx, %rcx
	imulq	%rdx
	movq	%rdx, %rax
	shrq	$63, %rax
	sarq	$18, %rdx
	addq	%rax, %rdx
	leaq	(%rdx,%rdi), %rsi
	cmpq	%r13, %rsi
	cmovaeq	%r13, %rsi
	leaq	(%rdi,%rdx), %rax
	decq	%rax
	movl	$4294967295, %edi
	cmpq	%rdi, %rax
	setb	%al
	testl	%esi, %esi
	setne	%r9b
	andb	%al, %r9b
	movq	%r11, %rax
	imulq	%rbx, %rax
	imulq	%rcx
	movl	%r12d, %ecx
	movl	%ebp, %r12d
	movl	%r15d, %ebp
	movq	%r14, %r15
	movq	%rdx, %rax
	shrq	$63, %rax
	sarq	$18, %rdx
	addq	%rax, %rdx
	leaq	(%rdx,%r11), %rax
	cmpq	%r13, %rax
	cmovbq	%rax, %r13
	leaq	(%r11,%rdx), %rax
	decq	%rax
	cmpq	%rdi, %rax
	setb	%dl
	testl	%r13d, %r13d
	setne	%al
	andb	%dl, %al
	andb	%r9b, %al
	cmovnel	%esi, %r10d
	cmovnel	%ebx, %ebp
	movl	%eax, %edx
	xorb	$1, %dl
	movzbl	%dl, %ebx
	shll	$2, %ebx
.Lpasetone_BB13_19:
	testb	%al, %al
	movq	88(%rsp), %rdx
	je	.Lpasetone_BB13_21
	movq	16(%rsp), %rax
	movb	%al, (%rdx)
	movl	%r12d, 1(%rdx)
	movl	%ebp, 5(%rdx)
	movq	8(%rsp), %rax
	movq	%rax, 9(%rdx)
	movl	%ecx, 17(%rdx)
	movq	%r15, 21(%rdx)
	movd	%xmm0, %eax
	ucomiss	%xmm0, %xmm0
	movl	$2143289344, %edx
	cmovnpl	%eax, %edx
	movq	40(%rsp), %rcx
	movq	56(%rsp), %rax
	movb	%al, (%rcx)
	movq	48(%rsp), %rax
	movb	%al, 1(%rcx)
	movaps	256(%rsp), %xmm0
	movups	%xmm0, 2(%rcx)
	movups	267(%rsp), %xmm0
	movups	%xmm0, 13(%rcx)
	movq	80(%rsp), %rax
	movl	%eax, 29(%rcx)
	movl	%r10d, 33(%rcx)
	movb	%r8b, 37(%rcx)
	movl	%edx, 38(%rcx)
	movq	64(%rsp), %rax
	movq	%rax, 42(%rcx)
	movq	72(%rsp), %rax
	movb	%al, 50(%rcx)
	movaps	224(%rsp), %xmm0
	movups	%xmm0, 51(%rcx)
	movdqu	235(%rsp), %xmm0
	movdqu	%xmm0, 62(%rcx)
	xorl	%ebx, %ebx
.Lpasetone_BB13_21:
	pxor	%xmm0, %xmm0
	movq	32(%rsp), %rax
	movdqu	%xmm0, (%rax)
	movl	%ebx, 16(%rax)
	movl	$0, 20(%rax)
	jmp	.Lpasetone_BB13_22
.Lpasetone_BB13_23:
	pxor	%xmm0, %xmm0
	movq	32(%rsp), %rax
	movdqu	%xmm0, (%rax)
	movq	$1, 16(%rax)
.Lpasetone_BB13_22:
	addq	$456, %rsp
	.cfi_def_cfa_offset 56
	popq	%rbx
	.cfi_def_cfa_offset 48
	popq	%r12
	.cfi_def_cfa_offset 40
	popq	%r13
	.cfi_def_cfa_offset 32
	popq	%r14
	.cfi_def_cfa_offset 24
	popq	%r15
	.cfi_def_cfa_offset 16
	popq	%rbp
	.cfi_def_cfa_offset 8
	retq
.Lpasetone_func_end13:
	.size	"drivers::set_ppm", .Lpasetone_func_end13-"drivers::set_ppm"
	.cfi_endproc

	.section	".text.tuners::reload","ax",@progbits
	.p2align	4
	.type	"tuners::reload",@function
"tuners::reload":
	.cfi_startproc
	pushq	%rbp
	.cfi_def_cfa_offset 16
	pushq	%r15
	.cfi_def_cfa_offset 24
	pushq	%r14
	.cfi_def_cfa_offset 32
	pushq	%r13
	.cfi_def_cfa_offset 40
	pushq	%r12
	.cfi_def_cfa_offset 48
	pushq	%rbx
	.cfi_def_cfa_offset 56
	subq	$360, %rsp
	.cfi_def_cfa_offset 416
	.cfi_offset %rbx, -56
	.cfi_offset %r12, -48
	.cfi_offset %r13, -40
	.cfi_offset %r14, -32
	.cfi_offset %r15, -24
	.cfi_offset %rbp, -16
	movq	%r9, %r14
	movq	%r8, %r12
	movq	%rcx, %r15
	movq	%rdi, %rbx
	leaq	88(%rsp), %rdi
	callq	"records::decode_tuner"
	cmpb	$1, 88(%rsp)
	jne	.Lpasetone_BB14_1
	cmpq	$78, 432(%rsp)
	jb	.Lpasetone_BB14_4
	movzbl	96(%rsp), %eax
	movb	%al, 10(%rsp)
	movzbl	97(%rsp), %esi
	leaq	98(%rsp), %rdx
	movl	152(%rsp), %ebp
	movl	156(%rsp), %r13d
	movzbl	160(%rsp), %eax
	movb	%al, 11(%rsp)
	movd	164(%rsp), %xmm2
	movq	168(%rsp), %r11
	movzbl	176(%rsp), %r10d
	testl	%ebp, %ebp
	sete	%al
	testl	%r13d, %r13d
	sete	%dil
	movl	$1, %ecx
	orb	%al, %dil
	jne	.Lpasetone_BB14_8
	movl	$8, %ecx
	cmpq	$152, 416(%rsp)
	jb	.Lpasetone_BB14_8
	movl	$9, %ecx
	cmpq	$8, %r12
	ja	.Lpasetone_BB14_9
.Lpasetone_BB14_8:
	movups	(%rdx), %xmm0
	movups	11(%rdx), %xmm1
	movups	%xmm1, 59(%rsp)
	movaps	%xmm0, 48(%rsp)
	movups	27(%rdx), %xmm0
	movups	38(%rdx), %xmm1
	movaps	%xmm0, 16(%rsp)
	movups	%xmm1, 27(%rsp)
	movb	$1, %dil
	xorl	%edx, %edx
	xorl	%eax, %eax
.Lpasetone_BB14_13:
	testb	%dil, %dil
	setne	%r8b
	testq	%rax, %rax
	sete	%r9b
	testb	%r9b, %r8b
	jne	.Lpasetone_BB14_15
	movq	424(%rsp), %r8
	andb	$1, %r10b
	movd	%xmm2, %r9d
	ucomiss	%xmm2, %xmm2
	movl	%r10d, %r14d
	movl	$2143289344, %r10d
	cmovnpl	%r9d, %r10d
	movzbl	11(%rsp), %r9d
	andb	$1, %r9b
	movzbl	10(%rsp), %r15d
	movb	%r15b, (%r8)
	movb	%sil, 1(%r8)
	movaps	48(%rsp), %xmm0
	movups	%xmm0, 2(%r8)
	movups	59(%rsp), %xmm0
	movups	%xmm0, 13(%r8)
	movl	%ebp, 29(%r8)
	movl	%r13d, 33(%r8)
	movb	%r9b, 37(%r8)
	movl	%r10d, 38(%r8)
	movq	%r11, 42(%r8)
	movb	%r14b, 50(%r8)
	movaps	16(%rsp), %xmm0
	movups	%xmm0, 51(%r8)
	movups	27(%rsp), %xmm0
	movups	%xmm0, 62(%r8)
.Lpasetone_BB14_15:
	movzbl	%dil, %esi
	testb	%dil, %dil
	je	.Lpasetone_BB14_16
	cmpl	$2, %esi
	jne	.Lpasetone_BB14_18
	movl	$11, %esi
	xorl	%edi, %edi
	jmp	.Lpasetone_BB14_20
.Lpasetone_BB14_1:
	xorl	%edi, %edi
	movl	$1, %esi
	jmp	.Lpasetone_BB14_2
.Lpasetone_BB14_4:
	xorl	%edi, %edi
	movl	$8, %esi
.Lpasetone_BB14_2:
	xorl	%edx, %edx
	xorl	%eax, %eax
.Lpasetone_BB14_20:
	movq	%rdi, (%rbx)
	movq	%rdx, 8(%rbx)
	movl	%esi, 16(%rbx)
	movl	%eax, 20(%rbx)
	addq	$360, %rsp
	.cfi_def_cfa_offset 56
	popq	%rbx
	.cfi_def_cfa_offset 48
	popq	%r12
	.cfi_def_cfa_offset 40
	popq	%r13
	.cfi_def_cfa_offset 32
	popq	%r14
	.cfi_def_cfa_offset 24
	popq	%r15
	.cfi_def_cfa_offset 16
	popq	%rbp
	.cfi_def_cfa_offset 8
	retq
.Lpasetone_BB14_16:
	.cfi_def_cfa_offset 416
	movq	%rdx, %rdi
	movq	%rsi, %rdx
	jmp	.Lpasetone_BB14_20
.Lpasetone_BB14_18:
	xorl	%edi, %edi
	xorl	%edx, %edx
	movl	%ecx, %esi
	jmp	.Lpasetone_BB14_20
.Lpasetone_BB14_9:
	movd	%xmm2, 12(%rsp)
	movb	%r10b, 9(%rsp)
	movq	%r11, %r12
	movb	%sil, 184(%rsp)
	movups	(%rdx), %xmm0
	movups	11(%rdx), %xmm1
	movups	%xmm0, 185(%rsp)
	movups	%xmm1, 196(%rsp)
	movups	27(%rdx), %xmm0
	movups	38(%rdx), %xmm1
	movups	%xmm0, 212(%rsp)
	movups	%xmm1, 223(%rsp)
	xorps	%xmm0, %xmm0
	movups	%xmm0, 239(%rsp)
	movups	%xmm0, 255(%rsp)
	movb	$0, 271(%rsp)
	leaq	272(%rsp), %rdi
	leaq	184(%rsp), %rsi
	movq	%r15, %rcx
	movq	%r14, %r8
	callq	"writes::send_all"
	movq	328(%rsp), %rax
	movq	%rax, %rsi
	shlq	$4, %rsi
	xorl	%ecx, %ecx
	cmpb	$0, 336(%rsp)
	setne	%dil
	je	.Lpasetone_BB14_10
	movq	344(%rsp), %rdx
	jmp	.Lpasetone_BB14_12
.Lpasetone_BB14_10:
	xorl	%edx, %edx
.Lpasetone_BB14_12:
	movl	%eax, (%r14,%rsi)
	movl	%esi, 4(%r14,%rsi)
	addb	%dil, %dil
	movzbl	272(%rsp), %esi
	movups	273(%rsp), %xmm0
	movaps	%xmm0, 48(%rsp)
	movups	284(%rsp), %xmm0
	movups	%xmm0, 59(%rsp)
	movups	300(%rsp), %xmm0
	movaps	%xmm0, 16(%rsp)
	movups	311(%rsp), %xmm0
	movups	%xmm0, 27(%rsp)
	movq	%r12, %r11
	movzbl	9(%rsp), %r10d
	movd	12(%rsp), %xmm2
	jmp	.Lpasetone_BB14_13
.Lpasetone_func_end14:
	.size	"tuners::reload", .Lpasetone_func_end14-"tuners::reload"
	.cfi_endproc

	.section	".text.writes::send_all","ax",@progbits
	.p2align	4
	.type	"writes::send_all",@function
"writes::send_all":
	.cfi_startproc
	pushq	%rbp
	.cfi_def_cfa_offset 16
	pushq	%r15
	.cfi_def_cfa_offset 24
	pushq	%r14
	.cfi_def_cfa_offset 32
	pushq	%r13
	.cfi_def_cfa_offset 40
	pushq	%r12
	.cfi_def_cfa_offset 48
	pushq	%rbx
	.cfi_def_cfa_offset 56
	subq	$136, %rsp
	.cfi_def_cfa_offset 192
	.cfi_offset %rbx, -56
	.cfi_offset %r12, -48
	.cfi_offset %r13, -40
	.cfi_offset %r14, -32
	.cfi_offset %r15, -24
	.cfi_offset %rbp, -16
	movq	%r8, %r15
	movq	%rcx, %r13
	movzbl	(%rsi), %r14d
	movzwl	5(%rsi), %ecx
	movzbl	7(%rsi), %r9d
	movl	1(%rsi), %eax
	movq	%rax, 72(%rsp)
	movzwl	12(%rsi), %eax
	movzbl	14(%rsi), %ebx
	shll	$16, %ebx
	orl	%eax, %ebx
	movl	8(%rsi), %ebp
	movzwl	15(%rsi), %eax
	movw	%ax, -118(%rsp)
	movzwl	21(%rsi), %eax
	movq	%rax, 120(%rsp)
	movzbl	23(%rsi), %eax
	movl	%eax, 52(%rsp)
	movl	17(%rsi), %eax
	movq	%rax, 128(%rsp)
	movl	24(%rsi), %eax
	movl	%eax, -72(%rsp)
	movl	28(%rsi), %eax
	movl	31(%rsi), %r8d
	movl	%r8d, 19(%rsp)
	movl	%eax, 16(%rsp)
	movl	35(%rsi), %eax
	movl	38(%rsi), %r8d
	movl	%r8d, -113(%rsp)
	movl	%eax, -116(%rsp)
	movzwl	42(%rsi), %eax
	movq	%rax, -96(%rsp)
	movl	44(%rsi), %eax
	movl	47(%rsi), %r8d
	movl	%r8d, -13(%rsp)
	movl	%eax, -16(%rsp)
	shlq	$32, %rbx
	movzbl	55(%rsi), %eax
	movb	%al, -105(%rsp)
	movzbl	80(%rsi), %eax
	movb	%al, -121(%rsp)
	movzbl	84(%rsi), %eax
	movb	%al, -106(%rsp)
	movl	51(%rsi), %eax
	movl	%eax, -88(%rsp)
	movq	56(%rsi), %r12
	movq	64(%rsi), %r10
	movq	72(%rsi), %rax
	movq	%rax, 32(%rsp)
	movzbl	81(%rsi), %eax
	movl	%eax, -84(%rsp)
	movzwl	82(%rsi), %eax
	movw	%ax, -66(%rsp)
	movzbl	85(%rsi), %eax
	movzwl	86(%rsi), %esi
	movl	%esi, -104(%rsp)
	movzwl	4(%rdx), %r8d
	movzbl	6(%rdx), %esi
	movl	(%rdx), %r11d
	movq	%r11, 104(%rsp)
	movl	7(%rdx), %r11d
	movq	%r11, 88(%rsp)
	movzwl	11(%rdx), %r11d
	movq	%r11, 96(%rsp)
	movzbl	13(%rdx), %r11d
	movl	%r11d, 44(%rsp)
	movzwl	14(%rdx), %r11d
	movw	%r11w, -120(%rsp)
	movzwl	20(%rdx), %r11d
	movq	%r11, 112(%rsp)
	movzbl	22(%rdx), %r11d
	movl	%r11d, 48(%rsp)
	movl	16(%rdx), %r11d
	movq	%r11, -80(%rsp)
	movl	23(%rdx), %edx
	movq	%rdx, -8(%rsp)
	movq	$0, 62(%rsp)
	movq	$0, 56(%rsp)
	movl	$0, -48(%rsp)
	movl	$0, -45(%rsp)
	movq	$0, (%rsp)
	movq	$0, 6(%rsp)
	movl	$0, -56(%rsp)
	movl	$0, -53(%rsp)
	movb	%r14b, -107(%rsp)
	movzbl	%r14b, %edx
	testb	%r10b, %r10b
	movq	%r15, -64(%rsp)
	movq	%rdx, 80(%rsp)
	je	.Lpasetone_BB15_2
	movq	%r10, %r14
	andq	$-256, %r14
	jmp	.Lpasetone_BB15_3
.Lpasetone_BB15_2:
	xorl	%r14d, %r14d
	xorl	%r10d, %r10d
	cmpb	$0, (%r13,%r12)
	sete	-121(%rsp)
	movq	%r12, %rax
	cmoveq	%r14, %rax
	movq	%rax, 32(%rsp)
	setne	%r10b
	movq	%r12, %rax
	shlq	$4, %rax
	movl	%r10d, %edx
	shll	$8, %edx
	orq	$16777217, %rdx
	movq	%rdx, (%r15,%rax)
	movq	80(%rsp), %rdx
	movq	$1, 8(%r15,%rax)
	incq	%r12
	movl	$0, -84(%rsp)
	xorl	%eax, %eax
	movl	$0, -104(%rsp)
.Lpasetone_BB15_3:
	movq	%r13, %r11
	orq	%rbx, %rbp
	movq	%rbp, %rbx
	testb	%r10b, %r10b
	je	.Lpasetone_BB15_6
	shll	$16, %r9d
	orl	%r9d, %ecx
	shlq	$32, %rcx
	testb	$1, -121(%rsp)
	je	.Lpasetone_BB15_9
	xorl	%eax, %eax
	cmpb	$0, (%r11,%r12)
	setne	%al
	movq	%r12, %rdx
	shlq	$4, %rdx
	shll	$8, %eax
	orq	$16777217, %rax
	movq	-64(%rsp), %rsi
	movq	%rax, (%rsi,%rdx)
	movq	$0, 8(%rsi,%rdx)
	incq	%r12
	movzbl	%r10b, %r14d
	movl	$0, -84(%rsp)
	xorl	%eax, %eax
	movl	$0, -104(%rsp)
	jmp	.Lpasetone_BB15_10
.Lpasetone_BB15_6:
	shll	$16, %esi
	orl	%esi, %r8d
	shlq	$32, %r8
	movq	104(%rsp), %rbp
	orq	%r8, %rbp
	movq	%rbp, %rcx
	shlq	$8, %rcx
	orq	$5, %rcx
	movzbl	(%r11,%r12), %r8d
	xorl	%eax, %eax
	testb	%r8b, %r8b
	setne	%al
	movl	%edx, %esi
	shll	$16, %esi
	movq	%r12, %r9
	shlq	$4, %r9
	movl	%eax, %r10d
	shll	$8, %r10d
	orl	%esi, %r10d
	orq	$134217730, %r10
	leaq	1(%r12), %rdx
	movq	-64(%rsp), %r13
	movq	%r10, (%r13,%r9)
	movq	%rcx, 8(%r13,%r9)
	testb	%r8b, %r8b
	je	.Lpasetone_BB15_11
	movl	$1, %r14d
	testb	$1, -121(%rsp)
	je	.Lpasetone_BB15_15
	xorl	%ecx, %ecx
	cmpb	$0, 1(%r11,%r12)
	setne	%cl
	shlq	$4, %rdx
	shll	$8, %ecx
	orq	$16777217, %rcx
	movq	%rcx, (%r13,%rdx)
	movq	$0, 8(%r13,%rdx)
	leaq	2(%r12), %rdx
	jmp	.Lpasetone_BB15_15
.Lpasetone_BB15_9:
	movzbl	%r10b, %edx
	orq	%rdx, %r14
.Lpasetone_BB15_10:
	movq	72(%rsp), %rbp
	movq	-96(%rsp), %r15
	movq	32(%rsp), %r8
	orq	%rcx, %rbp
	movl	16(%rsp), %ecx
	movl	19(%rsp), %edx
	movl	%edx, -21(%rsp)
	movl	%ecx, -24(%rsp)
	movl	-116(%rsp), %ecx
	movl	-113(%rsp), %edx
	movl	%ecx, -32(%rsp)
	movl	%edx, -29(%rsp)
	movl	-16(%rsp), %ecx
	movl	-13(%rsp), %edx
	movl	%ecx, -40(%rsp)
	movl	%edx, -37(%rsp)
	movq	%r12, %rdx
	jmp	.Lpasetone_BB15_17
.Lpasetone_BB15_11:
	movl	44(%rsp), %r8d
	shll	$16, %r8d
	movq	96(%rsp), %rcx
	orl	%r8d, %ecx
	shlq	$32, %rcx
	movq	88(%rsp), %r8
	orq	%rcx, %r8
	movq	%r8, %r15
	shlq	$8, %r8
	orq	$12, %r8
	movzbl	1(%r11,%r12), %r9d
	xorl	%r10d, %r10d
	testb	%r9b, %r9b
	setne	%r10b
	movq	%r11, %r14
	movq	%rdx, %r11
	shlq	$4, %r11
	imull	$16843009, %r10d, %ebx
	shll	$8, %r10d
	leaq	2(%r12), %rcx
	addq	%rsi, %r10
	addq	$134217730, %r10
	movl	%ebx, -113(%rsp)
	movl	%ebx, -116(%rsp)
	movq	%r10, (%r13,%r11)
	movq	%r8, 8(%r13,%r11)
	testb	%r9b, %r9b
	je	.Lpasetone_BB15_34
	movq	%r14, %r11
	movl	$1, %r14d
	testb	$1, -121(%rsp)
	je	.Lpasetone_BB15_14
	xorl	%esi, %esi
	cmpb	$0, 2(%r11,%r12)
	setne	%sil
	shlq	$4, %rcx
	shll	$8, %esi
	orq	$16777217, %rsi
	movq	%rsi, (%r13,%rcx)
	movq	$0, 8(%r13,%rcx)
	movq	%r12, %rcx
	addq	$3, %rcx
.Lpasetone_BB15_14:
	movq	%rdx, %r12
	movq	%rcx, %rdx
	movq	%r15, %rbx
.Lpasetone_BB15_15:
	movq	-96(%rsp), %r15
.Lpasetone_BB15_16:
	imull	$16843009, %eax, %eax
	movl	%eax, -21(%rsp)
	movl	%eax, -24(%rsp)
	movl	-116(%rsp), %eax
	movl	-113(%rsp), %ecx
	movl	%eax, -32(%rsp)
	movl	%ecx, -29(%rsp)
	movl	-16(%rsp), %eax
	movl	-13(%rsp), %ecx
	movl	%eax, -40(%rsp)
	movl	%ecx, -37(%rsp)
	movl	$0, -84(%rsp)
	movq	%r12, %r8
	xorl	%eax, %eax
	movl	$0, -104(%rsp)
.Lpasetone_BB15_17:
	movl	-24(%rsp), %ecx
	movl	-21(%rsp), %esi
	movl	%ecx, (%rsp)
	movl	%esi, 3(%rsp)
	movl	-32(%rsp), %ecx
	movl	-29(%rsp), %esi
	movl	%ecx, 7(%rsp)
	movl	%esi, 10(%rsp)
	movl	-40(%rsp), %ecx
	movl	-37(%rsp), %esi
	movl	%ecx, -56(%rsp)
	movl	%esi, -53(%rsp)
	testb	%r14b, %r14b
	je	.Lpasetone_BB15_20
	testb	%r14b, %r14b
	je	.Lpasetone_BB15_23
	movq	%r14, %rsi
	andq	$-256, %rsi
	movq	%rdx, %r12
	movq	%r8, %rdx
	movl	-88(%rsp), %r13d
	movl	-84(%rsp), %r11d
	jmp	.Lpasetone_BB15_22
.Lpasetone_BB15_20:
	movzbl	(%r11,%rdx), %ecx
	xorl	%eax, %eax
	testb	%cl, %cl
	setne	%al
	movq	%rdx, %rsi
	shlq	$4, %rsi
	movl	%eax, %r8d
	shll	$8, %r8d
	orq	$16777217, %r8
	leaq	1(%rdx), %r12
	movq	-64(%rsp), %r9
	movq	%r8, (%r9,%rsi)
	movq	$1, 8(%r9,%rsi)
	testb	%cl, %cl
	je	.Lpasetone_BB15_24
	xorl	%esi, %esi
	movq	%rax, %r14
	xorl	%r11d, %r11d
	xorl	%eax, %eax
	movl	$0, -104(%rsp)
	movl	-88(%rsp), %r13d
.Lpasetone_BB15_22:
	movl	52(%rsp), %r8d
	shll	$16, %r8d
	movq	120(%rsp), %rcx
	orl	%r8d, %ecx
	shlq	$32, %rcx
	movq	128(%rsp), %r10
	orq	%rcx, %r10
	movzbl	%r14b, %ecx
	orq	%rsi, %rcx
	movq	(%rsp), %rsi
	movq	6(%rsp), %r8
	movq	%r8, 22(%rsp)
	movq	%rsi, 16(%rsp)
	movl	-56(%rsp), %esi
	movl	-53(%rsp), %r8d
	movl	%esi, -116(%rsp)
	movl	%r8d, -113(%rsp)
	movl	-72(%rsp), %r9d
	movl	-104(%rsp), %r14d
	jmp	.Lpasetone_BB15_42
.Lpasetone_BB15_23:
	movq	%r15, -96(%rsp)
	jmp	.Lpasetone_BB15_25
.Lpasetone_BB15_24:
	movq	%r15, -96(%rsp)
	movq	%r12, %rdx
.Lpasetone_BB15_25:
	movl	-88(%rsp), %r13d
	movl	48(%rsp), %ecx
	shll	$16, %ecx
	movq	112(%rsp), %rax
	orl	%ecx, %eax
	shlq	$32, %rax
	movq	-80(%rsp), %rcx
	orq	%rax, %rcx
	movq	%rcx, -80(%rsp)
	shlq	$8, %rcx
	orq	$21, %rcx
	movzbl	(%r11,%rdx), %r8d
	xorl	%eax, %eax
	testb	%r8b, %r8b
	setne	%al
	movq	80(%rsp), %r15
	shll	$16, %r15d
	movq	%rdx, %r9
	shlq	$4, %r9
	movl	%eax, %r10d
	shll	$8, %r10d
	orl	%r15d, %r10d
	orq	$134217730, %r10
	leaq	1(%rdx), %rsi
	movq	%r11, %r12
	movq	-64(%rsp), %r11
	movq	%r10, (%r11,%r9)
	movq	%rcx, 8(%r11,%r9)
	testb	%r8b, %r8b
	je	.Lpasetone_BB15_28
	movl	$1, %ecx
	testb	%r14b, %r14b
	je	.Lpasetone_BB15_32
	movq	%rsi, %r12
	jmp	.Lpasetone_BB15_33
.Lpasetone_BB15_28:
	movq	-8(%rsp), %rcx
	shlq	$8, %rcx
	orq	$28, %rcx
	movq	%r12, -104(%rsp)
	movzbl	1(%r12,%rdx), %r8d
	xorl	%r9d, %r9d
	testb	%r8b, %r8b
	setne	%r9b
	movq	%rsi, %r10
	shlq	$4, %r10
	shll	$8, %r9d
	leaq	2(%rdx), %r12
	addq	%r15, %r9
	addq	$83886082, %r9
	movq	%r9, (%r11,%r10)
	movq	%rcx, 8(%r11,%r10)
	testb	%r8b, %r8b
	je	.Lpasetone_BB15_37
	movl	$1, %ecx
	movl	$16843009, %r13d
	testb	%r14b, %r14b
	movq	-96(%rsp), %r15
	jne	.Lpasetone_BB15_31
	xorl	%r8d, %r8d
	movq	-104(%rsp), %r9
	cmpb	$0, 2(%r9,%rdx)
	setne	%r8b
	shlq	$4, %r12
	shll	$8, %r8d
	orq	$16777217, %r8
	movq	-64(%rsp), %r9
	movq	%r8, (%r9,%r12)
	movq	$0, 8(%r9,%r12)
	movq	%rdx, %r12
	addq	$3, %r12
.Lpasetone_BB15_31:
	movq	%rsi, %rdx
	movq	-8(%rsp), %rsi
	movl	%esi, %r9d
	jmp	.Lpasetone_BB15_40
.Lpasetone_BB15_32:
	xorl	%r8d, %r8d
	cmpb	$0, 1(%r12,%rdx)
	setne	%r8b
	shlq	$4, %rsi
	shll	$8, %r8d
	orq	$16777217, %r8
	movq	-64(%rsp), %r9
	movq	%r8, (%r9,%rsi)
	movq	$0, 8(%r9,%rsi)
	leaq	2(%rdx), %r12
.Lpasetone_BB15_33:
	movl	-72(%rsp), %r9d
	movq	-80(%rsp), %r10
	movq	-96(%rsp), %r15
	jmp	.Lpasetone_BB15_41
.Lpasetone_BB15_34:
	movzwl	-120(%rsp), %r8d
	shll	$8, %r8d
	orq	$19, %r8
	movq	%r14, -104(%rsp)
	movzbl	2(%r14,%r12), %r9d
	xorl	%r10d, %r10d
	testb	%r9b, %r9b
	setne	%r10b
	movq	%rcx, %r11
	shlq	$4, %r11
	shll	$8, %r10d
	leaq	3(%r12), %rdx
	addq	%r10, %rsi
	addq	$50331650, %rsi
	movq	%rsi, (%r13,%r11)
	movq	%r8, 8(%r13,%r11)
	testb	%r9b, %r9b
	je	.Lpasetone_BB15_43
	movl	$1, %r14d
	testb	$1, -121(%rsp)
	movq	%r15, %rbx
	je	.Lpasetone_BB15_45
	xorl	%esi, %esi
	movq	-104(%rsp), %r11
	cmpb	$0, 3(%r11,%r12)
	setne	%sil
	shlq	$4, %rdx
	shll	$8, %esi
	orq	$16777217, %rsi
	movq	%rsi, (%r13,%rdx)
	movq	$0, 8(%r13,%rdx)
	movq	%r12, %rdx
	addq	$4, %rdx
	movq	%rcx, %r12
	movzwl	-120(%rsp), %ecx
	movw	%cx, -118(%rsp)
	movw	$257, %r15w
	jmp	.Lpasetone_BB15_16
.Lpasetone_BB15_37:
	testb	%r14b, %r14b
	movq	-96(%rsp), %r15
	jne	.Lpasetone_BB15_39
	xorl	%ecx, %ecx
	movq	-104(%rsp), %rsi
	cmpb	$0, 2(%rsi,%rdx)
	setne	%cl
	shlq	$4, %r12
	shll	$8, %ecx
	orq	$16777217, %rcx
	movq	%rcx, (%r11,%r12)
	movq	$0, 8(%r11,%r12)
	movq	%rdx, %r12
	addq	$3, %r12
.Lpasetone_BB15_39:
	xorl	%edx, %edx
	xorl	%r13d, %r13d
	movq	-8(%rsp), %rcx
	movl	%ecx, %r9d
	xorl	%ecx, %ecx
.Lpasetone_BB15_40:
	movq	-80(%rsp), %r10
.Lpasetone_BB15_41:
	movq	(%rsp), %rsi
	movq	6(%rsp), %r8
	movq	%r8, 22(%rsp)
	movq	%rsi, 16(%rsp)
	imull	$16843009, %eax, %eax
	movl	%eax, -116(%rsp)
	movl	%eax, -113(%rsp)
	xorl	%r11d, %r11d
	xorl	%eax, %eax
	xorl	%r14d, %r14d
.Lpasetone_BB15_42:
	movq	22(%rsp), %rsi
	movq	%rsi, 62(%rsp)
	movq	16(%rsp), %rsi
	movq	%rsi, 56(%rsp)
	movl	-116(%rsp), %esi
	movl	%esi, -48(%rsp)
	movl	-113(%rsp), %esi
	movl	%esi, -45(%rsp)
	movzbl	-107(%rsp), %esi
	movb	%sil, (%rdi)
	movq	%rbp, %rsi
	shrq	$48, %rsi
	movb	%sil, 7(%rdi)
	movq	%rbp, %rsi
	shrq	$32, %rsi
	movw	%si, 5(%rdi)
	movl	%ebp, 1(%rdi)
	movq	%rbx, %rsi
	shrq	$48, %rsi
	movb	%sil, 14(%rdi)
	movq	%rbx, %rsi
	shrq	$32, %rsi
	movw	%si, 12(%rdi)
	movl	%ebx, 8(%rdi)
	movzwl	-118(%rsp), %esi
	movw	%si, 15(%rdi)
	movq	%r10, %rsi
	shrq	$48, %rsi
	movb	%sil, 23(%rdi)
	movq	%r10, %rsi
	shrq	$32, %rsi
	movw	%si, 21(%rdi)
	movl	%r10d, 17(%rdi)
	movl	%r9d, 24(%rdi)
	movq	56(%rsp), %rsi
	movq	62(%rsp), %r8
	movq	%rsi, 28(%rdi)
	movq	%r8, 34(%rdi)
	movw	%r15w, 42(%rdi)
	movl	-48(%rsp), %esi
	movl	-45(%rsp), %r8d
	movl	%esi, 44(%rdi)
	movl	%r8d, 47(%rdi)
	movl	%r13d, 51(%rdi)
	movzbl	-105(%rsp), %esi
	movb	%sil, 55(%rdi)
	movq	%r12, 56(%rdi)
	movq	%rcx, 64(%rdi)
	movq	%rdx, 72(%rdi)
	movb	$0, 80(%rdi)
	movb	%r11b, 81(%rdi)
	movzwl	-66(%rsp), %ecx
	movw	%cx, 82(%rdi)
	movzbl	-106(%rsp), %ecx
	movb	%cl, 84(%rdi)
	movb	%al, 85(%rdi)
	movw	%r14w, 86(%rdi)
	addq	$136, %rsp
	.cfi_def_cfa_offset 56
	popq	%rbx
	.cfi_def_cfa_offset 48
	popq	%r12
	.cfi_def_cfa_offset 40
	popq	%r13
	.cfi_def_cfa_offset 32
	popq	%r14
	.cfi_def_cfa_offset 24
	popq	%r15
	.cfi_def_cfa_offset 16
	popq	%rbp
	.cfi_def_cfa_offset 8
	retq
.Lpasetone_BB15_43:
	.cfi_def_cfa_offset 192
	testb	$1, -121(%rsp)
	movq	%r15, %rbx
	je	.Lpasetone_BB15_46
	xorl	%ecx, %ecx
	movq	-104(%rsp), %r11
	cmpb	$0, 3(%r11,%r12)
	setne	%cl
	shlq	$4, %rdx
	shll	$8, %ecx
	orq	$16777217, %rcx
	movq	%rcx, (%r13,%rdx)
	movq	$0, 8(%r13,%rdx)
	movq	%r12, %rdx
	addq	$4, %rdx
	xorl	%r12d, %r12d
	xorl	%r15d, %r15d
	movzwl	-120(%rsp), %ecx
	movw	%cx, -118(%rsp)
	xorl	%r14d, %r14d
	jmp	.Lpasetone_BB15_16
.Lpasetone_BB15_45:
	movq	%rcx, %r12
	movzwl	-120(%rsp), %ecx
	movw	%cx, -118(%rsp)
	movq	-104(%rsp), %r11
	movw	$257, %r15w
	jmp	.Lpasetone_BB15_16
.Lpasetone_BB15_46:
	xorl	%r12d, %r12d
	xorl	%r15d, %r15d
	movzwl	-120(%rsp), %ecx
	movw	%cx, -118(%rsp)
	xorl	%r14d, %r14d
	movq	-104(%rsp), %r11
	jmp	.Lpasetone_BB15_16
.Lpasetone_func_end15:
	.size	"writes::send_all", .Lpasetone_func_end15-"writes::send_all"
	.cfi_endproc

	.section	.rodata.cst16,"aM",@progbits,16
	.p2align	4, 0x0
.Lpasetone_CPI16_0:
	.byte	202
	.byte	220
	.byte	215
	.byte	216
	.byte	224
	.byte	242
	.byte	14
	.byte	53
	.byte	6
	.byte	80
	.byte	156
	.byte	13
	.byte	113
	.byte	17
	.byte	20
	.byte	113
	.section	".text.demod::init_baseband","ax",@progbits
	.p2align	4
	.type	"demod::init_baseband",@function
"demod::init_baseband":
	.cfi_startproc
	movb	$8, %al
	cmpq	$728, %r8
	jb	.Lpasetone_BB16_2
	movb	$9, %al
	cmpq	$44, %rdx
	ja	.Lpasetone_BB16_3
.Lpasetone_BB16_2:
	movb	$1, (%rdi)
	movb	%al, 1(%rdi)
	xorps	%xmm0, %xmm0
	movups	%xmm0, 8(%rdi)
	retq
.Lpasetone_BB16_3:
	movabsq	$4311810052, %rax
	movabsq	$35184388931590, %rdx
	leaq	256(%rdx), %r8
	cmpb	$0, (%rsi)
	cmoveq	%rdx, %r8
	movq	%r8, (%rcx)
	movq	$9, 8(%rcx)
	je	.Lpasetone_BB16_5
	xorl	%edx, %edx
	movl	$1, %r9d
	movl	$1, %r8d
	jmp	.Lpasetone_BB16_32
.Lpasetone_BB16_5:
	movabsq	$36661874458631, %rdx
	leaq	256(%rdx), %r8
	cmpb	$0, 1(%rsi)
	cmoveq	%rdx, %r8
	movq	%r8, 16(%rcx)
	movq	$512, 24(%rcx)
	movl	$1, %r8d
	movl	$2, %r9d
	je	.Lpasetone_BB16_7
	movl	$1, %edx
	jmp	.Lpasetone_BB16_32
.Lpasetone_BB16_7:
	movabsq	$36593154981895, %rdx
	leaq	256(%rdx), %r9
	cmpb	$0, 2(%rsi)
	cmoveq	%rdx, %r9
	movq	%r9, 32(%rcx)
	movq	$528, 40(%rcx)
	je	.Lpasetone_BB16_9
	movl	$2, %edx
	movl	$3, %r9d
	jmp	.Lpasetone_BB16_32
.Lpasetone_BB16_9:
	movabsq	$52823819681798, %rdx
	leaq	256(%rdx), %r9
	cmpb	$0, 3(%rsi)
	cmoveq	%rdx, %r9
	movq	%r9, 48(%rcx)
	movq	$34, 56(%rcx)
	je	.Lpasetone_BB16_11
	movl	$3, %edx
	movl	$4, %r9d
	jmp	.Lpasetone_BB16_32
.Lpasetone_BB16_11:
	movabsq	$52776575041542, %rdx
	leaq	256(%rdx), %r9
	cmpb	$0, 4(%rsi)
	cmoveq	%rdx, %r9
	movq	%r9, 64(%rcx)
	movq	$232, 72(%rcx)
	je	.Lpasetone_BB16_13
	movl	$4, %edx
	movl	$5, %r9d
	jmp	.Lpasetone_BB16_32
.Lpasetone_BB16_13:
	movabsq	$429496729609, %rdx
	movq	%rdx, 80(%rcx)
	movq	$0, 88(%rcx)
	leaq	256(%rax), %rdx
	cmpb	$0, 6(%rsi)
	movq	%rdx, %r9
	cmoveq	%rax, %r9
	movq	%r9, 96(%rcx)
	movq	$20, 104(%rcx)
	je	.Lpasetone_BB16_15
	movl	$6, %edx
	movl	$7, %r9d
	jmp	.Lpasetone_BB16_32
.Lpasetone_BB16_15:
	cmpb	$0, 7(%rsi)
	cmoveq	%rax, %rdx
	movq	%rdx, 112(%rcx)
	movq	$16, 120(%rcx)
	je	.Lpasetone_BB16_17
	movl	$7, %edx
	movl	$8, %r9d
	jmp	.Lpasetone_BB16_32
.Lpasetone_BB16_17:
	movabsq	$90211155972, %rdx
	leaq	256(%rdx), %r9
	cmpb	$0, 8(%rsi)
	cmoveq	%rdx, %r9
	movq	%r9, 128(%rcx)
	movq	$0, 136(%rcx)
	je	.Lpasetone_BB16_19
	movl	$8, %edx
	movl	$9, %r9d
	jmp	.Lpasetone_BB16_32
.Lpasetone_BB16_19:
	movzbl	9(%rsi), %r9d
	xorl	%r10d, %r10d
	testb	%r9b, %r9b
	setne	%r10b
	shll	$8, %r10d
	movabsq	$94506123268, %rdx
	addq	%rdx, %r10
	addq	$16777217, %r10
	movq	%r10, 144(%rcx)
	movq	$0, 152(%rcx)
	testb	%r9b, %r9b
	je	.Lpasetone_BB16_21
	movl	$9, %edx
	movl	$10, %r9d
	jmp	.Lpasetone_BB16_32
.Lpasetone_BB16_21:
	leaq	256(%rdx), %r9
	cmpb	$0, 10(%rsi)
	cmoveq	%rdx, %r9
	movq	%r9, 160(%rcx)
	movq	$0, 168(%rcx)
	je	.Lpasetone_BB16_23
	movl	$10, %edx
	movl	$11, %r9d
	jmp	.Lpasetone_BB16_32
.Lpasetone_BB16_23:
	movabsq	$98801090564, %rdx
	leaq	256(%rdx), %r9
	cmpb	$0, 11(%rsi)
	cmoveq	%rdx, %r9
	movq	%r9, 176(%rcx)
	movq	$0, 184(%rcx)
	je	.Lpasetone_BB16_25
	movl	$11, %edx
	movl	$12, %r9d
	jmp	.Lpasetone_BB16_32
.Lpasetone_BB16_25:
	movabsq	$103096057860, %rdx
	leaq	256(%rdx), %r9
	cmpb	$0, 12(%rsi)
	cmoveq	%rdx, %r9
	movq	%r9, 192(%rcx)
	movq	$0, 200(%rcx)
	je	.Lpasetone_BB16_27
	movl	$12, %edx
	movl	$13, %r9d
	jmp	.Lpasetone_BB16_32
.Lpasetone_BB16_27:
	movzbl	13(%rsi), %edx
	xorl	%r9d, %r9d
	testb	%dl, %dl
	setne	%r9b
	shll	$8, %r9d
	movabsq	$107390959620, %r10
	addq	%r10, %r9
	addq	$65536, %r9
	movq	%r9, 208(%rcx)
	movq	$0, 216(%rcx)
	testb	%dl, %dl
	je	.Lpasetone_BB16_29
	movl	$13, %edx
	movl	$14, %r9d
	jmp	.Lpasetone_BB16_32
.Lpasetone_BB16_29:
	movabsq	$111685992452, %rdx
	leaq	256(%rdx), %r9
	cmpb	$0, 14(%rsi)
	cmoveq	%rdx, %r9
	movq	%r9, 224(%rcx)
	movq	$0, 232(%rcx)
	je	.Lpasetone_BB16_31
	movl	$14, %edx
	movl	$15, %r9d
	jmp	.Lpasetone_BB16_32
.Lpasetone_BB16_31:
	movabsq	$115980959748, %r9
	leaq	256(%r9), %r10
	xorl	%r11d, %r11d
	xorl	%r8d, %r8d
	cmpb	$0, 15(%rsi)
	movl	$15, %edx
	cmoveq	%r11, %rdx
	cmoveq	%r9, %r10
	setne	%r8b
	movq	%r10, 240(%rcx)
	movq	$0, 248(%rcx)
	movl	$16, %r9d
.Lpasetone_BB16_32:
	pushq	%r15
	.cfi_def_cfa_offset 16
	pushq	%r14
	.cfi_def_cfa_offset 24
	pushq	%rbx
	.cfi_def_cfa_offset 32
	.cfi_offset %rbx, -32
	.cfi_offset %r14, -24
	.cfi_offset %r15, -16
	movaps	.Lpasetone_CPI16_0(%rip), %xmm0
	movaps	%xmm0, -32(%rsp)
	movl	$-1522460300, -16(%rsp)
	movabsq	$120275927044, %r10
	xorl	%r11d, %r11d
	jmp	.Lpasetone_BB16_34
	.p2align	4
.Lpasetone_BB16_33:
	incq	%r11
	addq	%rax, %r10
	addq	$-16842756, %r10
	cmpq	$20, %r11
	je	.Lpasetone_BB16_36
.Lpasetone_BB16_34:
	testq	%r8, %r8
	jne	.Lpasetone_BB16_33
	xorl	%edx, %edx
	xorl	%r8d, %r8d
	cmpb	$0, (%rsi,%r9)
	movzbl	-32(%rsp,%r11), %ebx
	setne	%r8b
	cmovneq	%r9, %rdx
	movq	%r9, %r14
	shlq	$4, %r14
	movl	%r8d, %r15d
	shll	$8, %r15d
	addq	%r10, %r15
	movq	%r15, (%rcx,%r14)
	movq	%rbx, 8(%rcx,%r14)
	incq	%r9
	jmp	.Lpasetone_BB16_33
.Lpasetone_BB16_36:
	testq	%r8, %r8
	je	.Lpasetone_BB16_38
	movq	%r9, %rax
	jmp	.Lpasetone_BB16_46
.Lpasetone_BB16_38:
	movq	%r9, %rax
	shlq	$4, %rax
	movabsq	$107390959620, %r8
	leaq	256(%r8), %r10
	leaq	1(%r9), %rdx
	cmpb	$0, (%rsi,%r9)
	cmoveq	%r8, %r10
	movq	%r10, (%rcx,%rax)
	movq	$5, 8(%rcx,%rax)
	je	.Lpasetone_BB16_40
	movq	%rdx, %rax
	movq	%r9, %rdx
	jmp	.Lpasetone_BB16_46
.Lpasetone_BB16_40:
	movq	%rdx, %rax
	shlq	$4, %rax
	movabsq	$631377035268, %r10
	leaq	256(%r10), %r11
	leaq	2(%r9), %r8
	cmpb	$0, 1(%rsi,%r9)
	cmoveq	%r10, %r11
	movq	%r11, (%rcx,%rax)
	movq	$240, 8(%rcx,%rax)
	je	.Lpasetone_BB16_42
.Lpasetone_BB16_45:
	movq	%r8, %rax
	jmp	.Lpasetone_BB16_46
.Lpasetone_BB16_42:
	movq	%r8, %rax
	shlq	$4, %rax
	movabsq	$635672002564, %r10
	leaq	256(%r10), %r11
	leaq	3(%r9), %rdx
	cmpb	$0, 2(%rsi,%r9)
	cmoveq	%r10, %r11
	movq	%r11, (%rcx,%rax)
	movq	$15, 8(%rcx,%rax)
	je	.Lpasetone_BB16_44
.Lpasetone_BB16_43:
	movq	%rdx, %rax
	movq	%r8, %rdx
.Lpasetone_BB16_46:
	movq	%rax, %rsi
	shlq	$4, %rsi
	movl	%eax, (%rcx,%rsi)
	movl	%esi, 4(%rcx,%rsi)
	movb	$2, %sil
.Lpasetone_BB16_47:
	movb	%sil, (%rdi)
	movb	$0, 1(%rdi)
	movq	%rdx, 8(%rdi)
	movq	%rax, 16(%rdi)
	popq	%rbx
	.cfi_def_cfa_offset 24
	popq	%r14
	.cfi_def_cfa_offset 16
	popq	%r15
	.cfi_def_cfa_offset 8
	retq
.Lpasetone_BB16_44:
	.cfi_def_cfa_offset 32
	movq	%rdx, %rax
	shlq	$4, %rax
	movabsq	$73031286788, %r10
	leaq	256(%r10), %r11
	leaq	4(%r9), %r8
	cmpb	$0, 3(%rsi,%r9)
	cmoveq	%r10, %r11
	movq	%r11, (%rcx,%rax)
	movq	$0, 8(%rcx,%rax)
	jne	.Lpasetone_BB16_45
	movq	%r8, %rax
	shlq	$4, %rax
	movabsq	$17196711940, %r10
	leaq	256(%r10), %r11
	leaq	5(%r9), %rdx
	cmpb	$0, 4(%rsi,%r9)
	cmoveq	%r10, %r11
	movq	%r11, (%rcx,%rax)
	movq	$0, 8(%rcx,%rax)
	jne	.Lpasetone_BB16_43
	movq	%rdx, %rax
	shlq	$4, %rax
	movabsq	$416628604932, %r10
	leaq	256(%r10), %r11
	leaq	6(%r9), %r8
	cmpb	$0, 5(%rsi,%r9)
	cmoveq	%r10, %r11
	movq	%r11, (%rcx,%rax)
	movq	$96, 8(%rcx,%rax)
	jne	.Lpasetone_BB16_45
	movq	%r8, %rax
	shlq	$4, %rax
	movabsq	$25786580996, %r10
	leaq	256(%r10), %r11
	leaq	7(%r9), %rdx
	cmpb	$0, 6(%rsi,%r9)
	cmoveq	%r10, %r11
	movq	%r11, (%rcx,%rax)
	movq	$128, 8(%rcx,%rax)
	jne	.Lpasetone_BB16_43
	movq	%rdx, %r8
	shlq	$4, %r8
	movabsq	$760226054148, %r10
	leaq	256(%r10), %r11
	leaq	8(%r9), %rax
	cmpb	$0, 7(%rsi,%r9)
	cmoveq	%r10, %r11
	movq	%r11, (%rcx,%r8)
	movq	$27, 8(%rcx,%r8)
	jne	.Lpasetone_BB16_46
	movq	%rax, %r8
	shlq	$4, %r8
	movabsq	$55851352068, %r10
	leaq	9(%r9), %r11
	movq	%r11, %rbx
	shlq	$4, %rbx
	xorl	%edx, %edx
	cmpb	$0, 8(%rsi,%r9)
	leaq	256(%r10), %r9
	setne	%sil
	cmoveq	%r10, %r9
	movq	%r9, (%rcx,%r8)
	movq	$131, 8(%rcx,%r8)
	movl	%r11d, (%rcx,%rbx)
	movl	%ebx, 4(%rcx,%rbx)
	cmovneq	%rax, %rdx
	addb	%sil, %sil
	movq	%r11, %rax
	jmp	.Lpasetone_BB16_47
.Lpasetone_func_end16:
	.size	"demod::init_baseband", .Lpasetone_func_end16-"demod::init_baseband"
	.cfi_endproc

	.section	".text.packets::hear","ax",@progbits
	.p2align	4
	.type	"packets::hear",@function
"packets::hear":
	.cfi_startproc
	pushq	%rbp
	.cfi_def_cfa_offset 16
	pushq	%r15
	.cfi_def_cfa_offset 24
	pushq	%r14
	.cfi_def_cfa_offset 32
	pushq	%r13
	.cfi_def_cfa_offset 40
	pushq	%r12
	.cfi_def_cfa_offset 48
	pushq	%rbx
	.cfi_def_cfa_offset 56
	subq	$40, %rsp
	.cfi_def_cfa_offset 96
	.cfi_offset %rbx, -56
	.cfi_offset %r12, -48
	.cfi_offset %r13, -40
	.cfi_offset %r14, -32
	.cfi_offset %r15, -24
	.cfi_offset %rbp, -16
	movq	%rsi, 16(%rsp)
	movq	%rdx, %r8
	subq	%rcx, %r8
	cmpq	$7, %r8
	ja	.Lpasetone_BB17_3
.Lpasetone_BB17_1:
	xorps	%xmm0, %xmm0
	movups	%xmm0, 16(%rdi)
	movups	%xmm0, (%rdi)
.Lpasetone_BB17_2:
	addq	$40, %rsp
	.cfi_def_cfa_offset 56
	popq	%rbx
	.cfi_def_cfa_offset 48
	popq	%r12
	.cfi_def_cfa_offset 40
	popq	%r13
	.cfi_def_cfa_offset 32
	popq	%r14
	.cfi_def_cfa_offset 24
	popq	%r15
	.cfi_def_cfa_offset 16
	popq	%rbp
	.cfi_def_cfa_offset 8
	retq
.Lpasetone_BB17_3:
	.cfi_def_cfa_offset 96
	movq	16(%rsp), %rax
	movq	(%rax,%rcx), %r14
	movzbl	%r14b, %eax
	movq	%r14, %r12
	shrq	$16, %r12
	movq	%r14, %r9
	shrq	$40, %r9
	movq	%r14, %rbx
	shrq	$48, %rbx
	cmpb	$6, %r9b
	je	.Lpasetone_BB17_6
	movzbl	%r9b, %esi
	testl	%esi, %esi
	jne	.Lpasetone_BB17_8
	movzwl	%r12w, %r10d
	shrl	$8, %r10d
	movq	%r14, %r11
	shrq	$32, %r11
	movl	%r11d, %r12d
	andb	$15, %r12b
	movl	%ebx, %esi
	decb	%sil
	movzbl	%bl, %r9d
	movl	$1, %eax
	cmovneq	%r9, %rax
	sete	%r9b
	xorb	$5, %r9b
	cmpb	$2, %sil
	setb	%sil
	movl	%r10d, 4(%rsp)
	shll	$24, %r10d
	orq	$2097152, %r10
	andl	$15, %r11d
	orq	$16, %r11
	movl	$64, %r15d
	movb	$1, %bpl
	movq	%rax, %r13
	jmp	.Lpasetone_BB17_13
.Lpasetone_BB17_6:
	leal	-1(%rbx), %esi
	movl	%r14d, %r10d
	andl	$16711680, %r10d
	movzbl	%bl, %r13d
	cmpl	$64, %eax
	jne	.Lpasetone_BB17_7
	cmpb	$8, %sil
	setb	%sil
	movl	$64, %r15d
	movb	$2, %r9b
	movl	$1552, %r11d
	movl	$0, 4(%rsp)
	movq	%r13, %rax
	jmp	.Lpasetone_BB17_12
.Lpasetone_BB17_8:
	cmpl	$64, %eax
	jne	.Lpasetone_BB17_11
	movl	%ebx, %esi
	decb	%sil
	sete	%r10b
	movzbl	%bl, %eax
	xorb	$7, %r10b
	movb	%r10b, 8(%rsp)
	cmpb	$2, %sil
	setb	%sil
	movl	%r14d, %r10d
	andl	$-65536, %r10d
	movl	%r9d, %r11d
	shll	$8, %r11d
	movzwl	%r11w, %r11d
	orq	$16, %r11
	movl	$64, %r15d
	xorl	%ebp, %ebp
	movq	%rax, %r13
	movl	%r12d, 4(%rsp)
	movl	%r9d, %r12d
	movzbl	8(%rsp), %r9d
	jmp	.Lpasetone_BB17_13
.Lpasetone_BB17_7:
	cmpb	$5, %sil
	setb	%sil
	movl	$192, %r15d
	movb	$3, %r9b
	movl	$1536, %r11d
	xorl	%eax, %eax
	movl	$0, 4(%rsp)
	jmp	.Lpasetone_BB17_12
.Lpasetone_BB17_11:
	movzbl	%bl, %r13d
	cmpb	$1, %bl
	sete	%sil
	movl	%r14d, %r10d
	andl	$-65536, %r10d
	movl	%r9d, %eax
	shll	$8, %eax
	movzwl	%ax, %r11d
	movl	$192, %r15d
	xorl	%eax, %eax
	movl	%r12d, %ebp
	movl	%ebp, 4(%rsp)
	movl	%r9d, %r12d
	movb	$8, %r9b
.Lpasetone_BB17_12:
	xorl	%ebp, %ebp
.Lpasetone_BB17_13:
	testb	%sil, %sil
	je	.Lpasetone_BB17_1
	shlq	$32, %r11
	addq	%r11, %r10
	shlq	$48, %r13
	orq	%r15, %r13
	addq	%r10, %r13
	cmpq	%r14, %r13
	jne	.Lpasetone_BB17_1
	leaq	8(%rax), %r14
	cmpq	%r14, %r8
	jb	.Lpasetone_BB17_1
	movq	$0, 24(%rsp)
	leaq	(%rax,%rcx), %r15
	addq	$8, %r15
	testq	%rax, %rax
	je	.Lpasetone_BB17_18
	addq	$8, %rcx
	movq	16(%rsp), %rsi
	addq	%rsi, %rcx
	leaq	24(%rsp), %r8
	movq	%rdi, 8(%rsp)
	movq	%r8, %rdi
	movq	%rcx, %rsi
	movq	%rdx, 32(%rsp)
	movq	%rax, %rdx
	movl	%r9d, %r13d
	callq	memcpy@PLT
	movl	%r13d, %r9d
	movq	32(%rsp), %rdx
	movq	8(%rsp), %rdi
.Lpasetone_BB17_18:
	subq	%r15, %rdx
	cmpq	$8, %rdx
	jae	.Lpasetone_BB17_20
	xorl	%eax, %eax
	jmp	.Lpasetone_BB17_21
.Lpasetone_BB17_20:
	movabsq	$281517945258176, %rcx
	movq	16(%rsp), %rax
	cmpq	%rcx, (%rax,%r15)
	sete	%al
.Lpasetone_BB17_21:
	andb	%al, %bpl
	movzbl	%bpl, %eax
	movq	24(%rsp), %rcx
	leaq	(%r14,%rax,8), %rax
	movq	$1, (%rdi)
	movb	%r9b, 8(%rdi)
	movb	$0, 9(%rdi)
	movb	%r12b, 10(%rdi)
	movb	%bl, 11(%rdi)
	movl	4(%rsp), %edx
	movw	%dx, 12(%rdi)
	movq	%rcx, 14(%rdi)
	movw	$0, 22(%rdi)
	movq	%rax, 24(%rdi)
	jmp	.Lpasetone_BB17_2
.Lpasetone_func_end17:
	.size	"packets::hear", .Lpasetone_func_end17-"packets::hear"
	.cfi_endproc

	.section	.text.pasetone_apply_input_path,"ax",@progbits
	.globl	pasetone_apply_input_path
	.p2align	4
	.type	pasetone_apply_input_path,@function
pasetone_apply_input_path:
	.cfi_startproc
	pushq	%rbp
	.cfi_def_cfa_offset 16
	pushq	%r15
	.cfi_def_cfa_offset 24
	pushq	%r14
	.cfi_def_cfa_offset 32
	pushq	%r13
	.cfi_def_cfa_offset 40
	pushq	%r12
	.cfi_def_cfa_offset 48
	pushq	%rbx
	.cfi_def_cfa_offset 56
	subq	$392, %rsp
	.cfi_def_cfa_offset 448
	.cfi_offset %rbx, -56
	.cfi_offset %r12, -48
	.cfi_offset %r13, -40
	.cfi_offset %r14, -32
	.cfi_offset %r15, -24
	.cfi_offset %rbp, -16
	movq	%r9, 16(%rsp)
	movq	%r8, %r14
	movq	%rcx, %r12
	movq	%rdi, %rbx
	movq	480(%rsp), %rbp
	movq	464(%rsp), %r13
	movq	448(%rsp), %r15
	xorl	%eax, %eax
	testq	%rsi, %rsi
	sete	%al
	shll	$12, %eax
	addq	%rax, %rsi
	testq	%r8, %r8
	sete	12(%rsp)
	testq	%r15, %r15
	sete	13(%rsp)
	testq	%r13, %r13
	sete	14(%rsp)
	testq	%rbp, %rbp
	sete	15(%rsp)
	leaq	208(%rsp), %rdi
	callq	"records::decode_tuner"
	cmpb	$1, 208(%rsp)
	jne	.Lpasetone_BB18_1
	cmpq	$78, 488(%rsp)
	setb	%al
	shlb	$3, %al
	cmpq	$3, %r12
	movzbl	%al, %ecx
	movl	$1, %eax
	cmovbl	%ecx, %eax
	testb	%al, %al
	je	.Lpasetone_BB18_5
	movzbl	%al, %eax
	xorl	%edi, %edi
	jmp	.Lpasetone_BB18_2
.Lpasetone_BB18_1:
	xorl	%edi, %edi
	movl	$1, %eax
.Lpasetone_BB18_2:
	xorl	%esi, %esi
	xorl	%edx, %edx
.Lpasetone_BB18_23:
	movq	%rdi, (%rbx)
	movq	%rsi, 8(%rbx)
	movl	%eax, 16(%rbx)
	movl	%edx, 20(%rbx)
	movq	%rbx, %rax
	addq	$392, %rsp
	.cfi_def_cfa_offset 56
	popq	%rbx
	.cfi_def_cfa_offset 48
	popq	%r12
	.cfi_def_cfa_offset 40
	popq	%r13
	.cfi_def_cfa_offset 32
	popq	%r14
	.cfi_def_cfa_offset 24
	popq	%r15
	.cfi_def_cfa_offset 16
	popq	%rbp
	.cfi_def_cfa_offset 8
	retq
.Lpasetone_BB18_5:
	.cfi_def_cfa_offset 448
	movzbl	216(%rsp), %r8d
	movzbl	217(%rsp), %eax
	leaq	218(%rsp), %rdx
	movl	272(%rsp), %r10d
	movl	276(%rsp), %r11d
	movzbl	280(%rsp), %ecx
	movb	%cl, 10(%rsp)
	movd	284(%rsp), %xmm2
	movq	288(%rsp), %rcx
	movq	%rcx, 104(%rsp)
	movzbl	296(%rsp), %ecx
	movb	%cl, 11(%rsp)
	movq	$0, 352(%rsp)
	xorps	%xmm0, %xmm0
	movaps	%xmm0, 112(%rsp)
	movaps	%xmm0, 128(%rsp)
	movaps	%xmm0, 144(%rsp)
	movaps	%xmm0, 160(%rsp)
	movaps	%xmm0, 176(%rsp)
	movq	$0, 192(%rsp)
	cmpb	$2, %r12b
	movb	%r8b, 9(%rsp)
	ja	.Lpasetone_BB18_24
	testl	%r10d, %r10d
	sete	%sil
	testl	%r11d, %r11d
	sete	%dil
	movl	$1, %ecx
	orb	%sil, %dil
	jne	.Lpasetone_BB18_10
	movl	$8, %ecx
	cmpq	$168, 472(%rsp)
	jb	.Lpasetone_BB18_10
	movl	$9, %ecx
	cmpq	$10, 16(%rsp)
	jb	.Lpasetone_BB18_10
	movl	$10, %ecx
	cmpq	$3, 456(%rsp)
	jae	.Lpasetone_BB18_12
.Lpasetone_BB18_10:
	movups	(%rdx), %xmm0
	movups	11(%rdx), %xmm1
	movups	%xmm1, 75(%rsp)
	movaps	%xmm0, 64(%rsp)
	movups	27(%rdx), %xmm0
	movups	38(%rdx), %xmm1
	movaps	%xmm0, 32(%rsp)
	movups	%xmm1, 43(%rsp)
	jmp	.Lpasetone_BB18_11
.Lpasetone_BB18_24:
	movups	(%rdx), %xmm0
	movups	11(%rdx), %xmm1
	movups	%xmm1, 75(%rsp)
	movaps	%xmm0, 64(%rsp)
	movups	27(%rdx), %xmm0
	movups	38(%rdx), %xmm1
	movaps	%xmm0, 32(%rsp)
	movups	%xmm1, 43(%rsp)
	movl	$1, %ecx
.Lpasetone_BB18_11:
	movb	$1, %dil
	xorl	%esi, %esi
	xorl	%edx, %edx
.Lpasetone_BB18_16:
	testb	%dil, %dil
	setne	%r8b
	testq	%rdx, %rdx
	sete	%r9b
	testb	%r9b, %r8b
	jne	.Lpasetone_BB18_18
	xorl	%r8d, %r8d
	movzbl	15(%rsp), %r9d
	movb	%r9b, %r8b
	shll	$12, %r8d
	addq	%r8, %rbp
	movzbl	11(%rsp), %r14d
	andb	$1, %r14b
	movd	%xmm2, %r8d
	ucomiss	%xmm2, %xmm2
	movl	$2143289344, %r9d
	cmovnpl	%r8d, %r9d
	movzbl	10(%rsp), %r8d
	andb	$1, %r8b
	movzbl	9(%rsp), %r15d
	movb	%r15b, (%rbp)
	movb	%al, 1(%rbp)
	movaps	64(%rsp), %xmm0
	movups	%xmm0, 2(%rbp)
	movups	75(%rsp), %xmm0
	movups	%xmm0, 13(%rbp)
	movl	%r10d, 29(%rbp)
	movl	%r11d, 33(%rbp)
	movb	%r8b, 37(%rbp)
	movl	%r9d, 38(%rbp)
	movq	104(%rsp), %rax
	movq	%rax, 42(%rbp)
	movb	%r14b, 50(%rbp)
	movaps	32(%rsp), %xmm0
	movups	%xmm0, 51(%rbp)
	movups	43(%rsp), %xmm0
	movups	%xmm0, 62(%rbp)
.Lpasetone_BB18_18:
	movzbl	%dil, %eax
	testb	%dil, %dil
	je	.Lpasetone_BB18_19
	cmpl	$2, %eax
	jne	.Lpasetone_BB18_21
	movl	$11, %eax
	xorl	%edi, %edi
	jmp	.Lpasetone_BB18_23
.Lpasetone_BB18_19:
	movq	%rsi, %rdi
	movq	%rax, %rsi
	jmp	.Lpasetone_BB18_23
.Lpasetone_BB18_21:
	xorl	%edi, %edi
	xorl	%esi, %esi
	movl	%ecx, %eax
	jmp	.Lpasetone_BB18_23
.Lpasetone_BB18_12:
	movd	%xmm2, 24(%rsp)
	movl	%r11d, 28(%rsp)
	movl	%r10d, 16(%rsp)
	xorl	%ecx, %ecx
	movzbl	12(%rsp), %esi
	movb	%sil, %cl
	shll	$12, %ecx
	addq	%rcx, %r14
	xorl	%ecx, %ecx
	movzbl	13(%rsp), %esi
	movb	%sil, %cl
	shll	$12, %ecx
	addq	%rcx, %r15
	xorl	%ecx, %ecx
	movzbl	14(%rsp), %esi
	movb	%sil, %cl
	shll	$12, %ecx
	addq	%rcx, %r13
	movb	%al, 304(%rsp)
	movups	(%rdx), %xmm0
	movups	11(%rdx), %xmm1
	movups	%xmm0, 305(%rsp)
	movups	%xmm1, 316(%rsp)
	movups	27(%rdx), %xmm0
	movups	38(%rdx), %xmm1
	movups	%xmm0, 332(%rsp)
	movups	%xmm1, 343(%rsp)
	xorps	%xmm0, %xmm0
	movups	%xmm0, 360(%rsp)
	movups	%xmm0, 376(%rsp)
	movq	%r13, (%rsp)
	movzbl	%r8b, %edx
	movzbl	%r12b, %ecx
	leaq	112(%rsp), %rdi
	leaq	304(%rsp), %rsi
	movq	%r14, %r8
	movq	%r15, %r9
	callq	"driver::path_steps"
	movq	168(%rsp), %rdx
	movq	%rdx, %rax
	shlq	$4, %rax
	xorl	%ecx, %ecx
	cmpb	$0, 176(%rsp)
	setne	%dil
	je	.Lpasetone_BB18_13
	movq	184(%rsp), %rsi
	jmp	.Lpasetone_BB18_15
.Lpasetone_BB18_13:
	xorl	%esi, %esi
.Lpasetone_BB18_15:
	movl	%edx, (%r13,%rax)
	movl	%eax, 4(%r13,%rax)
	addb	%dil, %dil
	movzbl	112(%rsp), %eax
	movups	113(%rsp), %xmm0
	movaps	%xmm0, 64(%rsp)
	movups	124(%rsp), %xmm0
	movups	%xmm0, 75(%rsp)
	movups	140(%rsp), %xmm0
	movaps	%xmm0, 32(%rsp)
	movups	151(%rsp), %xmm0
	movups	%xmm0, 43(%rsp)
	movl	16(%rsp), %r10d
	movl	28(%rsp), %r11d
	movd	24(%rsp), %xmm2
	jmp	.Lpasetone_BB18_16
.Lpasetone_func_end18:
	.size	pasetone_apply_input_path, .Lpasetone_func_end18-pasetone_apply_input_path
	.cfi_endproc

	.section	.text.pasetone_apply_notch,"ax",@progbits
	.globl	pasetone_apply_notch
	.p2align	4
	.type	pasetone_apply_notch,@function
pasetone_apply_notch:
	.cfi_startproc
	pushq	%rbp
	.cfi_def_cfa_offset 16
	pushq	%r15
	.cfi_def_cfa_offset 24
	pushq	%r14
	.cfi_def_cfa_offset 32
	pushq	%rbx
	.cfi_def_cfa_offset 40
	subq	$104, %rsp
	.cfi_def_cfa_offset 144
	.cfi_offset %rbx, -40
	.cfi_offset %r14, -32
	.cfi_offset %r15, -24
	.cfi_offset %rbp, -16
	movl	%ecx, %ebp
	movq	%rdx, %r15
	movq	%rdi, %rbx
	xorl	%r14d, %r14d
	testq	%rsi, %rsi
	sete	%r14b
	shll	$12, %r14d
	addq	%rsi, %r14
	leaq	8(%rsp), %rdi
	movq	%r14, %rsi
	callq	"records::decode_tuner"
	movl	$1, %ecx
	cmpb	$1, 8(%rsp)
	jne	.Lpasetone_BB19_7
	xorl	%eax, %eax
	testb	%bpl, %bpl
	setne	%dil
	movl	72(%rsp), %edx
	movl	76(%rsp), %esi
	movd	84(%rsp), %xmm0
	testl	%edx, %edx
	setne	%r9b
	testl	%esi, %esi
	setne	%r8b
	andb	%r9b, %r8b
	jne	.Lpasetone_BB19_2
	movl	96(%rsp), %eax
	jmp	.Lpasetone_BB19_4
.Lpasetone_BB19_2:
	movb	%dil, %al
.Lpasetone_BB19_4:
	movd	%xmm0, %r9d
	ucomiss	%xmm0, %xmm0
	movl	$2143289344, %edi
	cmovnpl	%r9d, %edi
	cmpb	$1, %r8b
	jne	.Lpasetone_BB19_7
	movl	$8, %ecx
	cmpq	$78, %r15
	jb	.Lpasetone_BB19_7
	movzbl	80(%rsp), %ecx
	movzbl	16(%rsp), %r8d
	movzbl	17(%rsp), %r9d
	leaq	18(%rsp), %r10
	movq	88(%rsp), %r11
	andb	$1, %al
	andb	$1, %cl
	movb	%r8b, (%r14)
	movb	%r9b, 1(%r14)
	movups	(%r10), %xmm0
	movups	11(%r10), %xmm1
	movups	%xmm0, 2(%r14)
	movups	%xmm1, 13(%r14)
	movl	%edx, 29(%r14)
	movl	%esi, 33(%r14)
	movb	%cl, 37(%r14)
	movl	%edi, 38(%r14)
	movq	%r11, 42(%r14)
	movb	%al, 50(%r14)
	movups	27(%r10), %xmm0
	movups	38(%r10), %xmm1
	movups	%xmm0, 51(%r14)
	movups	%xmm1, 62(%r14)
	xorl	%ecx, %ecx
.Lpasetone_BB19_7:
	xorps	%xmm0, %xmm0
	movups	%xmm0, (%rbx)
	movl	%ecx, 16(%rbx)
	movl	$0, 20(%rbx)
	movq	%rbx, %rax
	addq	$104, %rsp
	.cfi_def_cfa_offset 40
	popq	%rbx
	.cfi_def_cfa_offset 32
	popq	%r14
	.cfi_def_cfa_offset 24
	popq	%r15
	.cfi_def_cfa_offset 16
	popq	%rbp
	.cfi_def_cfa_offset 8
	retq
.Lpasetone_func_end19:
	.size	pasetone_apply_notch, .Lpasetone_func_end19-pasetone_apply_notch
	.cfi_endproc

	.section	.text.pasetone_board_table,"ax",@progbits
	.globl	pasetone_board_table
	.p2align	4
	.type	pasetone_board_table,@function
pasetone_board_table:
	.cfi_startproc
	pushq	%r15
	.cfi_def_cfa_offset 16
	pushq	%r14
	.cfi_def_cfa_offset 24
	pushq	%rbx
	.cfi_def_cfa_offset 32
	.cfi_offset %rbx, -32
	.cfi_offset %r14, -24
	.cfi_offset %r15, -16
	movq	%rdi, %rax
	xorl	%edi, %edi
	testq	%rdx, %rdx
	sete	%dil
	shll	$12, %edi
	addq	%rdx, %rdi
	cmpq	$1, %rsi
	je	.Lpasetone_BB20_6
	testq	%rsi, %rsi
	jne	.Lpasetone_BB20_2
	xorl	%ebx, %ebx
	cmpq	$27, %rcx
	jb	.Lpasetone_BB20_4
	movups	.Lpasetone_static.1+11(%rip), %xmm0
	movups	%xmm0, 11(%rdi)
	movups	.Lpasetone_static.1(%rip), %xmm0
	movups	%xmm0, (%rdi)
	movl	$27, %r14d
	jmp	.Lpasetone_BB20_8
.Lpasetone_BB20_6:
	xorl	%ebx, %ebx
	cmpq	$216, %rcx
	jae	.Lpasetone_BB20_7
.Lpasetone_BB20_4:
	movl	$8, %ebx
	xorl	%r14d, %r14d
	jmp	.Lpasetone_BB20_8
.Lpasetone_BB20_2:
	movl	$1, %ebx
	xorl	%r14d, %r14d
	jmp	.Lpasetone_BB20_8
.Lpasetone_BB20_7:
	leaq	.Lpasetone_static.2(%rip), %rsi
	movl	$216, %r14d
	movl	$216, %edx
	movq	%rax, %r15
	callq	memcpy@PLT
	movq	%r15, %rax
.Lpasetone_BB20_8:
	movq	%r14, (%rax)
	movq	$0, 8(%rax)
	movl	%ebx, 16(%rax)
	movl	$0, 20(%rax)
	popq	%rbx
	.cfi_def_cfa_offset 24
	popq	%r14
	.cfi_def_cfa_offset 16
	popq	%r15
	.cfi_def_cfa_offset 8
	retq
.Lpasetone_func_end20:
	.size	pasetone_board_table, .Lpasetone_func_end20-pasetone_board_table
	.cfi_endproc

	.section	.text.pasetone_centre,"ax",@progbits
	.globl	pasetone_centre
	.p2align	4
	.type	pasetone_centre,@function
pasetone_centre:
	.cfi_startproc
	pushq	%rbp
	.cfi_def_cfa_offset 16
	pushq	%r15
	.cfi_def_cfa_offset 24
	pushq	%r14
	.cfi_def_cfa_offset 32
	pushq	%r13
	.cfi_def_cfa_offset 40
	pushq	%r12
	.cfi_def_cfa_offset 48
	pushq	%rbx
	.cfi_def_cfa_offset 56
	subq	$152, %rsp
	.cfi_def_cfa_offset 208
	.cfi_offset %rbx, -56
	.cfi_offset %r12, -48
	.cfi_offset %r13, -40
	.cfi_offset %r14, -32
	.cfi_offset %r15, -24
	.cfi_offset %rbp, -16
	movq	%rdi, %rbx
	xorl	%edi, %edi
	testq	%rsi, %rsi
	sete	%al
	xorl	%r10d, %r10d
	testq	%rcx, %rcx
	sete	%r11b
	xorl	%r15d, %r15d
	testq	%r9, %r9
	sete	%bpl
	cmpq	$29, %rdx
	jne	.Lpasetone_BB21_5
	movb	%al, %dil
	shll	$12, %edi
	movl	1(%rsi,%rdi), %r14d
	movslq	5(%rsi,%rdi), %rax
	imulq	%r14, %rax
	movabsq	$4835703278458516699, %rdx
	imulq	%rdx
	movq	%rdx, %rax
	shrq	$63, %rax
	sarq	$18, %rdx
	addq	%rax, %rdx
	addq	%r14, %rdx
	movabsq	$4294967296, %rax
	cmpq	%rax, %rdx
	cmovbq	%rdx, %rax
	cmpb	$1, (%rsi,%rdi)
	ja	.Lpasetone_BB21_5
	movabsq	$-4294967296, %r14
	addq	%r14, %rdx
	incq	%r14
	cmpq	%r14, %rdx
	jb	.Lpasetone_BB21_5
	movl	%eax, %eax
	testq	%rax, %rax
	je	.Lpasetone_BB21_5
	movq	%r9, %r14
	movb	%r11b, %r10b
	shll	$12, %r10d
	addq	%r10, %rcx
	movq	9(%rsi,%rdi), %r13
	leaq	48(%rsp), %rdi
	movq	%rcx, %rsi
	movq	%r8, %rdx
	callq	"records::decode_tuner"
	cmpb	$1, 48(%rsp)
	jne	.Lpasetone_BB21_5
	movq	208(%rsp), %rdx
	movb	%bpl, %r15b
	shll	$12, %r15d
	movq	%r14, %rsi
	addq	%r15, %rsi
	movzbl	69(%rsp), %r15d
	movzbl	71(%rsp), %eax
	movb	%al, 15(%rsp)
	movzbl	98(%rsp), %r14d
	movzbl	73(%rsp), %r12d
	movzwl	74(%rsp), %eax
	movq	%rax, 32(%rsp)
	movl	116(%rsp), %eax
	movq	%rax, 40(%rsp)
	testq	%rax, %rax
	movq	%r13, %rcx
	sete	%r13b
	cmpl	$0, 112(%rsp)
	sete	%bpl
	orb	96(%rsp), %r14b
	orb	100(%rsp), %r14b
	orb	101(%rsp), %r14b
	orb	102(%rsp), %r14b
	movq	128(%rsp), %rax
	movq	%rax, 16(%rsp)
	xorps	%xmm0, %xmm0
	movaps	%xmm0, 48(%rsp)
	movq	$0, 64(%rsp)
	leaq	48(%rsp), %rdi
	movq	%rcx, 24(%rsp)
	callq	"bands::plan_by_table"
	orb	%r13b, %bpl
	jne	.Lpasetone_BB21_8
	andb	$1, %r14b
	jne	.Lpasetone_BB21_8
	shrl	$5, %r15d
	movq	32(%rsp), %rcx
	addl	%ecx, %ecx
	xorl	%eax, %eax
	testb	$8, 15(%rsp)
	cmoveq	%rcx, %rax
	leal	(,%r12,4), %ecx
	movzbl	%cl, %ecx
	shrl	$6, %r12d
	orl	%ecx, %r12d
	shll	$17, %r12d
	addl	$1703936, %r12d
	orq	%rax, %r12
	imulq	40(%rsp), %r12
	addb	$17, %r15b
	movl	%r15d, %ecx
	shrq	%cl, %r12
	movzbl	48(%rsp), %eax
	testb	%al, %al
	jne	.Lpasetone_BB21_17
	movq	56(%rsp), %rdx
	movq	24(%rsp), %rsi
	movq	%rsi, %rcx
	subq	%rdx, %rcx
	jbe	.Lpasetone_BB21_11
	movq	%r12, %rdx
	movq	16(%rsp), %rsi
	subq	%rsi, %rdx
	jae	.Lpasetone_BB21_14
	subq	%r12, %rsi
	xorl	%r12d, %r12d
	movb	$2, %al
	subq	%rsi, %rcx
	cmovaeq	%rcx, %r12
	jb	.Lpasetone_BB21_17
	jmp	.Lpasetone_BB21_15
.Lpasetone_BB21_5:
	movl	$1, %eax
.Lpasetone_BB21_18:
	xorl	%r12d, %r12d
.Lpasetone_BB21_19:
	movq	%r12, (%rbx)
	movq	$0, 8(%rbx)
	movl	%eax, 16(%rbx)
	movl	$0, 20(%rbx)
	movq	%rbx, %rax
	addq	$152, %rsp
	.cfi_def_cfa_offset 56
	popq	%rbx
	.cfi_def_cfa_offset 48
	popq	%r12
	.cfi_def_cfa_offset 40
	popq	%r13
	.cfi_def_cfa_offset 32
	popq	%r14
	.cfi_def_cfa_offset 24
	popq	%r15
	.cfi_def_cfa_offset 16
	popq	%rbp
	.cfi_def_cfa_offset 8
	retq
.Lpasetone_BB21_8:
	.cfi_def_cfa_offset 208
	testb	%bpl, %bpl
	movl	$1, %eax
	movl	$20, %ecx
	cmovnel	%eax, %ecx
	cmpb	$19, 48(%rsp)
	movl	$19, %eax
	cmovnel	%ecx, %eax
.Lpasetone_BB21_17:
	movzbl	%al, %eax
	jmp	.Lpasetone_BB21_18
.Lpasetone_BB21_11:
	movb	$2, %al
	subq	16(%rsp), %r12
	jb	.Lpasetone_BB21_17
	subq	%rsi, %rdx
	subq	%rdx, %r12
	jb	.Lpasetone_BB21_17
	jmp	.Lpasetone_BB21_15
.Lpasetone_BB21_14:
	movb	$2, %al
	addq	%rdx, %rcx
	movq	%rcx, %r12
	jb	.Lpasetone_BB21_17
.Lpasetone_BB21_15:
	xorl	%eax, %eax
	jmp	.Lpasetone_BB21_19
.Lpasetone_func_end21:
	.size	pasetone_centre, .Lpasetone_func_end21-pasetone_centre
	.cfi_endproc

	.section	.text.pasetone_corrected_xtal_hz,"ax",@progbits
	.globl	pasetone_corrected_xtal_hz
	.p2align	4
	.type	pasetone_corrected_xtal_hz,@function
pasetone_corrected_xtal_hz:
	.cfi_startproc
	cmpq	$29, %rdx
	jne	.Lpasetone_BB22_4
	xorl	%r8d, %r8d
	testq	%rsi, %rsi
	sete	%r8b
	shll	$12, %r8d
	movl	1(%rsi,%r8), %ecx
	movslq	5(%rsi,%r8), %rax
	imulq	%rcx, %rax
	movabsq	$4835703278458516699, %rdx
	imulq	%rdx
	movq	%rdx, %rax
	shrq	$63, %rax
	sarq	$18, %rdx
	addq	%rax, %rdx
	leaq	(%rdx,%rcx), %r9
	movabsq	$4294967296, %rax
	cmpq	%rax, %r9
	cmovbq	%r9, %rax
	cmpb	$1, (%rsi,%r8)
	ja	.Lpasetone_BB22_4
	addq	%rdx, %rcx
	decq	%rcx
	movl	$4294967294, %edx
	cmpq	%rdx, %rcx
	ja	.Lpasetone_BB22_4
	xorl	%ecx, %ecx
	movl	%eax, %edx
	testq	%rdx, %rdx
	jne	.Lpasetone_BB22_5
.Lpasetone_BB22_4:
	movl	$1, %ecx
	xorl	%eax, %eax
.Lpasetone_BB22_5:
	movq	%rax, (%rdi)
	movq	$0, 8(%rdi)
	movl	%ecx, 16(%rdi)
	movl	$0, 20(%rdi)
	movq	%rdi, %rax
	retq
.Lpasetone_func_end22:
	.size	pasetone_corrected_xtal_hz, .Lpasetone_func_end22-pasetone_corrected_xtal_hz
	.cfi_endproc

	.section	.text.pasetone_driver_new,"ax",@progbits
	.globl	pasetone_driver_new
	.p2align	4
	.type	pasetone_driver_new,@function
pasetone_driver_new:
	.cfi_startproc
	pushq	%r15
	.cfi_def_cfa_offset 16
	pushq	%r14
	.cfi_def_cfa_offset 24
	pushq	%r13
	.cfi_def_cfa_offset 32
	pushq	%r12
	.cfi_def_cfa_offset 40
	pushq	%rbx
	.cfi_def_cfa_offset 48
	.cfi_offset %rbx, -48
	.cfi_offset %r12, -40
	.cfi_offset %r13, -32
	.cfi_offset %r14, -24
	.cfi_offset %r15, -16
	movq	48(%rsp), %r10
	xorl	%r11d, %r11d
	testq	%r10, %r10
	sete	%bl
	movl	$1, %eax
	testq	%rsi, %rsi
	je	.Lpasetone_BB23_1
	cmpq	$1, %rsi
	jne	.Lpasetone_BB23_9
	movb	$1, %sil
	jmp	.Lpasetone_BB23_4
.Lpasetone_BB23_1:
	xorl	%esi, %esi
.Lpasetone_BB23_4:
	movabsq	$-4294967296, %r12
	leaq	(%rdx,%r12), %r14
	leaq	1(%r12), %r15
	cmpq	%r15, %r14
	jae	.Lpasetone_BB23_5
.Lpasetone_BB23_9:
	xorps	%xmm0, %xmm0
	movups	%xmm0, (%rdi)
	movl	%eax, 16(%rdi)
	movl	$0, 20(%rdi)
	movq	%rdi, %rax
	popq	%rbx
	.cfi_def_cfa_offset 40
	popq	%r12
	.cfi_def_cfa_offset 32
	popq	%r13
	.cfi_def_cfa_offset 24
	popq	%r14
	.cfi_def_cfa_offset 16
	popq	%r15
	.cfi_def_cfa_offset 8
	retq
.Lpasetone_BB23_5:
	.cfi_def_cfa_offset 48
	movslq	%ecx, %rax
	imulq	%rdx, %rax
	movabsq	$4835703278458516699, %r13
	movq	%rdx, %r14
	imulq	%r13
	movq	%rdx, %rax
	shrq	$63, %rax
	sarq	$18, %rdx
	addq	%rax, %rdx
	addq	%r14, %rdx
	movabsq	$4294967296, %r13
	cmpq	%r13, %rdx
	cmovbq	%rdx, %r13
	addq	%r12, %rdx
	movl	$4, %eax
	cmpq	%r15, %rdx
	jb	.Lpasetone_BB23_9
	movl	%r13d, %edx
	testq	%rdx, %rdx
	je	.Lpasetone_BB23_9
	movl	$8, %eax
	cmpq	$29, 56(%rsp)
	jb	.Lpasetone_BB23_9
	movb	%bl, %r11b
	shll	$12, %r11d
	movb	%sil, (%r10,%r11)
	movl	%r14d, 1(%r10,%r11)
	movl	%ecx, 5(%r10,%r11)
	movq	%r8, 9(%r10,%r11)
	movl	%r9d, 17(%r10,%r11)
	movq	$0, 21(%r10,%r11)
	xorl	%eax, %eax
	jmp	.Lpasetone_BB23_9
.Lpasetone_func_end23:
	.size	pasetone_driver_new, .Lpasetone_func_end23-pasetone_driver_new
	.cfi_endproc

	.section	.text.pasetone_evidence,"ax",@progbits
	.globl	pasetone_evidence
	.p2align	4
	.type	pasetone_evidence,@function
pasetone_evidence:
	.cfi_startproc
	pushq	%rbp
	.cfi_def_cfa_offset 16
	pushq	%r15
	.cfi_def_cfa_offset 24
	pushq	%r14
	.cfi_def_cfa_offset 32
	pushq	%r13
	.cfi_def_cfa_offset 40
	pushq	%r12
	.cfi_def_cfa_offset 48
	pushq	%rbx
	.cfi_def_cfa_offset 56
	subq	$376, %rsp
	.cfi_def_cfa_offset 432
	.cfi_offset %rbx, -56
	.cfi_offset %r12, -48
	.cfi_offset %r13, -40
	.cfi_offset %r14, -32
	.cfi_offset %r15, -24
	.cfi_offset %rbp, -16
	movl	%ecx, %r13d
	movq	%rdi, %rax
	xorl	%edi, %edi
	movq	%rsi, 16(%rsp)
	testq	%rsi, %rsi
	sete	%cl
	cmpq	$0, 432(%rsp)
	sete	%sil
	movl	$4, %r11d
	testl	%r8d, %r8d
	je	.Lpasetone_BB24_157
	testl	%r9d, %r9d
	je	.Lpasetone_BB24_157
	xorps	%xmm0, %xmm0
	movaps	%xmm0, 288(%rsp)
	movaps	%xmm0, 272(%rsp)
	movaps	%xmm0, 256(%rsp)
	movaps	%xmm0, 240(%rsp)
	movaps	%xmm0, 224(%rsp)
	movaps	%xmm0, 208(%rsp)
	movaps	%xmm0, 192(%rsp)
	movaps	%xmm0, 176(%rsp)
	movaps	%xmm0, 160(%rsp)
	movaps	%xmm0, 144(%rsp)
	movaps	%xmm0, 128(%rsp)
	movaps	%xmm0, 112(%rsp)
	movq	$0, 304(%rsp)
	movaps	%xmm0, 352(%rsp)
	movq	$0, 368(%rsp)
	testq	%rdx, %rdx
	movq	%rax, 320(%rsp)
	movb	%sil, 312(%rsp)
	je	.Lpasetone_BB24_3
	movl	%r9d, 96(%rsp)
	movl	%r8d, 40(%rsp)
	movb	%cl, %dil
	shll	$12, %edi
	addq	%rdi, 16(%rsp)
	xorl	%r12d, %r12d
	movl	%r13d, 44(%rsp)
	jmp	.Lpasetone_BB24_5
	.p2align	4
.Lpasetone_BB24_111:
	movq	%r12, 304(%rsp)
	movq	24(%rsp), %rdx
	testq	%rdx, %rdx
	je	.Lpasetone_BB24_112
.Lpasetone_BB24_5:
	leaq	352(%rsp), %rdi
	movq	16(%rsp), %rsi
	callq	"transcript::read_section"
	cmpb	$1, 352(%rsp)
	jne	.Lpasetone_BB24_156
	movq	360(%rsp), %rcx
	movq	368(%rsp), %rdx
	testq	%rdx, %rdx
	movq	%rcx, 24(%rsp)
	je	.Lpasetone_BB24_111
	movq	16(%rsp), %rax
	addq	%rcx, %rax
	movq	%rax, 88(%rsp)
	jmp	.Lpasetone_BB24_8
	.p2align	4
.Lpasetone_BB24_106:
	andl	$-65536, %r12d
	movl	$2, %eax
.Lpasetone_BB24_110:
	movl	44(%rsp), %r13d
	shlq	$32, %rbx
	orq	%r12, %rbx
	shll	$8, %r14d
	movzwl	%r14w, %r12d
	orq	%rbx, %r12
	orq	%rax, %r12
	movq	72(%rsp), %rdx
	testq	%rdx, %rdx
	je	.Lpasetone_BB24_111
.Lpasetone_BB24_8:
	decq	%rdx
	movq	%rdx, 72(%rsp)
	movq	%rdx, %rax
	shlq	$4, %rax
	movq	88(%rsp), %rcx
	movq	8(%rcx,%rax), %rdi
	movzbl	(%rcx,%rax), %r8d
	movzbl	1(%rcx,%rax), %r15d
	movzbl	2(%rcx,%rax), %r14d
	movzbl	3(%rcx,%rax), %ebp
	movzwl	4(%rcx,%rax), %ebx
	movl	%r8d, %eax
	xorb	$2, %al
	movl	%r14d, %ecx
	xorb	%r13b, %cl
	movb	%cl, 64(%rsp)
	orb	%cl, %al
	sete	32(%rsp)
	movb	%r15b, 48(%rsp)
	jne	.Lpasetone_BB24_15
	xorl	%edx, %edx
	testb	%r15b, %r15b
	sete	%al
	movq	%rdi, (%rsp)
	cmpb	$2, %bpl
	jb	.Lpasetone_BB24_105
	movb	%al, %dl
	shll	$8, %edx
	addl	$256, %edx
	movzbl	%dil, %eax
	leaq	-1(%rbp), %rcx
	leaq	(%rax,%rax,2), %rsi
	addq	%rsp, %rsi
	addq	$112, %rsi
	addq	$-32, %rax
	xorl	%r9d, %r9d
	jmp	.Lpasetone_BB24_11
	.p2align	4
.Lpasetone_BB24_14:
	incq	%r9
	addq	$3, %rsi
	cmpq	%r9, %rcx
	je	.Lpasetone_BB24_15
.Lpasetone_BB24_11:
	leaq	(%rax,%r9), %r10
	cmpq	$-27, %r10
	jb	.Lpasetone_BB24_14
	cmpb	$1, (%rsi)
	je	.Lpasetone_BB24_14
	movzbl	1(%rsp,%r9), %r10d
	movzwl	%r10w, %r10d
	movzwl	%dx, %r11d
	orl	%r10d, %r11d
	movb	$1, (%rsi)
	movw	%r11w, 1(%rsi)
	jmp	.Lpasetone_BB24_14
	.p2align	4
.Lpasetone_BB24_15:
	movl	%r8d, %eax
	andb	$-4, %al
	cmpb	$4, %al
	jne	.Lpasetone_BB24_105
	leal	(%rbx,%rbp), %r13d
	movl	%r8d, %esi
	andb	$6, %sil
	cmpb	$4, %sil
	sete	%cl
	cmpb	$16, %r14b
	setae	%al
	cmpl	$257, %r13d
	setae	%r9b
	orb	%al, %r9b
	cmpb	$1, %r14b
	sete	%dl
	cmpw	$2, %bx
	setb	%al
	cmpl	$2, %r13d
	setae	%r10b
	andb	%dl, %al
	andb	%r10b, %al
	xorb	$6, %sil
	xorb	$2, %r14b
	orb	%sil, %r14b
	sete	%sil
	movzwl	%bx, %r15d
	cmpl	$12289, %r15d
	setb	%r10b
	cmpl	$12289, %r13d
	setae	%r11b
	andb	%r10b, %r11b
	andb	%sil, %r11b
	orb	%r9b, %al
	andb	%cl, %al
	orb	%r11b, %al
	movl	%eax, %esi
	notb	%sil
	movzbl	%sil, %esi
	andl	$1, %esi
	shll	$8, %esi
	addl	$256, %esi
	cmpb	$0, 48(%rsp)
	movl	$256, %r14d
	cmovel	%esi, %r14d
	testb	%dl, %cl
	je	.Lpasetone_BB24_17
	cmpw	$22, %bx
	setb	%dl
	cmpl	$22, %r13d
	setae	%cl
	andb	%dl, %cl
	testb	$1, %al
	je	.Lpasetone_BB24_35
	movw	$256, %ax
	testb	%cl, %cl
	jne	.Lpasetone_BB24_67
	cmpb	$1, 232(%rsp)
	jne	.Lpasetone_BB24_69
.Lpasetone_BB24_70:
	movw	$256, %ax
	cmpw	$25, %bx
	jbe	.Lpasetone_BB24_71
	jmp	.Lpasetone_BB24_73
.Lpasetone_BB24_17:
	testb	$1, %al
	je	.Lpasetone_BB24_105
	cmpb	$1, 232(%rsp)
	jne	.Lpasetone_BB24_19
	cmpb	$1, 235(%rsp)
	jne	.Lpasetone_BB24_21
.Lpasetone_BB24_22:
	cmpb	$1, 238(%rsp)
	jne	.Lpasetone_BB24_23
.Lpasetone_BB24_24:
	cmpb	$1, 241(%rsp)
	jne	.Lpasetone_BB24_25
.Lpasetone_BB24_26:
	cmpb	$1, 244(%rsp)
	jne	.Lpasetone_BB24_27
.Lpasetone_BB24_28:
	cmpb	$1, 247(%rsp)
	jne	.Lpasetone_BB24_29
.Lpasetone_BB24_30:
	cmpb	$1, 250(%rsp)
	jne	.Lpasetone_BB24_31
.Lpasetone_BB24_32:
	cmpb	$1, 253(%rsp)
	jne	.Lpasetone_BB24_33
	jmp	.Lpasetone_BB24_105
.Lpasetone_BB24_35:
	testb	%cl, %cl
	je	.Lpasetone_BB24_38
	movq	%rdi, (%rsp)
	cmpb	$1, 232(%rsp)
	je	.Lpasetone_BB24_38
	movq	%r15, %rax
	negq	%rax
	movzbl	21(%rsp,%rax), %eax
	movzwl	%ax, %eax
	movzwl	%r14w, %ecx
	orl	%eax, %ecx
	movb	$1, 232(%rsp)
	movw	%cx, 233(%rsp)
.Lpasetone_BB24_38:
	cmpw	$25, %bx
	ja	.Lpasetone_BB24_42
	cmpl	$26, %r13d
	jb	.Lpasetone_BB24_42
	movq	%rdi, (%rsp)
	cmpb	$1, 235(%rsp)
	je	.Lpasetone_BB24_42
	movq	%r15, %rax
	negq	%rax
	movzbl	25(%rsp,%rax), %eax
	movzwl	%ax, %eax
	movzwl	%r14w, %ecx
	orl	%eax, %ecx
	movb	$1, 235(%rsp)
	movw	%cx, 236(%rsp)
.Lpasetone_BB24_42:
	cmpw	$26, %bx
	ja	.Lpasetone_BB24_46
	cmpl	$27, %r13d
	jb	.Lpasetone_BB24_46
	movq	%rdi, (%rsp)
	cmpb	$1, 238(%rsp)
	je	.Lpasetone_BB24_46
	movq	%r15, %rax
	negq	%rax
	movzbl	26(%rsp,%rax), %eax
	movzwl	%ax, %eax
	movzwl	%r14w, %ecx
	orl	%eax, %ecx
	movb	$1, 238(%rsp)
	movw	%cx, 239(%rsp)
.Lpasetone_BB24_46:
	cmpw	$27, %bx
	ja	.Lpasetone_BB24_50
	cmpl	$28, %r13d
	jb	.Lpasetone_BB24_50
	movq	%rdi, (%rsp)
	cmpb	$1, 241(%rsp)
	je	.Lpasetone_BB24_50
	movq	%r15, %rax
	negq	%rax
	movzbl	27(%rsp,%rax), %eax
	movzwl	%ax, %eax
	movzwl	%r14w, %ecx
	orl	%eax, %ecx
	movb	$1, 241(%rsp)
	movw	%cx, 242(%rsp)
.Lpasetone_BB24_50:
	cmpl	$159, %r15d
	ja	.Lpasetone_BB24_54
	cmpl	$160, %r13d
	jb	.Lpasetone_BB24_54
	movq	%rdi, (%rsp)
	cmpb	$1, 244(%rsp)
	je	.Lpasetone_BB24_54
	movq	%r15, %rax
	negq	%rax
	movzbl	159(%rsp,%rax), %eax
	movzwl	%ax, %eax
	movzwl	%r14w, %ecx
	orl	%eax, %ecx
	movb	$1, 244(%rsp)
	movw	%cx, 245(%rsp)
.Lpasetone_BB24_54:
	cmpl	$160, %r15d
	ja	.Lpasetone_BB24_58
	cmpl	$161, %r13d
	jb	.Lpasetone_BB24_58
	movq	%rdi, (%rsp)
	cmpb	$1, 247(%rsp)
	je	.Lpasetone_BB24_58
	movq	%r15, %rax
	negq	%rax
	movzbl	160(%rsp,%rax), %eax
	movzwl	%ax, %eax
	movzwl	%r14w, %ecx
	orl	%eax, %ecx
	movb	$1, 247(%rsp)
	movw	%cx, 248(%rsp)
.Lpasetone_BB24_58:
	cmpl	$161, %r15d
	ja	.Lpasetone_BB24_62
	cmpl	$162, %r13d
	jb	.Lpasetone_BB24_62
	movq	%rdi, (%rsp)
	cmpb	$1, 250(%rsp)
	je	.Lpasetone_BB24_62
	movq	%r15, %rax
	negq	%rax
	movzbl	161(%rsp,%rax), %eax
	movzwl	%ax, %eax
	movzwl	%r14w, %ecx
	orl	%eax, %ecx
	movb	$1, 250(%rsp)
	movw	%cx, 251(%rsp)
.Lpasetone_BB24_62:
	cmpl	$162, %r15d
	ja	.Lpasetone_BB24_105
	cmpl	$163, %r13d
	jb	.Lpasetone_BB24_105
	movq	%rdi, (%rsp)
	cmpb	$1, 253(%rsp)
	je	.Lpasetone_BB24_105
	negq	%r15
	movzbl	162(%rsp,%r15), %eax
	movzwl	%ax, %eax
	movzwl	%r14w, %ecx
	orl	%eax, %ecx
	movb	$1, 253(%rsp)
	movw	%cx, 254(%rsp)
	jmp	.Lpasetone_BB24_105
.Lpasetone_BB24_67:
	movq	%rdi, (%rsp)
	movq	%r15, %rax
	negq	%rax
	movzbl	21(%rsp,%rax), %eax
	orl	$256, %eax
	cmpb	$1, 232(%rsp)
	je	.Lpasetone_BB24_70
.Lpasetone_BB24_69:
	movb	$1, 232(%rsp)
	movw	%ax, 233(%rsp)
	movw	$256, %ax
	cmpw	$25, %bx
	ja	.Lpasetone_BB24_73
.Lpasetone_BB24_71:
	cmpl	$26, %r13d
	jb	.Lpasetone_BB24_73
	movq	%rdi, (%rsp)
	movq	%r15, %rax
	negq	%rax
	movzbl	25(%rsp,%rax), %eax
	orl	$256, %eax
.Lpasetone_BB24_73:
	cmpb	$1, 235(%rsp)
	je	.Lpasetone_BB24_75
	movb	$1, 235(%rsp)
	movw	%ax, 236(%rsp)
.Lpasetone_BB24_75:
	movw	$256, %ax
	cmpw	$26, %bx
	ja	.Lpasetone_BB24_78
	cmpl	$27, %r13d
	jb	.Lpasetone_BB24_78
	movq	%rdi, (%rsp)
	movq	%r15, %rax
	negq	%rax
	movzbl	26(%rsp,%rax), %eax
	orl	$256, %eax
.Lpasetone_BB24_78:
	cmpb	$1, 238(%rsp)
	je	.Lpasetone_BB24_80
	movb	$1, 238(%rsp)
	movw	%ax, 239(%rsp)
.Lpasetone_BB24_80:
	movw	$256, %ax
	cmpw	$27, %bx
	ja	.Lpasetone_BB24_83
	cmpl	$28, %r13d
	jb	.Lpasetone_BB24_83
	movq	%rdi, (%rsp)
	movq	%r15, %rax
	negq	%rax
	movzbl	27(%rsp,%rax), %eax
	orl	$256, %eax
.Lpasetone_BB24_83:
	cmpb	$1, 241(%rsp)
	je	.Lpasetone_BB24_85
	movb	$1, 241(%rsp)
	movw	%ax, 242(%rsp)
.Lpasetone_BB24_85:
	movw	$256, %ax
	cmpl	$159, %r15d
	ja	.Lpasetone_BB24_88
	cmpl	$160, %r13d
	jb	.Lpasetone_BB24_88
	movq	%rdi, (%rsp)
	movq	%r15, %rax
	negq	%rax
	movzbl	159(%rsp,%rax), %eax
	orl	$256, %eax
.Lpasetone_BB24_88:
	cmpb	$1, 244(%rsp)
	je	.Lpasetone_BB24_90
	movb	$1, 244(%rsp)
	movw	%ax, 245(%rsp)
.Lpasetone_BB24_90:
	movw	$256, %ax
	cmpl	$160, %r15d
	ja	.Lpasetone_BB24_93
	cmpl	$161, %r13d
	jb	.Lpasetone_BB24_93
	movq	%rdi, (%rsp)
	movq	%r15, %rax
	negq	%rax
	movzbl	160(%rsp,%rax), %eax
	orl	$256, %eax
.Lpasetone_BB24_93:
	cmpb	$1, 247(%rsp)
	je	.Lpasetone_BB24_95
	movb	$1, 247(%rsp)
	movw	%ax, 248(%rsp)
.Lpasetone_BB24_95:
	movw	$256, %ax
	cmpl	$161, %r15d
	ja	.Lpasetone_BB24_98
	cmpl	$162, %r13d
	jb	.Lpasetone_BB24_98
	movq	%rdi, (%rsp)
	movq	%r15, %rax
	negq	%rax
	movzbl	161(%rsp,%rax), %eax
	orl	$256, %eax
.Lpasetone_BB24_98:
	cmpb	$1, 250(%rsp)
	je	.Lpasetone_BB24_100
	movb	$1, 250(%rsp)
	movw	%ax, 251(%rsp)
.Lpasetone_BB24_100:
	movw	$256, %ax
	cmpl	$162, %r15d
	ja	.Lpasetone_BB24_103
	cmpl	$163, %r13d
	jb	.Lpasetone_BB24_103
	movq	%rdi, (%rsp)
	negq	%r15
	movzbl	162(%rsp,%r15), %eax
	orl	$256, %eax
.Lpasetone_BB24_103:
	cmpb	$1, 253(%rsp)
	je	.Lpasetone_BB24_105
	movb	$1, 253(%rsp)
	movw	%ax, 254(%rsp)
	jmp	.Lpasetone_BB24_105
.Lpasetone_BB24_19:
	movb	$1, 232(%rsp)
	movw	$256, 233(%rsp)
	cmpb	$1, 235(%rsp)
	je	.Lpasetone_BB24_22
.Lpasetone_BB24_21:
	movb	$1, 235(%rsp)
	movw	$256, 236(%rsp)
	cmpb	$1, 238(%rsp)
	je	.Lpasetone_BB24_24
.Lpasetone_BB24_23:
	movb	$1, 238(%rsp)
	movw	$256, 239(%rsp)
	cmpb	$1, 241(%rsp)
	je	.Lpasetone_BB24_26
.Lpasetone_BB24_25:
	movb	$1, 241(%rsp)
	movw	$256, 242(%rsp)
	cmpb	$1, 244(%rsp)
	je	.Lpasetone_BB24_28
.Lpasetone_BB24_27:
	movb	$1, 244(%rsp)
	movw	$256, 245(%rsp)
	cmpb	$1, 247(%rsp)
	je	.Lpasetone_BB24_30
.Lpasetone_BB24_29:
	movb	$1, 247(%rsp)
	movw	$256, 248(%rsp)
	cmpb	$1, 250(%rsp)
	je	.Lpasetone_BB24_32
.Lpasetone_BB24_31:
	movb	$1, 250(%rsp)
	movw	$256, 251(%rsp)
	cmpb	$1, 253(%rsp)
	je	.Lpasetone_BB24_105
.Lpasetone_BB24_33:
	movb	$1, 253(%rsp)
	movw	$256, 254(%rsp)
	.p2align	4
.Lpasetone_BB24_105:
	movq	%r12, %r14
	shrq	$8, %r14
	movq	%r12, %rbx
	shrq	$32, %rbx
	cmpb	$2, %r12b
	je	.Lpasetone_BB24_106
	cmpb	$17, %dil
	setb	%r13b
	cmpb	$1, %bpl
	movl	%ebp, %eax
	adcb	$-1, %al
	movzbl	%dil, %ecx
	movzbl	%al, %eax
	addl	%ecx, %eax
	cmpl	$17, %eax
	setae	60(%rsp)
	cmpb	$21, %dil
	setb	%cl
	cmpl	$21, %eax
	setae	%r9b
	cmpb	$22, %dil
	setb	%dl
	cmpl	$22, %eax
	setae	%r11b
	cmpb	$23, %dil
	setb	%sil
	cmpl	$23, %eax
	setae	%r10b
	cmpb	$19, %dil
	setb	%r15b
	cmpl	$19, %eax
	setae	%al
	xorb	$3, %r8b
	xorb	$3, %bpl
	orb	%r8b, %bpl
	movzbl	48(%rsp), %r8d
	orb	%bpl, %r8b
	orb	%r8b, 64(%rsp)
	sete	%r8b
	testb	%r12b, %r12b
	jne	.Lpasetone_BB24_109
	shrq	$16, %rdi
	movzbl	%dil, %edi
	leaq	.Lpasetone_static.0(%rip), %r14
	movzbl	(%rdi,%r14), %edi
	andb	$64, %dil
	cmpb	$1, %dil
	movl	$2, %edi
	sbbq	$0, %rdi
	xorl	%r14d, %r14d
	testb	%r8b, %r8b
	cmovneq	%rdi, %r14
.Lpasetone_BB24_109:
	andb	60(%rsp), %r13b
	andb	%r9b, %cl
	orb	%r13b, %cl
	andb	%r11b, %dl
	andb	%r10b, %sil
	orb	%dl, %sil
	orb	%cl, %sil
	movzbl	32(%rsp), %edx
	movl	%edx, %ecx
	andb	%sil, %cl
	andb	%al, %r15b
	orb	%sil, %r15b
	andb	%dl, %r15b
	orb	%r8b, %r15b
	movl	%ebx, %eax
	incl	%eax
	movl	$-1, %edx
	cmovnel	%eax, %edx
	testb	%r8b, %r8b
	cmovel	%ebx, %edx
	movzbl	%r12b, %eax
	testb	%r15b, %r15b
	movl	$1, %esi
	cmoveq	%rax, %rsi
	testb	%cl, %cl
	cmovnel	%ebx, %edx
	movl	$2, %eax
	cmoveq	%rsi, %rax
	xorl	%r12d, %r12d
	movl	%edx, %ebx
	jmp	.Lpasetone_BB24_110
.Lpasetone_BB24_3:
	xorl	%ebx, %ebx
	xorl	%r12d, %r12d
	xorl	%r15d, %r15d
	xorl	%r11d, %r11d
	movl	$0, 24(%rsp)
	movl	$0, 108(%rsp)
	movl	$0, 16(%rsp)
	xorl	%ebp, %ebp
	xorl	%edx, %edx
	xorl	%r13d, %r13d
	movl	$0, 64(%rsp)
	xorl	%ecx, %ecx
	movl	$0, 32(%rsp)
.Lpasetone_BB24_127:
	movzwl	%cx, %eax
	cmpl	$256, %eax
	setae	%al
	andb	64(%rsp), %al
	movl	%edx, %edi
	jmp	.Lpasetone_BB24_128
.Lpasetone_BB24_156:
	movl	$12, %r11d
	movq	320(%rsp), %rax
	jmp	.Lpasetone_BB24_157
.Lpasetone_BB24_112:
	movq	%r12, %r15
	shrq	$32, %r15
	shrl	$8, %r12d
	movzbl	160(%rsp), %eax
	movzwl	161(%rsp), %r11d
	movzbl	166(%rsp), %r8d
	movzwl	167(%rsp), %r10d
	movzbl	172(%rsp), %r14d
	movzwl	173(%rsp), %ebp
	movzbl	175(%rsp), %edx
	movzwl	176(%rsp), %r13d
	movzbl	178(%rsp), %esi
	movzwl	179(%rsp), %ecx
	cmpb	$1, %sil
	sete	%dil
	movl	%edi, 64(%rsp)
	cmpb	$1, %al
	sete	%bl
	movl	%r11d, %edi
	andl	$65280, %edi
	cmpl	$512, %edi
	sete	%dil
	andb	%bl, %dil
	cmpb	$1, %dil
	movl	%r8d, 24(%rsp)
	jne	.Lpasetone_BB24_113
	cmpb	$1, %r8b
	sete	%dil
	movl	%r10d, %r8d
	andl	$65280, %r8d
	cmpl	$512, %r8d
	sete	%r8b
	andb	%dil, %r8b
	cmpb	$1, %r8b
	jne	.Lpasetone_BB24_113
	cmpb	$1, %r14b
	sete	%dil
	movl	%ebp, %r8d
	andl	$65280, %r8d
	cmpl	$512, %r8d
	sete	%r8b
	andb	%dil, %r8b
	cmpb	$1, %r8b
	movl	40(%rsp), %r8d
	movl	96(%rsp), %r9d
	jne	.Lpasetone_BB24_116
	movl	%ecx, 80(%rsp)
	cmpb	$1, %dl
	sete	%dil
	movl	%r13d, %ecx
	andl	$65280, %ecx
	cmpl	$512, %ecx
	sete	%cl
	andb	%dil, %cl
	cmpb	$1, %cl
	jne	.Lpasetone_BB24_118
	cmpb	$1, %sil
	sete	%dl
	movl	80(%rsp), %ecx
	movl	%ecx, %esi
	andl	$65280, %esi
	cmpl	$512, %esi
	sete	%sil
	andb	%dl, %sil
	movl	%esi, 32(%rsp)
	movb	$1, %dl
	movl	%edx, 24(%rsp)
	movb	$1, %dl
	movl	%edx, 16(%rsp)
	movb	$1, %dl
	jmp	.Lpasetone_BB24_120
.Lpasetone_BB24_113:
	movl	%r14d, 16(%rsp)
	movl	$0, 32(%rsp)
	movl	40(%rsp), %r8d
	movl	96(%rsp), %r9d
.Lpasetone_BB24_120:
	cmpb	$1, %al
	setne	%al
	movzwl	%r11w, %esi
	cmpl	$256, %esi
	setb	%sil
	orb	%al, %sil
	movb	$1, %al
	cmpb	$1, %sil
	movl	%r10d, 108(%rsp)
	jne	.Lpasetone_BB24_121
	cmpb	$1, 24(%rsp)
	setne	%al
	movzwl	%r10w, %esi
	cmpl	$256, %esi
	setb	%sil
	orb	%al, %sil
	movb	$1, %al
	cmpb	$1, %sil
	jne	.Lpasetone_BB24_123
	cmpb	$1, 16(%rsp)
	setne	%al
	movzwl	%bp, %esi
	cmpl	$256, %esi
	setb	%sil
	orb	%al, %sil
	movb	$1, %al
	cmpb	$1, %sil
	jne	.Lpasetone_BB24_125
	cmpb	$1, %dl
	setne	%al
	movzwl	%r13w, %esi
	cmpl	$256, %esi
	setb	%sil
	orb	%al, %sil
	movb	$1, %dil
	movb	$1, %al
	cmpb	$1, %sil
	je	.Lpasetone_BB24_127
	jmp	.Lpasetone_BB24_128
.Lpasetone_BB24_121:
	movl	%edx, %edi
	movb	$1, %bl
	jmp	.Lpasetone_BB24_128
.Lpasetone_BB24_123:
	movl	%edx, %edi
	movb	$1, %dl
	movl	%edx, 24(%rsp)
	jmp	.Lpasetone_BB24_128
.Lpasetone_BB24_116:
	movl	%r14d, 16(%rsp)
	movb	$1, %sil
	movl	%esi, 24(%rsp)
	movl	$0, 32(%rsp)
	jmp	.Lpasetone_BB24_120
.Lpasetone_BB24_125:
	movl	%edx, %edi
	movb	$1, %dl
	movl	%edx, 16(%rsp)
.Lpasetone_BB24_128:
	movb	%dil, 15(%rsp)
	movzbl	235(%rsp), %edi
	movzwl	236(%rsp), %edx
	movzwl	%dx, %r10d
	cmpb	$1, %dil
	sete	%sil
	andl	$65280, %edx
	cmpl	$512, %edx
	sete	%dl
	andb	%sil, %dl
	cmpb	$1, %dl
	jne	.Lpasetone_BB24_129
	movl	$0, 48(%rsp)
	cmpb	$1, 238(%rsp)
	jne	.Lpasetone_BB24_133
	movzbl	240(%rsp), %edx
	shll	$8, %edx
	movzwl	%dx, %edx
	cmpl	$512, %edx
	jne	.Lpasetone_BB24_133
	movzwl	242(%rsp), %edx
	cmpb	$1, 241(%rsp)
	sete	%sil
	andl	$65280, %edx
	cmpl	$512, %edx
	sete	%dl
	andb	%sil, %dl
	movl	%edx, 48(%rsp)
	jmp	.Lpasetone_BB24_133
.Lpasetone_BB24_129:
	movl	$0, 48(%rsp)
.Lpasetone_BB24_133:
	movl	%ecx, 80(%rsp)
	movb	%dil, 88(%rsp)
	cmpb	$1, %dil
	setne	%dl
	movzwl	%r10w, %esi
	cmpl	$256, %esi
	setb	%dil
	orb	%dl, %dil
	movb	$1, %sil
	cmpb	$1, %dil
	movl	%r11d, 40(%rsp)
	movl	%ebx, 348(%rsp)
	movl	%ebp, 344(%rsp)
	movl	%r8d, %ecx
	jne	.Lpasetone_BB24_137
	cmpb	$1, 238(%rsp)
	jne	.Lpasetone_BB24_136
	movzwl	239(%rsp), %edx
	cmpl	$255, %edx
	ja	.Lpasetone_BB24_137
.Lpasetone_BB24_136:
	cmpb	$1, 241(%rsp)
	sete	%dl
	movzwl	242(%rsp), %esi
	cmpl	$256, %esi
	setae	%sil
	andb	%dl, %sil
.Lpasetone_BB24_137:
	movzbl	244(%rsp), %r11d
	movzwl	245(%rsp), %edi
	movzwl	%di, %edx
	cmpb	$1, %r11b
	sete	%r8b
	andl	$65280, %edi
	cmpl	$512, %edi
	sete	%dil
	andb	%r8b, %dil
	movzbl	247(%rsp), %ebx
	movzwl	248(%rsp), %ebp
	cmpb	$1, %dil
	jne	.Lpasetone_BB24_138
	movl	$0, 72(%rsp)
	cmpb	$1, %bl
	jne	.Lpasetone_BB24_144
	movl	%ebp, %edi
	andl	$65280, %edi
	movzwl	%di, %edi
	cmpl	$512, %edi
	jne	.Lpasetone_BB24_144
	movl	$0, 72(%rsp)
	cmpb	$1, 250(%rsp)
	jne	.Lpasetone_BB24_144
	movzbl	252(%rsp), %edi
	shll	$8, %edi
	movzwl	%di, %edi
	cmpl	$512, %edi
	jne	.Lpasetone_BB24_144
	movzwl	254(%rsp), %edi
	cmpb	$1, 253(%rsp)
	sete	%r8b
	andl	$65280, %edi
	cmpl	$512, %edi
	sete	%dil
	andb	%r8b, %dil
	movl	%edi, 72(%rsp)
	jmp	.Lpasetone_BB24_144
.Lpasetone_BB24_138:
	movl	$0, 72(%rsp)
.Lpasetone_BB24_144:
	movl	%r13d, 340(%rsp)
	cmpb	$1, %r11b
	setne	%dil
	movzwl	%dx, %r8d
	cmpl	$256, %r8d
	setb	%r8b
	orb	%dil, %r8b
	movb	$1, %dil
	cmpb	$1, %r8b
	movq	%r15, 96(%rsp)
	jne	.Lpasetone_BB24_149
	cmpb	$1, %bl
	setne	%r8b
	movzwl	%bp, %r14d
	cmpl	$256, %r14d
	setb	%r14b
	orb	%r8b, %r14b
	cmpb	$1, %r14b
	jne	.Lpasetone_BB24_149
	cmpb	$1, 250(%rsp)
	jne	.Lpasetone_BB24_148
	movzwl	251(%rsp), %r8d
	cmpl	$255, %r8d
	ja	.Lpasetone_BB24_149
.Lpasetone_BB24_148:
	cmpb	$1, 253(%rsp)
	sete	%r8b
	movzwl	254(%rsp), %edi
	cmpl	$256, %edi
	setae	%dil
	andb	%r8b, %dil
.Lpasetone_BB24_149:
	movzbl	%sil, %r8d
	cmpb	$0, 48(%rsp)
	movl	$2, %esi
	cmovnel	%esi, %r8d
	movl	%r8d, 44(%rsp)
	movzbl	%al, %eax
	cmpb	$0, 32(%rsp)
	cmovnel	%esi, %eax
	movl	%eax, 60(%rsp)
	movzbl	%dil, %eax
	cmpb	$0, 72(%rsp)
	cmovnel	%esi, %eax
	movl	%eax, 332(%rsp)
	movzwl	233(%rsp), %esi
	movl	%esi, 336(%rsp)
	shrl	$8, %esi
	movzbl	232(%rsp), %edi
	xorl	%eax, %eax
	movb	%dil, 14(%rsp)
	cmpb	$1, %dil
	cmovnel	%eax, %esi
	movl	%esi, 328(%rsp)
	shll	$24, %edx
	cmpb	$1, %r11b
	cmovnel	%eax, %edx
	movzbl	%bpl, %r13d
	shll	$16, %r13d
	cmpb	$1, %bl
	cmovnel	%eax, %r13d
	movzwl	251(%rsp), %esi
	shll	$8, %esi
	cmpb	$1, 250(%rsp)
	movzbl	254(%rsp), %edi
	movzwl	%si, %esi
	cmovnel	%eax, %esi
	cmpb	$1, 253(%rsp)
	cmovnel	%eax, %edi
	movq	440(%rsp), %r8
	orl	%edx, %r13d
	movzbl	238(%rsp), %eax
	movb	%al, 13(%rsp)
	orl	%esi, %r13d
	movzwl	239(%rsp), %r15d
	movzbl	241(%rsp), %ebp
	orl	%edi, %r13d
	movzbl	242(%rsp), %ebx
	je	.Lpasetone_BB24_150
	movl	%r13d, %esi
	movl	%r9d, %eax
	movq	%rax, %r14
	shlq	$22, %rax
	movabsq	$18014394214514688, %rdx
	testq	%rdx, %rax
	movzbl	88(%rsp), %edi
	je	.Lpasetone_BB24_152
	xorl	%edx, %edx
	divq	%rsi
	movq	%rax, %rsi
	jmp	.Lpasetone_BB24_154
.Lpasetone_BB24_150:
	movl	%r9d, %r14d
	xorl	%esi, %esi
	movzbl	88(%rsp), %edi
	jmp	.Lpasetone_BB24_154
.Lpasetone_BB24_152:
	xorl	%edx, %edx
	divl	%esi
	movl	%eax, %esi
.Lpasetone_BB24_154:
	movl	$8, %r11d
	cmpq	$52, %r8
	movq	320(%rsp), %rax
	movzbl	312(%rsp), %edx
	jb	.Lpasetone_BB24_157
	movl	%ebp, %r8d
	xorl	%ebp, %ebp
	movb	%dl, %bpl
	shll	$12, %ebp
	movl	80(%rsp), %edx
	shll	$8, %edx
	xorl	%r11d, %r11d
	cmpb	$0, 64(%rsp)
	movq	%rsi, 64(%rsp)
	movzwl	%dx, %esi
	cmoveq	%r11, %rsi
	cmpb	$1, 15(%rsp)
	movzbl	340(%rsp), %edx
	cmovneq	%r11, %rdx
	orq	%rsi, %rdx
	testb	$8, 108(%rsp)
	movl	$0, %eax
	cmoveq	%rdx, %rax
	cmpb	$1, 24(%rsp)
	cmovneq	%rdx, %rax
	cmpb	$1, 16(%rsp)
	movl	344(%rsp), %edx
	cmovnel	%r11d, %edx
	rolb	$2, %dl
	movzbl	%dl, %edx
	shll	$16, %edx
	addl	$851968, %edx
	orq	%rax, %rdx
	movl	%ecx, %r9d
	imulq	%rdx, %r9
	movl	40(%rsp), %eax
	notb	%al
	shrb	$5, %al
	cmpb	$0, 348(%rsp)
	movzbl	%al, %eax
	movl	$7, %ecx
	cmovnel	%eax, %ecx
	shlq	%cl, %r9
	shll	$8, %r15d
	cmpb	$1, 13(%rsp)
	movzwl	%r15w, %eax
	cmovnel	%r11d, %eax
	andl	$63, %r10d
	shll	$16, %r10d
	cmpb	$1, %dil
	cmovnel	%r11d, %r10d
	orl	%eax, %r10d
	cmpb	$1, %r8b
	cmovnel	%r11d, %ebx
	orl	%r10d, %ebx
	movl	%ebx, %eax
	negl	%eax
	andl	$4194303, %eax
	movq	%r14, %rcx
	imulq	%rax, %rcx
	addq	%rcx, %rcx
	movq	%r9, %rdx
	subq	%rcx, %rdx
	movb	$2, %al
	sbbb	$0, %al
	shrq	$23, %rdx
	cmpq	%rcx, %r9
	cmovbq	%r11, %rdx
	movl	%ebx, %r8d
	movzbl	14(%rsp), %ebx
	xorb	$1, %bl
	movl	44(%rsp), %esi
	xorl	%edi, %edi
	orb	60(%rsp), %sil
	setne	%dil
	cmpb	$0, 48(%rsp)
	movzbl	%al, %r15d
	cmovel	%edi, %r15d
	cmoveq	%r11, %rcx
	cmovel	%r11d, %r8d
	movl	%r8d, 88(%rsp)
	cmpb	$0, 32(%rsp)
	cmovel	%edi, %r15d
	cmoveq	%r11, %r9
	cmpb	$2, %r15b
	cmovneq	%r11, %rdx
	movq	%rdx, %rax
	shrq	$40, %rax
	movq	%rax, 48(%rsp)
	movq	%rdx, %rax
	shrq	$32, %rax
	movq	%rax, 32(%rsp)
	movl	%edx, %eax
	shrl	$24, %eax
	movl	%eax, 24(%rsp)
	movl	%edx, %eax
	shrl	$16, %eax
	movl	%eax, 16(%rsp)
	movq	%rcx, %rax
	shrq	$48, %rax
	movq	%rax, 312(%rsp)
	movq	%rcx, %rax
	shrq	$40, %rax
	movq	%rax, 80(%rsp)
	movq	%rcx, %r14
	shrq	$32, %r14
	movl	%ecx, %r8d
	shrl	$24, %r8d
	movl	%ecx, %edi
	shrl	$16, %edi
	cmpb	$0, 72(%rsp)
	movq	64(%rsp), %rax
	cmoveq	%r11, %rax
	cmovel	%r11d, %r13d
	movl	328(%rsp), %esi
	movl	%esi, %r10d
	xorb	$2, %r10b
	orb	%bl, %r10b
	movq	432(%rsp), %rbx
	movl	60(%rsp), %r10d
	movb	%r10b, (%rbx,%rbp)
	movl	44(%rsp), %r10d
	movb	%r10b, 1(%rbx,%rbp)
	movl	332(%rsp), %r10d
	movb	%r10b, 2(%rbx,%rbp)
	movb	%sil, 3(%rbx,%rbp)
	movb	%r12b, 4(%rbx,%rbp)
	movb	%r15b, 5(%rbx,%rbp)
	movl	336(%rsp), %r10d
	cmovnel	%r11d, %r10d
	movb	%r10b, 6(%rbx,%rbp)
	movb	$0, 7(%rbx,%rbp)
	movq	96(%rsp), %r10
	movl	%r10d, 8(%rbx,%rbp)
	movl	88(%rsp), %esi
	movl	%esi, 12(%rbx,%rbp)
	movl	%r13d, 16(%rbx,%rbp)
	movq	%rax, 20(%rbx,%rbp)
	movq	%r9, 28(%rbx,%rbp)
	movb	%cl, 36(%rbx,%rbp)
	movb	%ch, 37(%rbx,%rbp)
	movb	%dil, 38(%rbx,%rbp)
	movb	%r8b, 39(%rbx,%rbp)
	movq	320(%rsp), %rax
	movb	%r14b, 40(%rbx,%rbp)
	movq	80(%rsp), %rcx
	movb	%cl, 41(%rbx,%rbp)
	movq	312(%rsp), %rcx
	movb	%cl, 42(%rbx,%rbp)
	movb	$0, 43(%rbx,%rbp)
	movb	%dl, 44(%rbx,%rbp)
	movb	%dh, 45(%rbx,%rbp)
	movl	16(%rsp), %ecx
	movb	%cl, 46(%rbx,%rbp)
	movl	24(%rsp), %ecx
	movb	%cl, 47(%rbx,%rbp)
	movq	32(%rsp), %rcx
	movb	%cl, 48(%rbx,%rbp)
	movq	48(%rsp), %rcx
	movb	%cl, 49(%rbx,%rbp)
	movw	$0, 50(%rbx,%rbp)
.Lpasetone_BB24_157:
	xorps	%xmm0, %xmm0
	movups	%xmm0, (%rax)
	movl	%r11d, 16(%rax)
	movl	$0, 20(%rax)
	addq	$376, %rsp
	.cfi_def_cfa_offset 56
	popq	%rbx
	.cfi_def_cfa_offset 48
	popq	%r12
	.cfi_def_cfa_offset 40
	popq	%r13
	.cfi_def_cfa_offset 32
	popq	%r14
	.cfi_def_cfa_offset 24
	popq	%r15
	.cfi_def_cfa_offset 16
	popq	%rbp
	.cfi_def_cfa_offset 8
	retq
.Lpasetone_BB24_118:
	.cfi_def_cfa_offset 432
	movb	$1, %cl
	movl	%ecx, 24(%rsp)
	movl	$0, 32(%rsp)
	movb	$1, %cl
	movl	%ecx, 16(%rsp)
	movl	80(%rsp), %ecx
	jmp	.Lpasetone_BB24_120
.Lpasetone_func_end24:
	.size	pasetone_evidence, .Lpasetone_func_end24-pasetone_evidence
	.cfi_endproc

	.section	.text.pasetone_expand,"ax",@progbits
	.globl	pasetone_expand
	.p2align	4
	.type	pasetone_expand,@function
pasetone_expand:
	.cfi_startproc
	pushq	%rbp
	.cfi_def_cfa_offset 16
	pushq	%r15
	.cfi_def_cfa_offset 24
	pushq	%r14
	.cfi_def_cfa_offset 32
	pushq	%r13
	.cfi_def_cfa_offset 40
	pushq	%r12
	.cfi_def_cfa_offset 48
	pushq	%rbx
	.cfi_def_cfa_offset 56
	subq	$88, %rsp
	.cfi_def_cfa_offset 144
	.cfi_offset %rbx, -56
	.cfi_offset %r12, -48
	.cfi_offset %r13, -40
	.cfi_offset %r14, -32
	.cfi_offset %r15, -24
	.cfi_offset %rbp, -16
	movq	%r8, %r15
	movq	%rdi, 64(%rsp)
	xorl	%r13d, %r13d
	testq	%rsi, %rsi
	sete	%r13b
	shll	$12, %r13d
	addq	%rsi, %r13
	xorl	%ebx, %ebx
	movq	%rcx, %r12
	testq	%rcx, %rcx
	sete	%bpl
	xorps	%xmm0, %xmm0
	movaps	%xmm0, 32(%rsp)
	movq	$0, 48(%rsp)
	leaq	32(%rsp), %rdi
	movq	%r13, %rsi
	callq	"transcript::read_section"
	movl	$12, %r8d
	cmpb	$1, 32(%rsp)
	jne	.Lpasetone_BB25_15
	movq	48(%rsp), %r10
	testq	%r10, %r10
	je	.Lpasetone_BB25_16
	movb	%bpl, %bl
	shll	$12, %ebx
	addq	40(%rsp), %r13
	addq	%rbx, %r12
	movq	%r12, 16(%rsp)
	xorl	%r11d, %r11d
	movq	%r13, %rax
	movq	%r10, %rcx
	jmp	.Lpasetone_BB25_4
	.p2align	4
.Lpasetone_BB25_3:
	xorl	%edx, %edx
	addq	%rdx, %r11
	addq	$16, %rax
	decq	%rcx
	je	.Lpasetone_BB25_14
.Lpasetone_BB25_4:
	movzbl	(%rax), %esi
	movzbl	1(%rax), %edx
	movzbl	2(%rax), %r9d
	movzbl	3(%rax), %edi
	movl	%esi, %r8d
	andb	$-2, %r8b
	cmpb	$4, %r8b
	jne	.Lpasetone_BB25_7
	movl	$15, %r8d
	cmpb	$15, %r9b
	ja	.Lpasetone_BB25_15
	cmpb	$0, 5(%rax)
	je	.Lpasetone_BB25_10
	jmp	.Lpasetone_BB25_15
	.p2align	4
.Lpasetone_BB25_7:
	leal	-6(%rsi), %r8d
	cmpb	$2, %r8b
	ja	.Lpasetone_BB25_10
	movl	$15, %r8d
	testl	%r9d, %r9d
	je	.Lpasetone_BB25_15
	cmpl	$6, %r9d
	je	.Lpasetone_BB25_15
.Lpasetone_BB25_10:
	movzbl	%sil, %r8d
	cmpl	$9, %r8d
	je	.Lpasetone_BB25_3
	cmpl	$1, %r8d
	jne	.Lpasetone_BB25_13
	movb	$1, %dil
	movb	$4, %sil
.Lpasetone_BB25_13:
	movzbl	%dil, %edi
	addq	$8, %rdi
	cmpb	$8, %sil
	movl	$8, %r8d
	cmoveq	%r8, %rdi
	cmpb	$3, %sil
	cmoveq	%r8, %rdi
	andb	$-2, %sil
	xorb	$4, %sil
	xorl	%r8d, %r8d
	orb	%sil, %dl
	sete	%r8b
	leaq	(%rdi,%r8,8), %rdx
	addq	%rdx, %r11
	addq	$16, %rax
	decq	%rcx
	jne	.Lpasetone_BB25_4
.Lpasetone_BB25_14:
	movl	$8, %r8d
	cmpq	%r11, %r15
	jae	.Lpasetone_BB25_17
.Lpasetone_BB25_15:
	xorl	%edx, %edx
	movl	%r8d, %ecx
	jmp	.Lpasetone_BB25_43
.Lpasetone_BB25_16:
	xorl	%edx, %edx
	jmp	.Lpasetone_BB25_42
.Lpasetone_BB25_17:
	movq	%r11, 56(%rsp)
	xorl	%ebx, %ebx
	jmp	.Lpasetone_BB25_20
	.p2align	4
.Lpasetone_BB25_18:
	xorl	%eax, %eax
	addq	%rax, %rbx
	addq	$16, %r13
	decq	%r10
	je	.Lpasetone_BB25_41
.Lpasetone_BB25_20:
	movzbl	(%r13), %ebp
	cmpl	$9, %ebp
	je	.Lpasetone_BB25_18
	movq	8(%r13), %r8
	movzbl	3(%r13), %r11d
	cmpl	$1, %ebp
	jne	.Lpasetone_BB25_32
	xorl	%eax, %eax
	testb	%r8b, %r8b
	setne	%al
	leaq	16(,%rax,8), %rax
	movq	%rax, 24(%rsp)
	movl	$16, %edi
	movl	$1, %eax
	movl	$18874368, %r12d
	xorl	%esi, %esi
	movl	$1, %ecx
	movl	$1, %edx
.Lpasetone_BB25_23:
	addq	%rdi, %rax
	movb	$1, %r15b
.Lpasetone_BB25_24:
	movzbl	1(%r13), %edi
	movzbl	%sil, %esi
	shll	$7, %esi
	shlq	$48, %rcx
	orq	%rsi, %rcx
	addq	%r12, %rcx
	addq	$64, %rcx
	movq	16(%rsp), %rsi
	movl	%ecx, (%rsi,%rbx)
	shrq	$32, %rcx
	addq	%rax, %rcx
	movb	%cl, 4(%rsi,%rbx)
	movb	%ch, 5(%rsi,%rbx)
	shrl	$16, %ecx
	movb	%cl, 6(%rsi,%rbx)
	movb	$0, 7(%rsi,%rbx)
	leaq	8(%rbx), %r12
	testq	%rdx, %rdx
	je	.Lpasetone_BB25_26
	movb	%dil, 15(%rsp)
	leaq	(%rsi,%r12), %rdi
	leaq	24(%rsp), %rsi
	movq	%rdx, 72(%rsp)
	movq	%r10, %r14
	movq	%rbx, 80(%rsp)
	movl	%ebp, %ebx
	movl	%r11d, %ebp
	callq	memcpy@PLT
	movzbl	15(%rsp), %edi
	movl	%ebp, %r11d
	movl	%ebx, %ebp
	movq	80(%rsp), %rbx
	movq	%r14, %r10
	movq	72(%rsp), %rdx
	movq	16(%rsp), %rsi
.Lpasetone_BB25_26:
	testb	%dil, %dil
	setne	%al
	xorb	$1, %r15b
	orb	%al, %r15b
	jne	.Lpasetone_BB25_28
	addq	%rsi, %r12
	movabsq	$281517945258176, %rax
	movq	%rax, (%rdx,%r12)
.Lpasetone_BB25_28:
	cmpl	$9, %ebp
	je	.Lpasetone_BB25_18
	cmpl	$1, %ebp
	jne	.Lpasetone_BB25_31
	movb	$1, %r11b
	movb	$4, %bpl
.Lpasetone_BB25_31:
	movzbl	%r11b, %eax
	addq	$8, %rax
	cmpb	$8, %bpl
	movl	$8, %ecx
	cmoveq	%rcx, %rax
	cmpb	$3, %bpl
	cmoveq	%rcx, %rax
	andb	$-2, %bpl
	xorb	$4, %bpl
	xorl	%ecx, %ecx
	orb	%bpl, %dil
	sete	%cl
	leaq	(%rax,%rcx,8), %rax
	addq	%rax, %rbx
	addq	$16, %r13
	decq	%r10
	jne	.Lpasetone_BB25_20
	jmp	.Lpasetone_BB25_41
	.p2align	4
.Lpasetone_BB25_32:
	movzbl	%r11b, %ecx
	movzbl	5(%r13), %edi
	movzbl	4(%r13), %r12d
	movzbl	2(%r13), %eax
	cmpb	$3, %bpl
	sete	%r9b
	cmpb	$8, %bpl
	sete	%sil
	xorl	%edx, %edx
	orb	%r9b, %sil
	cmoveq	%rcx, %rdx
	movq	%r8, 24(%rsp)
	movl	%ebp, %r8d
	andl	$-2, %r8d
	cmpl	$2, %r8d
	je	.Lpasetone_BB25_38
	cmpl	$4, %r8d
	jne	.Lpasetone_BB25_39
	shll	$24, %r12d
	orq	$2097152, %r12
	cmpl	$8, %ebp
	je	.Lpasetone_BB25_36
	cmpl	$3, %ebp
	jne	.Lpasetone_BB25_40
.Lpasetone_BB25_36:
	movb	$1, %sil
	xorl	%edx, %edx
	xorl	%edi, %edi
	jmp	.Lpasetone_BB25_23
.Lpasetone_BB25_38:
	shll	$16, %eax
	movl	%esi, %edi
	xorb	$1, %dil
	movq	%rax, %r12
	movzbl	%dil, %eax
	shll	$4, %eax
	orq	$1536, %rax
	xorl	%r15d, %r15d
	jmp	.Lpasetone_BB25_24
.Lpasetone_BB25_39:
	shll	$24, %edi
	shll	$16, %r12d
	orl	%edi, %r12d
	movl	%esi, %edi
	xorb	$1, %dil
	movzbl	%dil, %edi
	shll	$4, %edi
	shll	$8, %eax
	orl	%edi, %eax
	cmpb	$4, %r8b
	sete	%r15b
	jmp	.Lpasetone_BB25_24
.Lpasetone_BB25_40:
	movl	$16, %edi
	xorl	%esi, %esi
	movq	%rcx, %rdx
	jmp	.Lpasetone_BB25_23
.Lpasetone_BB25_41:
	movq	56(%rsp), %rdx
.Lpasetone_BB25_42:
	xorl	%ecx, %ecx
.Lpasetone_BB25_43:
	movq	64(%rsp), %rax
	movq	%rdx, (%rax)
	movq	$0, 8(%rax)
	movl	%ecx, 16(%rax)
	movl	$0, 20(%rax)
	addq	$88, %rsp
	.cfi_def_cfa_offset 56
	popq	%rbx
	.cfi_def_cfa_offset 48
	popq	%r12
	.cfi_def_cfa_offset 40
	popq	%r13
	.cfi_def_cfa_offset 32
	popq	%r14
	.cfi_def_cfa_offset 24
	popq	%r15
	.cfi_def_cfa_offset 16
	popq	%rbp
	.cfi_def_cfa_offset 8
	retq
.Lpasetone_func_end25:
	.size	pasetone_expand, .Lpasetone_func_end25-pasetone_expand
	.cfi_endproc

	.section	.rodata.cst16,"aM",@progbits,16
	.p2align	4, 0x0
.Lpasetone_CPI26_0:
	.long	14
	.long	0
	.long	0
	.long	0
.Lpasetone_CPI26_1:
	.long	1
	.long	0
	.long	0
	.long	0
	.section	.rodata.cst4,"aM",@progbits,4
	.p2align	2, 0x0
.Lpasetone_CPI26_2:
	.long	1
.Lpasetone_CPI26_3:
	.long	14
	.section	.text.pasetone_feed,"ax",@progbits
	.globl	pasetone_feed
	.p2align	4
	.type	pasetone_feed,@function
pasetone_feed:
	.cfi_startproc
	pushq	%rbp
	.cfi_def_cfa_offset 16
	pushq	%r15
	.cfi_def_cfa_offset 24
	pushq	%r14
	.cfi_def_cfa_offset 32
	pushq	%r13
	.cfi_def_cfa_offset 40
	pushq	%r12
	.cfi_def_cfa_offset 48
	pushq	%rbx
	.cfi_def_cfa_offset 56
	subq	$536, %rsp
	.cfi_def_cfa_offset 592
	.cfi_offset %rbx, -56
	.cfi_offset %r12, -48
	.cfi_offset %r13, -40
	.cfi_offset %r14, -32
	.cfi_offset %r15, -24
	.cfi_offset %rbp, -16
	movq	%rdi, %rax
	movq	616(%rsp), %r13
	xorl	%edi, %edi
	testq	%rsi, %rsi
	sete	%r10b
	testq	%rcx, %rcx
	sete	112(%rsp)
	testq	%r9, %r9
	sete	83(%rsp)
	cmpq	$0, 600(%rsp)
	sete	%r11b
	testq	%r13, %r13
	sete	88(%rsp)
	cmpq	$0, 632(%rsp)
	sete	%r12b
	cmpq	$0, 648(%rsp)
	sete	%r15b
	cmpq	$0, 664(%rsp)
	sete	%bl
	cmpq	$9, %rdx
	jne	.Lpasetone_BB26_61
	movb	%r10b, %dil
	shll	$12, %edi
	leaq	(%rsi,%rdi), %r10
	movzbl	(%r10), %ebp
	cmpq	$8, %rbp
	ja	.Lpasetone_BB26_61
	cmpl	$8, %ebp
	movb	%bl, 87(%rsp)
	movb	%r11b, 85(%rsp)
	movb	%r15b, 84(%rsp)
	movb	%r12b, 86(%rsp)
	jne	.Lpasetone_BB26_4
	movq	%rax, 104(%rsp)
	xorl	%r12d, %r12d
	cmpq	$0, 624(%rsp)
	setne	%r12b
	movb	$0, 296(%rsp)
	movq	$0, 288(%rsp)
.Lpasetone_BB26_14:
	leaq	1(%r10), %rsi
	leaq	288(%rsp), %rdi
	movq	%rbp, %rdx
	movq	%r9, %r14
	movq	%rcx, %rbx
	movq	%r8, %r15
	movq	%r12, %r13
	movq	%r10, %r12
	callq	memcpy@PLT
	movq	%r12, %r10
	movq	%r13, %r12
	movq	616(%rsp), %r13
	movq	%r15, %r8
	movq	%rbx, %rcx
	movq	%r14, %r9
	xorl	%r14d, %r14d
	xorl	%ebx, %ebx
.Lpasetone_BB26_15:
	testq	%r12, %r12
	je	.Lpasetone_BB26_17
	xorl	%eax, %eax
	movzbl	88(%rsp), %edx
	movb	%dl, %al
	shll	$12, %eax
	addq	%rax, %r13
	leaq	(%rsp,%rbp), %rdi
	addq	$288, %rdi
	movq	%r13, %rsi
	movq	%r12, %rdx
	movq	%r9, %r14
	movq	%rcx, %rbx
	movq	%r8, %r15
	movq	%r12, %r13
	movq	%r10, %r12
	callq	memcpy@PLT
	movq	%r12, %r10
	movq	%r13, %r12
	movq	%r15, %r8
	movq	%rbx, %rcx
	movq	%r14, %r9
	xorl	%r14d, %r14d
	xorl	%ebx, %ebx
.Lpasetone_BB26_17:
	addq	%r12, %rbp
	movzbl	288(%rsp), %esi
	movq	289(%rsp), %r11
	cmpq	$8, %rbp
	movq	104(%rsp), %rax
	jbe	.Lpasetone_BB26_18
	movzbl	%sil, %edx
	movb	$0, (%r10)
	movq	$0, 1(%r10)
	cmpl	$1, %edx
	je	.Lpasetone_BB26_20
	cmpl	$4, %edx
	je	.Lpasetone_BB26_22
	cmpl	$7, %edx
	jne	.Lpasetone_BB26_25
	xorl	%edi, %edi
	jmp	.Lpasetone_BB26_26
.Lpasetone_BB26_4:
	movq	%r10, 96(%rsp)
	movl	$8, %r14d
	subq	%rbp, %r14
	movl	%r14d, %r10d
	andl	$3, %r10d
	leal	-5(%rbp), %edx
	cmpb	$3, %dl
	jae	.Lpasetone_BB26_6
	xorl	%ebx, %ebx
	jmp	.Lpasetone_BB26_10
.Lpasetone_BB26_18:
	movb	%sil, 288(%rsp)
	movq	%r11, 289(%rsp)
	movq	288(%rsp), %rcx
	movb	%bpl, (%r10)
	movq	%rcx, 1(%r10)
	xorps	%xmm0, %xmm0
	xorl	%edx, %edx
	xorl	%ecx, %ecx
	xorl	%esi, %esi
	jmp	.Lpasetone_BB26_60
.Lpasetone_BB26_6:
	leaq	(%rdi,%rsi), %rdx
	addq	$8, %rdx
	movq	%r14, %r11
	andq	$-4, %r11
	negq	%r11
	xorl	%ebx, %ebx
	xorl	%r15d, %r15d
	.p2align	4
.Lpasetone_BB26_7:
	movzbl	(%rdx,%r15), %r12d
	shlq	$16, %rbx
	shll	$8, %r12d
	orq	%rbx, %r12
	movzbl	-1(%rdx,%r15), %ebx
	orq	%r12, %rbx
	movzbl	-2(%rdx,%r15), %r12d
	shlq	$16, %rbx
	shll	$8, %r12d
	orq	%rbx, %r12
	movzbl	-3(%rdx,%r15), %ebx
	orq	%r12, %rbx
	addq	$-4, %r15
	cmpq	%r15, %r11
	jne	.Lpasetone_BB26_7
	testq	%r10, %r10
	je	.Lpasetone_BB26_12
	addq	%r15, %r14
.Lpasetone_BB26_10:
	addq	%rbp, %rdi
	addq	%rdi, %rsi
	addq	%r14, %rsi
	negq	%r10
	xorl	%edx, %edx
	.p2align	4
.Lpasetone_BB26_11:
	shlq	$8, %rbx
	movzbl	(%rsi,%rdx), %edi
	orq	%rdi, %rbx
	decq	%rdx
	cmpq	%rdx, %r10
	jne	.Lpasetone_BB26_11
.Lpasetone_BB26_12:
	testq	%rbx, %rbx
	movl	$0, %ebx
	movl	$0, %r14d
	movq	96(%rsp), %r10
	je	.Lpasetone_BB26_13
.Lpasetone_BB26_61:
	movss	.Lpasetone_CPI26_2(%rip), %xmm0
	xorl	%edx, %edx
	xorl	%ecx, %ecx
	xorl	%r12d, %r12d
	xorl	%esi, %esi
	xorl	%ebp, %ebp
.Lpasetone_BB26_60:
	movq	%rdx, (%rax)
	movq	%rcx, 8(%rax)
	movq	%r12, 16(%rax)
	movups	%xmm0, 24(%rax)
	movl	%esi, 40(%rax)
	movl	%ebp, 44(%rax)
	addq	$536, %rsp
	.cfi_def_cfa_offset 56
	popq	%rbx
	.cfi_def_cfa_offset 48
	popq	%r12
	.cfi_def_cfa_offset 40
	popq	%r13
	.cfi_def_cfa_offset 32
	popq	%r14
	.cfi_def_cfa_offset 24
	popq	%r15
	.cfi_def_cfa_offset 16
	popq	%rbp
	.cfi_def_cfa_offset 8
	retq
.Lpasetone_BB26_13:
	.cfi_def_cfa_offset 592
	movq	%rax, 104(%rsp)
	movl	$9, %r12d
	subq	%rbp, %r12
	movq	624(%rsp), %rax
	cmpq	%rax, %r12
	cmovaeq	%rax, %r12
	movb	$0, 296(%rsp)
	movq	$0, 288(%rsp)
	testq	%rbp, %rbp
	jne	.Lpasetone_BB26_14
	jmp	.Lpasetone_BB26_15
.Lpasetone_BB26_22:
	movl	$255, %edi
	jmp	.Lpasetone_BB26_26
.Lpasetone_BB26_20:
	movq	%r12, 96(%rsp)
	jmp	.Lpasetone_BB26_28
.Lpasetone_BB26_25:
	movl	$4294967295, %edi
.Lpasetone_BB26_26:
	leal	-1(%rsi), %r10d
	cmpb	$7, %r10b
	setae	%r10b
	cmpq	%rdi, %r11
	seta	%dil
	orb	%r10b, %dil
	jne	.Lpasetone_BB26_47
	cmpb	$1, %sil
	movq	%r12, 96(%rsp)
	jne	.Lpasetone_BB26_29
.Lpasetone_BB26_28:
	movq	$0, 88(%rsp)
	xorl	%r10d, %r10d
	xorl	%r15d, %r15d
	cmpq	$29, %r8
	je	.Lpasetone_BB26_41
	jmp	.Lpasetone_BB26_48
.Lpasetone_BB26_47:
	movss	.Lpasetone_CPI26_3(%rip), %xmm0
	xorl	%edx, %edx
	xorl	%ecx, %ecx
	jmp	.Lpasetone_BB26_59
.Lpasetone_BB26_29:
	xorl	%r10d, %r10d
	addl	$-2, %edx
	cmpl	$4, %edx
	ja	.Lpasetone_BB26_38
	leaq	.Lpasetone_JTI26_0(%rip), %rsi
	movslq	(%rsi,%rdx,4), %rdx
	addq	%rsi, %rdx
	jmpq	*%rdx
.Lpasetone_BB26_31:
	movb	$1, %dl
	movq	%rdx, 88(%rsp)
	movl	%r11d, %r15d
	jmp	.Lpasetone_BB26_39
.Lpasetone_BB26_37:
	movb	$5, %dl
	jmp	.Lpasetone_BB26_36
.Lpasetone_BB26_34:
	movzbl	%r11b, %r10d
	xorl	%r15d, %r15d
	movb	$3, %dl
	movq	%rdx, 88(%rsp)
	jmp	.Lpasetone_BB26_39
.Lpasetone_BB26_35:
	movb	$4, %dl
.Lpasetone_BB26_36:
	movq	%rdx, 88(%rsp)
	xorl	%r10d, %r10d
	movl	%r11d, %r15d
	jmp	.Lpasetone_BB26_39
.Lpasetone_BB26_33:
	movl	%r11d, %edx
	andl	$2147483647, %edx
	cmpl	$2139095041, %edx
	movl	$2143289344, %r15d
	cmovbl	%r11d, %r15d
	movb	$2, %dl
	movq	%rdx, 88(%rsp)
	xorl	%r10d, %r10d
	jmp	.Lpasetone_BB26_39
.Lpasetone_BB26_38:
	movb	$6, %dl
	movq	%rdx, 88(%rsp)
	xorl	%r15d, %r15d
.Lpasetone_BB26_39:
	xorl	%r11d, %r11d
	cmpq	$29, %r8
	jne	.Lpasetone_BB26_48
.Lpasetone_BB26_41:
	movzbl	112(%rsp), %eax
	movb	%al, %bl
	movzbl	83(%rsp), %eax
	movb	%al, %r14b
	shll	$12, %ebx
	shll	$12, %r14d
	movq	592(%rsp), %r8
	addq	%rbx, %rcx
	addq	%r14, %r9
	movzbl	(%rcx), %eax
	movb	%al, 83(%rsp)
	movl	1(%rcx), %edi
	movslq	5(%rcx), %rdx
	imulq	%rdi, %rdx
	movabsq	$4835703278458516699, %rsi
	movq	%rdx, %rax
	imulq	%rsi
	movq	%rdx, %rbp
	movq	%rdx, %rax
	shrq	$63, %rax
	sarq	$18, %rbp
	addq	%rax, %rbp
	movq	%rdi, 120(%rsp)
	leaq	(%rdi,%rbp), %rax
	movabsq	$4294967296, %r12
	cmpq	%r12, %rax
	cmovbq	%rax, %r12
	leaq	288(%rsp), %rdi
	movq	%r9, %rsi
	movq	%r8, %rdx
	movq	%r9, %r14
	movq	%r15, 112(%rsp)
	movq	%r10, %r15
	movq	%rcx, %r13
	movq	%r11, %rbx
	callq	"records::decode_tuner"
	movq	%r13, %rcx
	movq	%r15, %r13
	movq	112(%rsp), %r15
	movq	104(%rsp), %rax
	cmpb	$1, 83(%rsp)
	movzbl	87(%rsp), %r8d
	ja	.Lpasetone_BB26_48
	movq	120(%rsp), %rdx
	addq	%rbp, %rdx
	decq	%rdx
	movl	$4294967294, %edi
	cmpq	%rdi, %rdx
	ja	.Lpasetone_BB26_48
	movl	%r12d, %edx
	testq	%rdx, %rdx
	je	.Lpasetone_BB26_48
	cmpb	$1, 288(%rsp)
	jne	.Lpasetone_BB26_45
	movups	(%rcx), %xmm0
	movups	13(%rcx), %xmm1
	movups	%xmm1, 509(%rsp)
	movaps	%xmm0, 496(%rsp)
	cmpq	$78, 592(%rsp)
	movq	96(%rsp), %r12
	jne	.Lpasetone_BB26_62
	movq	%rbx, %r11
	xorl	%edx, %edx
	movzbl	86(%rsp), %eax
	movb	%al, %dl
	xorl	%edi, %edi
	movb	%r8b, %dil
	shll	$12, %edx
	shll	$12, %edi
	movq	672(%rsp), %rax
	movq	640(%rsp), %r9
	movq	632(%rsp), %r8
	addq	%rdx, %r8
	movq	664(%rsp), %r10
	addq	%rdi, %r10
	movups	62(%r14), %xmm0
	movups	%xmm0, 446(%rsp)
	movups	(%r14), %xmm0
	movups	16(%r14), %xmm1
	movups	32(%r14), %xmm2
	movups	48(%r14), %xmm3
	movaps	%xmm3, 432(%rsp)
	movaps	%xmm2, 416(%rsp)
	movaps	%xmm1, 400(%rsp)
	movaps	%xmm0, 384(%rsp)
	xorps	%xmm0, %xmm0
	movaps	%xmm0, 288(%rsp)
	movaps	%xmm0, 304(%rsp)
	movaps	%xmm0, 256(%rsp)
	movq	$0, 272(%rsp)
	movaps	%xmm0, 224(%rsp)
	movq	$0, 240(%rsp)
	movaps	%xmm0, 192(%rsp)
	movq	$0, 208(%rsp)
	movaps	%xmm0, 160(%rsp)
	movq	$0, 176(%rsp)
	movaps	%xmm0, 128(%rsp)
	movq	$0, 144(%rsp)
	movzbl	88(%rsp), %edx
	leaq	.Lpasetone_JTI26_1(%rip), %rdi
	movslq	(%rdi,%rdx,4), %rdx
	addq	%rdi, %rdx
	leaq	288(%rsp), %rbx
	jmpq	*%rdx
.Lpasetone_BB26_51:
	xorl	%edi, %edi
	movzbl	84(%rsp), %ecx
	movb	%cl, %dil
	shll	$12, %edi
	movq	656(%rsp), %rcx
	movq	648(%rsp), %rdx
	addq	%rdi, %rdx
	movq	%r14, 32(%rsp)
	movq	%rax, 24(%rsp)
	movq	%r10, 16(%rsp)
	movq	%rcx, 8(%rsp)
	movq	%rdx, (%rsp)
	movq	$78, 40(%rsp)
	leaq	384(%rsp), %rsi
	movl	$78, %edx
	movq	%rbx, %rdi
	movq	%r11, %rcx
	callq	"tuners::set_frequency"
	movaps	304(%rsp), %xmm0
	movq	296(%rsp), %rcx
	jmp	.Lpasetone_BB26_58
.Lpasetone_BB26_48:
	movss	.Lpasetone_CPI26_2(%rip), %xmm0
	xorl	%edx, %edx
.Lpasetone_BB26_46:
	xorl	%ecx, %ecx
	movq	96(%rsp), %r12
.Lpasetone_BB26_59:
	xorl	%ebp, %ebp
	movl	$1, %esi
	jmp	.Lpasetone_BB26_60
.Lpasetone_BB26_45:
	xorl	%edx, %edx
	movss	.Lpasetone_CPI26_2(%rip), %xmm0
	jmp	.Lpasetone_BB26_46
.Lpasetone_BB26_55:
	movq	%r14, 16(%rsp)
	movq	%rax, 8(%rsp)
	movq	%r10, (%rsp)
	movq	$78, 24(%rsp)
	leaq	160(%rsp), %rbx
	leaq	384(%rsp), %rsi
	movl	$78, %edx
	movq	%rbx, %rdi
	movl	%r15d, %ecx
	callq	"tuners::set_bandwidth"
	movq	168(%rsp), %rcx
	movsd	176(%rsp), %xmm0
	jmp	.Lpasetone_BB26_58
.Lpasetone_BB26_53:
	movd	%r15d, %xmm0
	movq	%r14, 8(%rsp)
	movq	%rax, (%rsp)
	movq	$78, 16(%rsp)
	leaq	224(%rsp), %rbx
	leaq	384(%rsp), %rsi
	movl	$78, %edx
	movq	%rbx, %rdi
	movq	%r8, %rcx
	movq	%r9, %r8
	movq	%r10, %r9
	callq	"tuners::set_gain"
	movq	232(%rsp), %rcx
	movsd	240(%rsp), %xmm0
	jmp	.Lpasetone_BB26_58
.Lpasetone_BB26_54:
	movq	%r14, 16(%rsp)
	movq	%rax, 8(%rsp)
	movq	%r10, (%rsp)
	movq	$78, 24(%rsp)
	leaq	192(%rsp), %rbx
	leaq	384(%rsp), %rsi
	movl	$78, %edx
	movq	%rbx, %rdi
	movq	%r13, %rcx
	callq	"tuners::set_gain_by_index"
	movq	200(%rsp), %rcx
	movsd	208(%rsp), %xmm0
	jmp	.Lpasetone_BB26_58
.Lpasetone_BB26_52:
	xorl	%edi, %edi
	movzbl	85(%rsp), %edx
	movb	%dl, %dil
	shll	$12, %edi
	movq	608(%rsp), %rdx
	movq	600(%rsp), %r11
	addq	%rdi, %r11
	movq	%r14, 64(%rsp)
	movq	%rcx, 48(%rsp)
	movq	%rax, 40(%rsp)
	movq	%r10, 32(%rsp)
	movq	%r9, 24(%rsp)
	movq	%r8, 16(%rsp)
	movl	%r15d, 8(%rsp)
	movq	%rdx, (%rsp)
	movq	$78, 72(%rsp)
	movq	$29, 56(%rsp)
	leaq	256(%rsp), %rbx
	leaq	496(%rsp), %rsi
	leaq	384(%rsp), %rcx
	movl	$29, %edx
	movl	$78, %r8d
	movq	%rbx, %rdi
	movq	%r11, %r9
	callq	"drivers::set_sample_rate"
	movq	264(%rsp), %rcx
	movsd	272(%rsp), %xmm0
	jmp	.Lpasetone_BB26_58
.Lpasetone_BB26_56:
	leaq	472(%rsp), %rbx
	movl	$78, %edx
	movl	$29, %r8d
	movq	%rbx, %rdi
	movq	%r14, %rsi
	movl	%r15d, %r9d
	callq	"drivers::set_ppm"
	movq	480(%rsp), %rcx
	movsd	488(%rsp), %xmm0
	jmp	.Lpasetone_BB26_58
.Lpasetone_BB26_57:
	movq	%r14, 8(%rsp)
	movq	%rax, (%rsp)
	movq	$78, 16(%rsp)
	leaq	128(%rsp), %rbx
	leaq	384(%rsp), %rsi
	movl	$78, %edx
	movq	%rbx, %rdi
	movq	%r8, %rcx
	movq	%r9, %r8
	movq	%r10, %r9
	callq	"tuners::reload"
	movq	136(%rsp), %rcx
	movsd	144(%rsp), %xmm0
.Lpasetone_BB26_58:
	movq	(%rbx), %rdx
	movq	104(%rsp), %rax
	jmp	.Lpasetone_BB26_59
.Lpasetone_BB26_62:
	ud2
.Lpasetone_func_end26:
	.size	pasetone_feed, .Lpasetone_func_end26-pasetone_feed
	.cfi_endproc
	.section	.rodata.pasetone_feed,"a",@progbits
	.p2align	2, 0x0
.Lpasetone_JTI26_0:
	.long	.Lpasetone_BB26_31-.Lpasetone_JTI26_0
	.long	.Lpasetone_BB26_33-.Lpasetone_JTI26_0
	.long	.Lpasetone_BB26_34-.Lpasetone_JTI26_0
	.long	.Lpasetone_BB26_35-.Lpasetone_JTI26_0
	.long	.Lpasetone_BB26_37-.Lpasetone_JTI26_0
.Lpasetone_JTI26_1:
	.long	.Lpasetone_BB26_51-.Lpasetone_JTI26_1
	.long	.Lpasetone_BB26_52-.Lpasetone_JTI26_1
	.long	.Lpasetone_BB26_53-.Lpasetone_JTI26_1
	.long	.Lpasetone_BB26_54-.Lpasetone_JTI26_1
	.long	.Lpasetone_BB26_55-.Lpasetone_JTI26_1
	.long	.Lpasetone_BB26_56-.Lpasetone_JTI26_1
	.long	.Lpasetone_BB26_57-.Lpasetone_JTI26_1

	.section	.text.pasetone_get_gain,"ax",@progbits
	.globl	pasetone_get_gain
	.p2align	4
	.type	pasetone_get_gain,@function
pasetone_get_gain:
	.cfi_startproc
	pushq	%rbx
	.cfi_def_cfa_offset 16
	subq	$96, %rsp
	.cfi_def_cfa_offset 112
	.cfi_offset %rbx, -16
	movq	%rdi, %rbx
	xorl	%eax, %eax
	testq	%rsi, %rsi
	sete	%al
	shll	$12, %eax
	addq	%rax, %rsi
	movq	%rsp, %rdi
	callq	"records::decode_tuner"
	cmpb	$1, (%rsp)
	jne	.Lpasetone_BB27_3
	movd	76(%rsp), %xmm0
	movd	%xmm0, %ecx
	ucomiss	%xmm0, %xmm0
	movl	$2143289344, %eax
	cmovnpq	%rcx, %rax
	cmpl	$0, 68(%rsp)
	je	.Lpasetone_BB27_3
	xorl	%ecx, %ecx
	cmpl	$0, 64(%rsp)
	jne	.Lpasetone_BB27_4
.Lpasetone_BB27_3:
	movl	$1, %ecx
	xorl	%eax, %eax
.Lpasetone_BB27_4:
	movq	%rax, (%rbx)
	movq	$0, 8(%rbx)
	movl	%ecx, 16(%rbx)
	movl	$0, 20(%rbx)
	movq	%rbx, %rax
	addq	$96, %rsp
	.cfi_def_cfa_offset 16
	popq	%rbx
	.cfi_def_cfa_offset 8
	retq
.Lpasetone_func_end27:
	.size	pasetone_get_gain, .Lpasetone_func_end27-pasetone_get_gain
	.cfi_endproc

	.section	.rodata.cst16,"aM",@progbits,16
	.p2align	4, 0x0
.Lpasetone_CPI28_0:
	.long	0
	.long	9
	.long	14
	.long	27
.Lpasetone_CPI28_1:
	.long	37
	.long	77
	.long	87
	.long	125
.Lpasetone_CPI28_2:
	.long	144
	.long	157
	.long	166
	.long	197
.Lpasetone_CPI28_3:
	.long	207
	.long	229
	.long	254
	.long	280
.Lpasetone_CPI28_4:
	.long	297
	.long	328
	.long	338
	.long	364
.Lpasetone_CPI28_5:
	.long	372
	.long	386
	.long	402
	.long	421
.Lpasetone_CPI28_6:
	.long	434
	.long	439
	.long	445
	.long	480
	.section	.text.pasetone_get_gain_table,"ax",@progbits
	.globl	pasetone_get_gain_table
	.p2align	4
	.type	pasetone_get_gain_table,@function
pasetone_get_gain_table:
	.cfi_startproc
	pushq	%rbp
	.cfi_def_cfa_offset 16
	pushq	%r15
	.cfi_def_cfa_offset 24
	pushq	%r14
	.cfi_def_cfa_offset 32
	pushq	%r12
	.cfi_def_cfa_offset 40
	pushq	%rbx
	.cfi_def_cfa_offset 48
	subq	$96, %rsp
	.cfi_def_cfa_offset 144
	.cfi_offset %rbx, -48
	.cfi_offset %r12, -40
	.cfi_offset %r14, -32
	.cfi_offset %r15, -24
	.cfi_offset %rbp, -16
	movq	%r8, %r15
	movq	%rcx, %r14
	movq	%rdi, %rbx
	xorl	%eax, %eax
	testq	%rsi, %rsi
	sete	%al
	shll	$12, %eax
	addq	%rax, %rsi
	xorl	%r12d, %r12d
	testq	%rcx, %rcx
	sete	%bpl
	movq	%rsp, %rdi
	callq	"records::decode_tuner"
	movl	$1, %eax
	cmpb	$1, (%rsp)
	jne	.Lpasetone_BB28_5
	cmpl	$0, 64(%rsp)
	je	.Lpasetone_BB28_5
	cmpl	$0, 68(%rsp)
	je	.Lpasetone_BB28_5
	movl	$8, %eax
	cmpq	$116, %r15
	jb	.Lpasetone_BB28_5
	movb	%bpl, %r12b
	shll	$12, %r12d
	movaps	.Lpasetone_CPI28_0(%rip), %xmm0
	movups	%xmm0, (%r14,%r12)
	movaps	.Lpasetone_CPI28_1(%rip), %xmm0
	movups	%xmm0, 16(%r14,%r12)
	movaps	.Lpasetone_CPI28_2(%rip), %xmm0
	movups	%xmm0, 32(%r14,%r12)
	movaps	.Lpasetone_CPI28_3(%rip), %xmm0
	movups	%xmm0, 48(%r14,%r12)
	movaps	.Lpasetone_CPI28_4(%rip), %xmm0
	movups	%xmm0, 64(%r14,%r12)
	movaps	.Lpasetone_CPI28_5(%rip), %xmm0
	movups	%xmm0, 80(%r14,%r12)
	movaps	.Lpasetone_CPI28_6(%rip), %xmm0
	movups	%xmm0, 96(%r14,%r12)
	movl	$496, 112(%r14,%r12)
	xorl	%eax, %eax
.Lpasetone_BB28_5:
	xorps	%xmm0, %xmm0
	movups	%xmm0, (%rbx)
	movl	%eax, 16(%rbx)
	movl	$0, 20(%rbx)
	movq	%rbx, %rax
	addq	$96, %rsp
	.cfi_def_cfa_offset 48
	popq	%rbx
	.cfi_def_cfa_offset 40
	popq	%r12
	.cfi_def_cfa_offset 32
	popq	%r14
	.cfi_def_cfa_offset 24
	popq	%r15
	.cfi_def_cfa_offset 16
	popq	%rbp
	.cfi_def_cfa_offset 8
	retq
.Lpasetone_func_end28:
	.size	pasetone_get_gain_table, .Lpasetone_func_end28-pasetone_get_gain_table
	.cfi_endproc

	.section	.text.pasetone_get_if_freq,"ax",@progbits
	.globl	pasetone_get_if_freq
	.p2align	4
	.type	pasetone_get_if_freq,@function
pasetone_get_if_freq:
	.cfi_startproc
	pushq	%rbx
	.cfi_def_cfa_offset 16
	subq	$96, %rsp
	.cfi_def_cfa_offset 112
	.cfi_offset %rbx, -16
	movq	%rdi, %rbx
	xorl	%eax, %eax
	testq	%rsi, %rsi
	sete	%al
	shll	$12, %eax
	addq	%rax, %rsi
	movq	%rsp, %rdi
	callq	"records::decode_tuner"
	cmpb	$1, (%rsp)
	jne	.Lpasetone_BB29_4
	cmpl	$0, 68(%rsp)
	je	.Lpasetone_BB29_4
	cmpl	$0, 64(%rsp)
	je	.Lpasetone_BB29_4
	movq	80(%rsp), %rcx
	xorl	%eax, %eax
	jmp	.Lpasetone_BB29_5
.Lpasetone_BB29_4:
	movl	$1, %eax
	xorl	%ecx, %ecx
.Lpasetone_BB29_5:
	movq	%rcx, (%rbx)
	movq	$0, 8(%rbx)
	movl	%eax, 16(%rbx)
	movl	$0, 20(%rbx)
	movq	%rbx, %rax
	addq	$96, %rsp
	.cfi_def_cfa_offset 16
	popq	%rbx
	.cfi_def_cfa_offset 8
	retq
.Lpasetone_func_end29:
	.size	pasetone_get_if_freq, .Lpasetone_func_end29-pasetone_get_if_freq
	.cfi_endproc

	.section	.text.pasetone_if_freq_regs,"ax",@progbits
	.globl	pasetone_if_freq_regs
	.p2align	4
	.type	pasetone_if_freq_regs,@function
pasetone_if_freq_regs:
	.cfi_startproc
	pushq	%rbx
	.cfi_def_cfa_offset 16
	.cfi_offset %rbx, -16
	xorl	%ebx, %ebx
	testq	%rcx, %rcx
	sete	%r9b
	testl	%edx, %edx
	je	.Lpasetone_BB30_1
	movl	$8, %eax
	cmpq	$3, %r8
	jb	.Lpasetone_BB30_7
	movb	%r9b, %bl
	shll	$12, %ebx
	movl	%esi, %eax
	shlq	$22, %rax
	movl	%edx, %esi
	movabsq	$18014394214514688, %rdx
	testq	%rdx, %rax
	je	.Lpasetone_BB30_4
	xorl	%edx, %edx
	divq	%rsi
	jmp	.Lpasetone_BB30_6
.Lpasetone_BB30_1:
	movl	$4, %eax
	jmp	.Lpasetone_BB30_7
.Lpasetone_BB30_4:
	xorl	%edx, %edx
	divl	%esi
.Lpasetone_BB30_6:
	movl	%eax, %edx
	shrl	$16, %edx
	andb	$63, %dl
	movb	%dl, (%rcx,%rbx)
	movb	%ah, 1(%rcx,%rbx)
	movb	%al, 2(%rcx,%rbx)
	xorl	%eax, %eax
.Lpasetone_BB30_7:
	xorps	%xmm0, %xmm0
	movups	%xmm0, (%rdi)
	movl	%eax, 16(%rdi)
	movl	$0, 20(%rdi)
	movq	%rdi, %rax
	popq	%rbx
	.cfi_def_cfa_offset 8
	retq
.Lpasetone_func_end30:
	.size	pasetone_if_freq_regs, .Lpasetone_func_end30-pasetone_if_freq_regs
	.cfi_endproc

	.section	.text.pasetone_init_baseband,"ax",@progbits
	.globl	pasetone_init_baseband
	.p2align	4
	.type	pasetone_init_baseband,@function
pasetone_init_baseband:
	.cfi_startproc
	pushq	%rbx
	.cfi_def_cfa_offset 16
	subq	$32, %rsp
	.cfi_def_cfa_offset 48
	.cfi_offset %rbx, -16
	movq	%rdi, %rbx
	xorl	%eax, %eax
	testq	%rsi, %rsi
	sete	%al
	shll	$12, %eax
	addq	%rax, %rsi
	xorl	%eax, %eax
	testq	%rcx, %rcx
	sete	%al
	shll	$12, %eax
	addq	%rax, %rcx
	xorps	%xmm0, %xmm0
	movaps	%xmm0, (%rsp)
	movq	$0, 16(%rsp)
	movq	%rsp, %rdi
	callq	"demod::init_baseband"
	movzbl	(%rsp), %ecx
	movq	8(%rsp), %rdx
	movq	16(%rsp), %rax
	testl	%ecx, %ecx
	je	.Lpasetone_BB31_1
	cmpl	$2, %ecx
	jne	.Lpasetone_BB31_3
	movl	$11, %ecx
	xorl	%esi, %esi
	jmp	.Lpasetone_BB31_5
.Lpasetone_BB31_1:
	movq	%rdx, %rsi
	movq	%rcx, %rdx
	jmp	.Lpasetone_BB31_5
.Lpasetone_BB31_3:
	movzbl	1(%rsp), %ecx
	xorl	%esi, %esi
	xorl	%edx, %edx
.Lpasetone_BB31_5:
	movq	%rsi, (%rbx)
	movq	%rdx, 8(%rbx)
	movl	%ecx, 16(%rbx)
	movl	%eax, 20(%rbx)
	movq	%rbx, %rax
	addq	$32, %rsp
	.cfi_def_cfa_offset 16
	popq	%rbx
	.cfi_def_cfa_offset 8
	retq
.Lpasetone_func_end31:
	.size	pasetone_init_baseband, .Lpasetone_func_end31-pasetone_init_baseband
	.cfi_endproc

	.section	.rodata.cst16,"aM",@progbits,16
	.p2align	4, 0x0
.Lpasetone_CPI32_0:
	.byte	131
	.byte	48
	.byte	117
	.byte	192
	.byte	64
	.byte	214
	.byte	108
	.byte	245
	.byte	99
	.byte	117
	.byte	104
	.byte	108
	.byte	131
	.byte	128
	.byte	0
	.byte	15
	.section	.text.pasetone_initialize,"ax",@progbits
	.globl	pasetone_initialize
	.p2align	4
	.type	pasetone_initialize,@function
pasetone_initialize:
	.cfi_startproc
	pushq	%rbp
	.cfi_def_cfa_offset 16
	pushq	%r15
	.cfi_def_cfa_offset 24
	pushq	%r14
	.cfi_def_cfa_offset 32
	pushq	%r13
	.cfi_def_cfa_offset 40
	pushq	%r12
	.cfi_def_cfa_offset 48
	pushq	%rbx
	.cfi_def_cfa_offset 56
	subq	$696, %rsp
	.cfi_def_cfa_offset 752
	.cfi_offset %rbx, -56
	.cfi_offset %r12, -48
	.cfi_offset %r13, -40
	.cfi_offset %r14, -32
	.cfi_offset %r15, -24
	.cfi_offset %rbp, -16
	movq	%r8, 16(%rsp)
	movq	%rdi, %rbx
	movq	760(%rsp), %rbp
	xorl	%eax, %eax
	testq	%rsi, %rsi
	sete	%al
	shll	$12, %eax
	addq	%rax, %rsi
	xorl	%r14d, %r14d
	movq	%rcx, 48(%rsp)
	testq	%rcx, %rcx
	sete	%r15b
	xorl	%r13d, %r13d
	movq	%r9, 56(%rsp)
	testq	%r9, %r9
	sete	%r12b
	testq	%rbp, %rbp
	sete	15(%rsp)
	leaq	328(%rsp), %rdi
	callq	"records::decode_tuner"
	cmpb	$1, 328(%rsp)
	jne	.Lpasetone_BB32_1
	cmpq	$78, 768(%rsp)
	jb	.Lpasetone_BB32_4
	movzbl	336(%rsp), %eax
	movb	%al, 12(%rsp)
	movzbl	337(%rsp), %eax
	leaq	338(%rsp), %rcx
	movl	392(%rsp), %r10d
	movl	396(%rsp), %r11d
	movzbl	400(%rsp), %edx
	movb	%dl, 13(%rsp)
	movd	404(%rsp), %xmm2
	movq	408(%rsp), %rdx
	movq	%rdx, 40(%rsp)
	movzbl	416(%rsp), %edx
	movb	%dl, 14(%rsp)
	xorps	%xmm0, %xmm0
	movups	%xmm0, 123(%rsp)
	movaps	%xmm0, 112(%rsp)
	movaps	%xmm0, 80(%rsp)
	movups	%xmm0, 91(%rsp)
	testl	%r10d, %r10d
	sete	%sil
	testl	%r11d, %r11d
	sete	%dil
	movl	$1, %edx
	orb	%sil, %dil
	jne	.Lpasetone_BB32_8
	movl	$8, %edx
	cmpq	$312, 752(%rsp)
	jb	.Lpasetone_BB32_8
	movl	$9, %edx
	cmpq	$18, 16(%rsp)
	ja	.Lpasetone_BB32_9
.Lpasetone_BB32_8:
	movups	(%rcx), %xmm0
	movups	11(%rcx), %xmm1
	movups	%xmm1, 187(%rsp)
	movaps	%xmm0, 176(%rsp)
	movups	27(%rcx), %xmm0
	movups	38(%rcx), %xmm1
	movaps	%xmm0, 144(%rsp)
	movups	%xmm1, 155(%rsp)
	movb	$1, %dil
	xorl	%esi, %esi
	xorl	%ecx, %ecx
.Lpasetone_BB32_13:
	movups	187(%rsp), %xmm0
	movups	%xmm0, 123(%rsp)
	movaps	176(%rsp), %xmm0
	movaps	%xmm0, 112(%rsp)
	movaps	144(%rsp), %xmm0
	movaps	%xmm0, 80(%rsp)
	movups	155(%rsp), %xmm0
	movups	%xmm0, 91(%rsp)
	testb	%dil, %dil
	setne	%r8b
	testq	%rcx, %rcx
	sete	%r9b
	testb	%r9b, %r8b
	jne	.Lpasetone_BB32_15
	xorl	%r8d, %r8d
	movzbl	15(%rsp), %r9d
	movb	%r9b, %r8b
	shll	$12, %r8d
	addq	%r8, %rbp
	movzbl	14(%rsp), %r14d
	andb	$1, %r14b
	movd	%xmm2, %r8d
	ucomiss	%xmm2, %xmm2
	movl	$2143289344, %r9d
	cmovnpl	%r8d, %r9d
	movzbl	13(%rsp), %r8d
	andb	$1, %r8b
	movzbl	12(%rsp), %r15d
	movb	%r15b, (%rbp)
	movb	%al, 1(%rbp)
	movaps	112(%rsp), %xmm0
	movups	%xmm0, 2(%rbp)
	movups	123(%rsp), %xmm0
	movups	%xmm0, 13(%rbp)
	movl	%r10d, 29(%rbp)
	movl	%r11d, 33(%rbp)
	movb	%r8b, 37(%rbp)
	movl	%r9d, 38(%rbp)
	movq	40(%rsp), %rax
	movq	%rax, 42(%rbp)
	movb	%r14b, 50(%rbp)
	movaps	80(%rsp), %xmm0
	movups	%xmm0, 51(%rbp)
	movups	91(%rsp), %xmm0
	movups	%xmm0, 62(%rbp)
.Lpasetone_BB32_15:
	movzbl	%dil, %eax
	testb	%dil, %dil
	je	.Lpasetone_BB32_16
	cmpl	$2, %eax
	jne	.Lpasetone_BB32_18
	movl	$11, %eax
	xorl	%edi, %edi
	jmp	.Lpasetone_BB32_20
.Lpasetone_BB32_1:
	xorl	%edi, %edi
	movl	$1, %eax
	jmp	.Lpasetone_BB32_2
.Lpasetone_BB32_4:
	xorl	%edi, %edi
	movl	$8, %eax
.Lpasetone_BB32_2:
	xorl	%esi, %esi
	xorl	%ecx, %ecx
.Lpasetone_BB32_20:
	movq	%rdi, (%rbx)
	movq	%rsi, 8(%rbx)
	movl	%eax, 16(%rbx)
	movl	%ecx, 20(%rbx)
	movq	%rbx, %rax
	addq	$696, %rsp
	.cfi_def_cfa_offset 56
	popq	%rbx
	.cfi_def_cfa_offset 48
	popq	%r12
	.cfi_def_cfa_offset 40
	popq	%r13
	.cfi_def_cfa_offset 32
	popq	%r14
	.cfi_def_cfa_offset 24
	popq	%r15
	.cfi_def_cfa_offset 16
	popq	%rbp
	.cfi_def_cfa_offset 8
	retq
.Lpasetone_BB32_16:
	.cfi_def_cfa_offset 752
	movq	%rsi, %rdi
	movq	%rax, %rsi
	jmp	.Lpasetone_BB32_20
.Lpasetone_BB32_18:
	xorl	%edi, %edi
	xorl	%esi, %esi
	movl	%edx, %eax
	jmp	.Lpasetone_BB32_20
.Lpasetone_BB32_9:
	movd	%xmm2, 24(%rsp)
	movl	%r11d, 28(%rsp)
	movl	%r10d, 16(%rsp)
	movb	%r15b, %r14b
	shll	$12, %r14d
	movq	48(%rsp), %r15
	addq	%r14, %r15
	movb	%r12b, %r13b
	shll	$12, %r13d
	movq	56(%rsp), %r14
	addq	%r13, %r14
	movb	%al, 424(%rsp)
	movups	(%rcx), %xmm0
	movups	11(%rcx), %xmm1
	movups	%xmm0, 425(%rsp)
	movups	%xmm1, 436(%rsp)
	movups	27(%rcx), %xmm0
	movups	38(%rcx), %xmm1
	movups	%xmm0, 452(%rsp)
	movups	%xmm1, 463(%rsp)
	xorps	%xmm0, %xmm0
	movups	%xmm0, 479(%rsp)
	movups	%xmm0, 495(%rsp)
	movb	$0, 511(%rsp)
	movaps	%xmm0, 240(%rsp)
	movaps	%xmm0, 256(%rsp)
	movaps	%xmm0, 272(%rsp)
	movaps	%xmm0, 288(%rsp)
	movaps	%xmm0, 304(%rsp)
	movq	$0, 320(%rsp)
	movaps	%xmm0, 512(%rsp)
	movaps	%xmm0, 528(%rsp)
	movaps	%xmm0, 544(%rsp)
	movaps	%xmm0, 560(%rsp)
	movaps	%xmm0, 576(%rsp)
	movq	$0, 592(%rsp)
	movaps	.Lpasetone_CPI32_0(%rip), %xmm0
	movaps	%xmm0, 208(%rsp)
	movabsq	$6052944329686695936, %rax
	movq	%rax, 224(%rsp)
	movw	$19118, 232(%rsp)
	movb	$-64, 234(%rsp)
	leaq	608(%rsp), %r12
	leaq	424(%rsp), %rsi
	leaq	208(%rsp), %rdx
	movq	%r12, %rdi
	movq	%r15, %rcx
	movq	%r14, %r8
	callq	"writes::send_all"
	movabsq	$3658101258190874, %rax
	movq	%rax, 64(%rsp)
	movl	$1057035023, 72(%rsp)
	leaq	512(%rsp), %r13
	leaq	64(%rsp), %rdx
	movl	$4, %ecx
	movq	%r13, %rdi
	movq	%r12, %rsi
	movq	%r15, %r8
	movq	%r14, %r9
	callq	"chip::with_repeater"
	movl	$191889418, 32(%rsp)
	movw	$-4224, 36(%rsp)
	leaq	240(%rsp), %rdi
	leaq	32(%rsp), %rdx
	movl	$2, %ecx
	movq	%r13, %rsi
	movq	%r15, %r8
	movq	%r14, %r9
	callq	"chip::with_repeater"
	movzbl	240(%rsp), %eax
	movups	241(%rsp), %xmm0
	movaps	%xmm0, 176(%rsp)
	movups	252(%rsp), %xmm0
	movups	%xmm0, 187(%rsp)
	movups	268(%rsp), %xmm0
	movaps	%xmm0, 144(%rsp)
	movups	279(%rsp), %xmm0
	movups	%xmm0, 155(%rsp)
	movq	296(%rsp), %rcx
	xorl	%edx, %edx
	cmpb	$0, 304(%rsp)
	setne	%dil
	je	.Lpasetone_BB32_10
	movq	312(%rsp), %rsi
	jmp	.Lpasetone_BB32_12
.Lpasetone_BB32_10:
	xorl	%esi, %esi
.Lpasetone_BB32_12:
	movq	%rcx, %r8
	shlq	$4, %r8
	movl	%ecx, (%r14,%r8)
	movl	%r8d, 4(%r14,%r8)
	addb	%dil, %dil
	movl	16(%rsp), %r10d
	movl	28(%rsp), %r11d
	movd	24(%rsp), %xmm2
	jmp	.Lpasetone_BB32_13
.Lpasetone_func_end32:
	.size	pasetone_initialize, .Lpasetone_func_end32-pasetone_initialize
	.cfi_endproc

	.section	.text.pasetone_move_settings_1_to_2,"ax",@progbits
	.globl	pasetone_move_settings_1_to_2
	.p2align	4
	.type	pasetone_move_settings_1_to_2,@function
pasetone_move_settings_1_to_2:
	.cfi_startproc
	pushq	%rbp
	.cfi_def_cfa_offset 16
	pushq	%r15
	.cfi_def_cfa_offset 24
	pushq	%r14
	.cfi_def_cfa_offset 32
	pushq	%rbx
	.cfi_def_cfa_offset 40
	.cfi_offset %rbx, -40
	.cfi_offset %r14, -32
	.cfi_offset %r15, -24
	.cfi_offset %rbp, -16
	movq	%rdi, %rax
	xorl	%r10d, %r10d
	testq	%rsi, %rsi
	sete	%bl
	xorl	%r9d, %r9d
	testq	%rcx, %rcx
	sete	%r11b
	movl	$17, %edi
	cmpq	$4, %rdx
	jb	.Lpasetone_BB33_10
	movb	%bl, %r10b
	shll	$12, %r10d
	addq	%r10, %rsi
	cmpb	$1, -4(%rsi,%rdx)
	jne	.Lpasetone_BB33_9
	leaq	-4(%rdx), %rbx
	xorl	%r10d, %r10d
	cmpq	$19, %rbx
	jb	.Lpasetone_BB33_11
	cmpw	$19, -2(%rsi,%rdx)
	jne	.Lpasetone_BB33_11
	cmpb	$0, -3(%rsi,%rdx)
	jne	.Lpasetone_BB33_11
	movzbl	-23(%rsi,%rdx), %ebx
	movzbl	-22(%rsi,%rdx), %ebp
	movzbl	-5(%rsi,%rdx), %r10d
	movl	%ebp, %r14d
	orb	%bl, %r14b
	cmpb	$2, %r14b
	setae	%r14b
	cmpb	$29, %r10b
	setae	%r15b
	orb	%r14b, %r15b
	jne	.Lpasetone_BB33_10
	xorl	%edi, %edi
	cmpq	$27, %r8
	jae	.Lpasetone_BB33_13
	movl	$8, %edi
	jmp	.Lpasetone_BB33_10
.Lpasetone_BB33_9:
	movl	$16, %edi
.Lpasetone_BB33_10:
	xorl	%r10d, %r10d
.Lpasetone_BB33_11:
	movq	%r10, (%rax)
	movq	$0, 8(%rax)
	movl	%edi, 16(%rax)
	movl	$0, 20(%rax)
	popq	%rbx
	.cfi_def_cfa_offset 32
	popq	%r14
	.cfi_def_cfa_offset 24
	popq	%r15
	.cfi_def_cfa_offset 16
	popq	%rbp
	.cfi_def_cfa_offset 8
	retq
.Lpasetone_BB33_13:
	.cfi_def_cfa_offset 40
	movb	%r11b, %r9b
	shll	$12, %r9d
	movups	-21(%rsi,%rdx), %xmm0
	movb	%bl, (%rcx,%r9)
	movb	%bpl, 1(%rcx,%r9)
	movups	%xmm0, 2(%rcx,%r9)
	movb	%r10b, 18(%rcx,%r9)
	movabsq	$6473933056579680, %rdx
	movq	%rdx, 19(%rcx,%r9)
	movl	$27, %r10d
	jmp	.Lpasetone_BB33_11
.Lpasetone_func_end33:
	.size	pasetone_move_settings_1_to_2, .Lpasetone_func_end33-pasetone_move_settings_1_to_2
	.cfi_endproc

	.section	.text.pasetone_move_settings_2_to_1,"ax",@progbits
	.globl	pasetone_move_settings_2_to_1
	.p2align	4
	.type	pasetone_move_settings_2_to_1,@function
pasetone_move_settings_2_to_1:
	.cfi_startproc
	pushq	%rbp
	.cfi_def_cfa_offset 16
	pushq	%r15
	.cfi_def_cfa_offset 24
	pushq	%r14
	.cfi_def_cfa_offset 32
	pushq	%rbx
	.cfi_def_cfa_offset 40
	.cfi_offset %rbx, -40
	.cfi_offset %r14, -32
	.cfi_offset %r15, -24
	.cfi_offset %rbp, -16
	movq	%rdi, %rax
	xorl	%r10d, %r10d
	testq	%rsi, %rsi
	sete	%bl
	xorl	%r9d, %r9d
	testq	%rcx, %rcx
	sete	%r11b
	movl	$17, %edi
	cmpq	$4, %rdx
	jb	.Lpasetone_BB34_11
	movb	%bl, %r10b
	shll	$12, %r10d
	addq	%r10, %rsi
	cmpb	$2, -4(%rsi,%rdx)
	jne	.Lpasetone_BB34_10
	leaq	-4(%rdx), %rbx
	xorl	%r10d, %r10d
	cmpq	$23, %rbx
	jb	.Lpasetone_BB34_12
	cmpw	$23, -2(%rsi,%rdx)
	jne	.Lpasetone_BB34_12
	cmpb	$0, -3(%rsi,%rdx)
	jne	.Lpasetone_BB34_12
	movzbl	-27(%rsi,%rdx), %ebx
	movzbl	-26(%rsi,%rdx), %ebp
	movzbl	-9(%rsi,%rdx), %r10d
	movl	%ebp, %r14d
	orb	%bl, %r14b
	cmpb	$2, %r14b
	setae	%r14b
	cmpb	$29, %r10b
	setae	%r15b
	orb	%r14b, %r15b
	jne	.Lpasetone_BB34_11
	cmpl	$2300000, -8(%rsi,%rdx)
	jne	.Lpasetone_BB34_14
	xorl	%edi, %edi
	cmpq	$23, %r8
	jae	.Lpasetone_BB34_15
	movl	$8, %edi
	jmp	.Lpasetone_BB34_11
.Lpasetone_BB34_10:
	movl	$16, %edi
.Lpasetone_BB34_11:
	xorl	%r10d, %r10d
.Lpasetone_BB34_12:
	movq	%r10, (%rax)
	movq	$0, 8(%rax)
	movl	%edi, 16(%rax)
	movl	$0, 20(%rax)
	popq	%rbx
	.cfi_def_cfa_offset 32
	popq	%r14
	.cfi_def_cfa_offset 24
	popq	%r15
	.cfi_def_cfa_offset 16
	popq	%rbp
	.cfi_def_cfa_offset 8
	retq
.Lpasetone_BB34_14:
	.cfi_def_cfa_offset 40
	movl	$18, %edi
	jmp	.Lpasetone_BB34_11
.Lpasetone_BB34_15:
	movb	%r11b, %r9b
	shll	$12, %r9d
	movq	-17(%rsi,%rdx), %r8
	movsd	-25(%rsi,%rdx), %xmm0
	movb	%bl, (%rcx,%r9)
	movb	%bpl, 1(%rcx,%r9)
	movlps	%xmm0, 2(%rcx,%r9)
	movq	%r8, 10(%rcx,%r9)
	movb	%r10b, 18(%rcx,%r9)
	movl	$1245185, 19(%rcx,%r9)
	movl	$23, %r10d
	jmp	.Lpasetone_BB34_12
.Lpasetone_func_end34:
	.size	pasetone_move_settings_2_to_1, .Lpasetone_func_end34-pasetone_move_settings_2_to_1
	.cfi_endproc

	.section	.text.pasetone_oscillator,"ax",@progbits
	.globl	pasetone_oscillator
	.p2align	4
	.type	pasetone_oscillator,@function
pasetone_oscillator:
	.cfi_startproc
	pushq	%rbx
	.cfi_def_cfa_offset 16
	subq	$96, %rsp
	.cfi_def_cfa_offset 112
	.cfi_offset %rbx, -16
	movq	%rdi, %rbx
	xorl	%eax, %eax
	testq	%rsi, %rsi
	sete	%al
	shll	$12, %eax
	addq	%rax, %rsi
	movq	%rsp, %rdi
	callq	"records::decode_tuner"
	movl	$1, %edx
	cmpb	$1, (%rsp)
	jne	.Lpasetone_BB35_5
	movl	68(%rsp), %eax
	testq	%rax, %rax
	je	.Lpasetone_BB35_5
	cmpl	$0, 64(%rsp)
	je	.Lpasetone_BB35_5
	movzbl	48(%rsp), %ecx
	orb	50(%rsp), %cl
	movzbl	53(%rsp), %esi
	orb	52(%rsp), %sil
	orb	%cl, %sil
	orb	54(%rsp), %sil
	movl	$20, %edx
	testb	$1, %sil
	jne	.Lpasetone_BB35_5
	movzbl	21(%rsp), %ecx
	movzbl	25(%rsp), %edi
	movzwl	26(%rsp), %esi
	shrl	$5, %ecx
	leal	(,%rdi,4), %edx
	movzbl	%dl, %edx
	shrl	$6, %edi
	orl	%edx, %edi
	shll	$17, %edi
	addl	$1703936, %edi
	addl	%esi, %esi
	xorl	%edx, %edx
	testb	$8, 23(%rsp)
	cmovneq	%rdx, %rsi
	orq	%rdi, %rsi
	imulq	%rax, %rsi
	addb	$17, %cl
	shrq	%cl, %rsi
	jmp	.Lpasetone_BB35_6
.Lpasetone_BB35_5:
	xorl	%esi, %esi
.Lpasetone_BB35_6:
	movq	%rsi, (%rbx)
	movq	$0, 8(%rbx)
	movl	%edx, 16(%rbx)
	movl	$0, 20(%rbx)
	movq	%rbx, %rax
	addq	$96, %rsp
	.cfi_def_cfa_offset 16
	popq	%rbx
	.cfi_def_cfa_offset 8
	retq
.Lpasetone_func_end35:
	.size	pasetone_oscillator, .Lpasetone_func_end35-pasetone_oscillator
	.cfi_endproc

	.section	.rodata.cst16,"aM",@progbits,16
	.p2align	4, 0x0
.Lpasetone_CPI36_0:
	.long	4294967168
	.long	4294967168
	.long	4294967168
	.long	4294967168
.Lpasetone_CPI36_1:
	.long	4294967039
	.long	4294967039
	.long	4294967039
	.long	4294967039
.Lpasetone_CPI36_2:
	.long	4294965248
	.long	4294965248
	.long	4294965248
	.long	4294965248
.Lpasetone_CPI36_3:
	.long	4294963199
	.long	4294963199
	.long	4294963199
	.long	4294963199
.Lpasetone_CPI36_4:
	.long	4095
	.long	4095
	.long	4095
	.long	4095
.Lpasetone_CPI36_5:
	.byte	255
	.byte	0
	.byte	0
	.byte	0
	.byte	255
	.byte	0
	.byte	0
	.byte	0
	.byte	255
	.byte	0
	.byte	0
	.byte	0
	.byte	255
	.byte	0
	.byte	0
	.byte	0
	.section	.text.pasetone_pack_fir,"ax",@progbits
	.globl	pasetone_pack_fir
	.p2align	4
	.type	pasetone_pack_fir,@function
pasetone_pack_fir:
	.cfi_startproc
	pushq	%rbp
	.cfi_def_cfa_offset 16
	pushq	%r15
	.cfi_def_cfa_offset 24
	pushq	%r14
	.cfi_def_cfa_offset 32
	pushq	%rbx
	.cfi_def_cfa_offset 40
	.cfi_offset %rbx, -40
	.cfi_offset %r14, -32
	.cfi_offset %r15, -24
	.cfi_offset %rbp, -16
	movq	%rdi, %rax
	xorl	%edi, %edi
	testq	%rcx, %rcx
	sete	%bl
	movl	$7, %r9d
	cmpq	$64, %rdx
	jne	.Lpasetone_BB36_12
	xorl	%r11d, %r11d
	testq	%rsi, %rsi
	sete	%r11b
	shll	$12, %r11d
	movl	(%rsi,%r11), %r10d
	movl	12(%rsi,%r11), %edx
	movups	16(%rsi,%r11), %xmm2
	movdqu	32(%rsi,%r11), %xmm1
	movsbl	%r10b, %ebp
	cmpl	%r10d, %ebp
	jne	.Lpasetone_BB36_2
	movsd	4(%rsi,%r11), %xmm0
	shufps	$36, %xmm2, %xmm0
	pinsrd	$2, %edx, %xmm0
	paddd	.Lpasetone_CPI36_0(%rip), %xmm0
	movdqa	.Lpasetone_CPI36_1(%rip), %xmm3
	pminud	%xmm0, %xmm3
	pcmpeqd	%xmm0, %xmm3
	movmskps	%xmm3, %r14d
	xorl	%ebp, %ebp
	testl	%r14d, %r14d
	jne	.Lpasetone_BB36_6
	extractps	$1, %xmm2, %r14d
	extractps	$2, %xmm2, %r15d
	subl	$-128, %r14d
	subl	$-128, %r15d
	orl	%r14d, %r15d
	cmpl	$255, %r15d
	ja	.Lpasetone_BB36_6
	extractps	$3, %xmm2, %ebp
	movsbl	%bpl, %r14d
	cmpl	%ebp, %r14d
	sete	%bpl
	jmp	.Lpasetone_BB36_6
.Lpasetone_BB36_2:
	xorl	%ebp, %ebp
.Lpasetone_BB36_6:
	movdqa	.Lpasetone_CPI36_2(%rip), %xmm0
	paddd	%xmm1, %xmm0
	movdqa	.Lpasetone_CPI36_3(%rip), %xmm3
	pminud	%xmm0, %xmm3
	pcmpeqd	%xmm0, %xmm3
	movmskps	%xmm3, %r14d
	testl	%r14d, %r14d
	jne	.Lpasetone_BB36_12
	movl	52(%rsi,%r11), %r14d
	movl	48(%rsi,%r11), %r15d
	addl	$2048, %r15d
	addl	$2048, %r14d
	orl	%r15d, %r14d
	cmpl	$4095, %r14d
	ja	.Lpasetone_BB36_12
	movl	56(%rsi,%r11), %r14d
	addl	$2048, %r14d
	cmpl	$4095, %r14d
	ja	.Lpasetone_BB36_12
	movl	60(%rsi,%r11), %r14d
	addl	$2048, %r14d
	cmpl	$4096, %r14d
	setae	%r14b
	xorb	$1, %bpl
	orb	%r14b, %bpl
	jne	.Lpasetone_BB36_12
	movl	$8, %r9d
	cmpq	$20, %r8
	jb	.Lpasetone_BB36_12
	movb	%bl, %dil
	shll	$12, %edi
	movl	4(%rsi,%r11), %r8d
	movl	8(%rsi,%r11), %r9d
	movups	48(%rsi,%r11), %xmm4
	movdqa	%xmm1, %xmm0
	shufps	$221, %xmm4, %xmm0
	movaps	%xmm0, %xmm3
	psrad	$31, %xmm3
	shufps	$136, %xmm4, %xmm1
	movaps	%xmm1, %xmm4
	psrad	$31, %xmm4
	movb	%r10b, (%rcx,%rdi)
	movb	%r8b, 1(%rcx,%rdi)
	movb	%r9b, 2(%rcx,%rdi)
	movb	%dl, 3(%rcx,%rdi)
	pxor	%xmm0, %xmm3
	movdqa	.Lpasetone_CPI36_4(%rip), %xmm5
	pand	%xmm5, %xmm3
	movdqa	%xmm3, %xmm6
	pxor	%xmm5, %xmm6
	blendvps	%xmm0, %xmm6, %xmm3
	movaps	%xmm3, %xmm6
	psrld	$8, %xmm6
	pxor	%xmm1, %xmm4
	pand	%xmm5, %xmm4
	pxor	%xmm4, %xmm5
	movaps	%xmm1, %xmm0
	blendvps	%xmm0, %xmm5, %xmm4
	movaps	%xmm4, %xmm0
	pslld	$4, %xmm0
	por	%xmm6, %xmm0
	psrld	$4, %xmm4
	movdqa	%xmm4, %xmm1
	punpckldq	%xmm0, %xmm1
	pshufd	$164, %xmm1, %xmm1
	pshufd	$68, %xmm3, %xmm5
	pblendw	$207, %xmm1, %xmm5
	pshufd	$165, %xmm0, %xmm1
	pblendw	$48, %xmm4, %xmm1
	pblendw	$12, %xmm3, %xmm1
	shufps	$255, %xmm0, %xmm4
	pshufd	$238, %xmm3, %xmm0
	pblendw	$60, %xmm4, %xmm0
	movdqa	.Lpasetone_CPI36_5(%rip), %xmm3
	pand	%xmm3, %xmm0
	pand	%xmm3, %xmm1
	packusdw	%xmm0, %xmm1
	pand	%xmm3, %xmm5
	andps	%xmm3, %xmm2
	packusdw	%xmm5, %xmm2
	packuswb	%xmm1, %xmm2
	movdqu	%xmm2, 4(%rcx,%rdi)
	xorl	%r9d, %r9d
.Lpasetone_BB36_12:
	pxor	%xmm0, %xmm0
	movdqu	%xmm0, (%rax)
	movl	%r9d, 16(%rax)
	movl	$0, 20(%rax)
	popq	%rbx
	.cfi_def_cfa_offset 32
	popq	%r14
	.cfi_def_cfa_offset 24
	popq	%r15
	.cfi_def_cfa_offset 16
	popq	%rbp
	.cfi_def_cfa_offset 8
	retq
.Lpasetone_func_end36:
	.size	pasetone_pack_fir, .Lpasetone_func_end36-pasetone_pack_fir
	.cfi_endproc

	.section	.text.pasetone_parting,"ax",@progbits
	.globl	pasetone_parting
	.p2align	4
	.type	pasetone_parting,@function
pasetone_parting:
	.cfi_startproc
	pushq	%rbp
	.cfi_def_cfa_offset 16
	pushq	%r15
	.cfi_def_cfa_offset 24
	pushq	%r14
	.cfi_def_cfa_offset 32
	pushq	%r13
	.cfi_def_cfa_offset 40
	pushq	%r12
	.cfi_def_cfa_offset 48
	pushq	%rbx
	.cfi_def_cfa_offset 56
	subq	$56, %rsp
	.cfi_def_cfa_offset 112
	.cfi_offset %rbx, -56
	.cfi_offset %r12, -48
	.cfi_offset %r13, -40
	.cfi_offset %r14, -32
	.cfi_offset %r15, -24
	.cfi_offset %rbp, -16
	movq	%r8, %r12
	movq	%rcx, %r14
	movq	%rdi, %rbx
	xorl	%r15d, %r15d
	testq	%rsi, %rsi
	sete	%r15b
	shll	$12, %r15d
	addq	%rsi, %r15
	xorl	%ebp, %ebp
	testq	%rcx, %rcx
	sete	%r13b
	xorps	%xmm0, %xmm0
	movaps	%xmm0, 32(%rsp)
	movq	$0, 48(%rsp)
	movaps	%xmm0, (%rsp)
	movq	$0, 16(%rsp)
	leaq	32(%rsp), %rdi
	movq	%r15, %rsi
	callq	"transcript::read_section"
	movl	$12, %r8d
	cmpb	$1, 32(%rsp)
	jne	.Lpasetone_BB37_1
	movb	%r13b, %bpl
	shll	$12, %ebp
	addq	%rbp, %r14
	movq	40(%rsp), %r13
	movq	48(%rsp), %rbp
	movq	%rsp, %rdi
	movq	%r14, %rsi
	movq	%r12, %rdx
	callq	"transcript::read_section"
	cmpb	$1, (%rsp)
	jne	.Lpasetone_BB37_3
	movq	8(%rsp), %rax
	movq	16(%rsp), %rcx
	cmpq	%rbp, %rcx
	movq	%rbp, %rsi
	cmovbq	%rcx, %rsi
	xorl	%r8d, %r8d
	testq	%rsi, %rsi
	je	.Lpasetone_BB37_5
	addq	%r13, %r15
	addq	%rax, %r14
	movl	$8, %edi
	xorl	%edx, %edx
	.p2align	4
.Lpasetone_BB37_7:
	movzbl	-8(%r15,%rdi), %r11d
	cmpb	$3, %r11b
	sete	%r8b
	cmpb	$8, %r11b
	sete	%r9b
	movq	(%r15,%rdi), %r10
	cmpq	(%r14,%rdi), %r10
	sete	%r10b
	cmpb	-8(%r14,%rdi), %r11b
	jne	.Lpasetone_BB37_14
	movzbl	-6(%r14,%rdi), %r11d
	cmpb	%r11b, -6(%r15,%rdi)
	jne	.Lpasetone_BB37_14
	movzbl	-5(%r14,%rdi), %r11d
	cmpb	%r11b, -5(%r15,%rdi)
	jne	.Lpasetone_BB37_14
	movzwl	-4(%r14,%rdi), %r11d
	cmpw	%r11w, -4(%r15,%rdi)
	jne	.Lpasetone_BB37_14
	orb	%r9b, %r8b
	orb	%r10b, %r8b
	je	.Lpasetone_BB37_14
	incq	%rdx
	addq	$16, %rdi
	cmpq	%rdx, %rsi
	jne	.Lpasetone_BB37_7
	movq	%rsi, %rdx
.Lpasetone_BB37_14:
	xorl	%r8d, %r8d
	jmp	.Lpasetone_BB37_15
.Lpasetone_BB37_1:
	xorl	%eax, %eax
	xorl	%ecx, %ecx
	xorl	%edx, %edx
	xorl	%esi, %esi
	jmp	.Lpasetone_BB37_16
.Lpasetone_BB37_3:
	xorl	%eax, %eax
	xorl	%ecx, %ecx
	xorl	%edx, %edx
	xorl	%esi, %esi
	movl	$12, %r8d
	jmp	.Lpasetone_BB37_16
.Lpasetone_BB37_5:
	xorl	%edx, %edx
.Lpasetone_BB37_15:
	cmpq	%rdx, %rcx
	setbe	%sil
	cmpq	%rbp, %rdx
	setb	%dil
	andb	%sil, %dil
	movq	%rdx, %rsi
	shlq	$4, %rsi
	testb	%dil, %dil
	cmovneq	%r13, %rax
	cmovneq	%rbp, %rcx
	addq	%rsi, %rax
	movzbl	%dil, %edi
	movl	$2, %esi
	subl	%edi, %esi
	subq	%rdx, %rcx
.Lpasetone_BB37_16:
	movq	%rax, (%rbx)
	movq	%rcx, 8(%rbx)
	movq	%rdx, 16(%rbx)
	movl	%esi, 24(%rbx)
	movl	%r8d, 28(%rbx)
	movq	%rbx, %rax
	addq	$56, %rsp
	.cfi_def_cfa_offset 56
	popq	%rbx
	.cfi_def_cfa_offset 48
	popq	%r12
	.cfi_def_cfa_offset 40
	popq	%r13
	.cfi_def_cfa_offset 32
	popq	%r14
	.cfi_def_cfa_offset 24
	popq	%r15
	.cfi_def_cfa_offset 16
	popq	%rbp
	.cfi_def_cfa_offset 8
	retq
.Lpasetone_func_end37:
	.size	pasetone_parting, .Lpasetone_func_end37-pasetone_parting
	.cfi_endproc

	.section	.text.pasetone_plan_by_table,"ax",@progbits
	.globl	pasetone_plan_by_table
	.p2align	4
	.type	pasetone_plan_by_table,@function
pasetone_plan_by_table:
	.cfi_startproc
	pushq	%rbp
	.cfi_def_cfa_offset 16
	pushq	%r15
	.cfi_def_cfa_offset 24
	pushq	%r14
	.cfi_def_cfa_offset 32
	pushq	%r12
	.cfi_def_cfa_offset 40
	pushq	%rbx
	.cfi_def_cfa_offset 48
	subq	$32, %rsp
	.cfi_def_cfa_offset 80
	.cfi_offset %rbx, -48
	.cfi_offset %r12, -40
	.cfi_offset %r14, -32
	.cfi_offset %r15, -24
	.cfi_offset %rbp, -16
	movq	%r9, %r15
	movq	%r8, %r14
	movq	%rdi, %rbx
	xorl	%eax, %eax
	testq	%rsi, %rsi
	sete	%al
	shll	$12, %eax
	addq	%rax, %rsi
	xorl	%r12d, %r12d
	testq	%r8, %r8
	sete	%bpl
	xorps	%xmm0, %xmm0
	movaps	%xmm0, (%rsp)
	movq	$0, 16(%rsp)
	movq	%rsp, %rdi
	callq	"bands::plan_by_table"
	movzbl	(%rsp), %ecx
	cmpb	$1, 17(%rsp)
	movzbl	18(%rsp), %edx
	movl	$3, %eax
	cmovel	%edx, %eax
	testb	%cl, %cl
	jne	.Lpasetone_BB38_3
	movb	$8, %cl
	cmpq	$3, %r15
	jae	.Lpasetone_BB38_2
.Lpasetone_BB38_3:
	movzbl	%cl, %eax
	xorl	%ecx, %ecx
.Lpasetone_BB38_4:
	movq	%rcx, (%rbx)
	movq	$0, 8(%rbx)
	movl	%eax, 16(%rbx)
	movl	$0, 20(%rbx)
	movq	%rbx, %rax
	addq	$32, %rsp
	.cfi_def_cfa_offset 48
	popq	%rbx
	.cfi_def_cfa_offset 40
	popq	%r12
	.cfi_def_cfa_offset 32
	popq	%r14
	.cfi_def_cfa_offset 24
	popq	%r15
	.cfi_def_cfa_offset 16
	popq	%rbp
	.cfi_def_cfa_offset 8
	retq
.Lpasetone_BB38_2:
	.cfi_def_cfa_offset 80
	movb	%bpl, %r12b
	shll	$12, %r12d
	movq	8(%rsp), %rcx
	movzbl	16(%rsp), %edx
	movzbl	19(%rsp), %esi
	andb	$1, %dl
	andb	$1, %sil
	movb	%dl, (%r14,%r12)
	movb	%al, 1(%r14,%r12)
	movb	%sil, 2(%r14,%r12)
	xorl	%eax, %eax
	jmp	.Lpasetone_BB38_4
.Lpasetone_func_end38:
	.size	pasetone_plan_by_table, .Lpasetone_func_end38-pasetone_plan_by_table
	.cfi_endproc

	.section	.text.pasetone_plan_pll,"ax",@progbits
	.globl	pasetone_plan_pll
	.p2align	4
	.type	pasetone_plan_pll,@function
pasetone_plan_pll:
	.cfi_startproc
	pushq	%rbp
	.cfi_def_cfa_offset 16
	pushq	%r15
	.cfi_def_cfa_offset 24
	pushq	%r14
	.cfi_def_cfa_offset 32
	pushq	%r13
	.cfi_def_cfa_offset 40
	pushq	%r12
	.cfi_def_cfa_offset 48
	pushq	%rbx
	.cfi_def_cfa_offset 56
	subq	$56, %rsp
	.cfi_def_cfa_offset 112
	.cfi_offset %rbx, -56
	.cfi_offset %r12, -48
	.cfi_offset %r13, -40
	.cfi_offset %r14, -32
	.cfi_offset %r15, -24
	.cfi_offset %rbp, -16
	movq	%r9, %r15
	movq	%r8, %r14
	movl	%ecx, %ebp
	movq	%rsi, %r12
	movq	%rdi, %rbx
	xorl	%r13d, %r13d
	testq	%r8, %r8
	sete	7(%rsp)
	xorl	%esi, %esi
	testq	%r12, %r12
	setne	%sil
	leaq	8(%rsp), %rdi
	callq	"pll::plan_pll"
	movzbl	8(%rsp), %r8d
	cmpb	$1, %r8b
	je	.Lpasetone_BB39_2
	xorl	%ecx, %ecx
	xorl	%edi, %edi
	xorl	%esi, %esi
	xorl	%edx, %edx
	xorl	%eax, %eax
	movl	$1, %r9d
	cmpq	$1, %r12
	jbe	.Lpasetone_BB39_4
	jmp	.Lpasetone_BB39_6
.Lpasetone_BB39_2:
	movq	48(%rsp), %rax
	movzwl	40(%rsp), %edx
	movzbl	26(%rsp), %esi
	movzbl	16(%rsp), %ecx
	movzbl	25(%rsp), %edi
	movl	$1, %r9d
	cmpq	$1, %r12
	ja	.Lpasetone_BB39_6
.Lpasetone_BB39_4:
	cmpb	$1, %r8b
	setne	%r10b
	xorl	%r8d, %r8d
	testl	%ebp, %ebp
	sete	%r9b
	orb	%r9b, %r10b
	je	.Lpasetone_BB39_7
	movb	%r9b, %r8b
	leal	2(,%r8,2), %r9d
	jmp	.Lpasetone_BB39_6
.Lpasetone_BB39_7:
	movl	$8, %r9d
	cmpq	$5, %r15
	jae	.Lpasetone_BB39_8
.Lpasetone_BB39_6:
	xorl	%eax, %eax
.Lpasetone_BB39_9:
	movq	%rax, (%rbx)
	movq	$0, 8(%rbx)
	movl	%r9d, 16(%rbx)
	movl	$0, 20(%rbx)
	movq	%rbx, %rax
	addq	$56, %rsp
	.cfi_def_cfa_offset 56
	popq	%rbx
	.cfi_def_cfa_offset 48
	popq	%r12
	.cfi_def_cfa_offset 40
	popq	%r13
	.cfi_def_cfa_offset 32
	popq	%r14
	.cfi_def_cfa_offset 24
	popq	%r15
	.cfi_def_cfa_offset 16
	popq	%rbp
	.cfi_def_cfa_offset 8
	retq
.Lpasetone_BB39_8:
	.cfi_def_cfa_offset 112
	movzbl	7(%rsp), %r8d
	movb	%r8b, %r13b
	shll	$12, %r13d
	movb	%cl, (%r14,%r13)
	movb	%dil, 1(%r14,%r13)
	movb	%sil, 2(%r14,%r13)
	movw	%dx, 3(%r14,%r13)
	xorl	%r9d, %r9d
	jmp	.Lpasetone_BB39_9
.Lpasetone_func_end39:
	.size	pasetone_plan_pll, .Lpasetone_func_end39-pasetone_plan_pll
	.cfi_endproc

	.section	.text.pasetone_plan_pll_by_worksheet,"ax",@progbits
	.globl	pasetone_plan_pll_by_worksheet
	.p2align	4
	.type	pasetone_plan_pll_by_worksheet,@function
pasetone_plan_pll_by_worksheet:
	.cfi_startproc
	pushq	%rbp
	.cfi_def_cfa_offset 16
	pushq	%r15
	.cfi_def_cfa_offset 24
	pushq	%r14
	.cfi_def_cfa_offset 32
	pushq	%r13
	.cfi_def_cfa_offset 40
	pushq	%r12
	.cfi_def_cfa_offset 48
	pushq	%rbx
	.cfi_def_cfa_offset 56
	.cfi_offset %rbx, -56
	.cfi_offset %r12, -48
	.cfi_offset %r13, -40
	.cfi_offset %r14, -32
	.cfi_offset %r15, -24
	.cfi_offset %rbp, -16
	xorl	%r14d, %r14d
	testq	%r8, %r8
	sete	%r10b
	testl	%ecx, %ecx
	je	.Lpasetone_BB40_4
	leaq	-1800000000(%rdx), %rax
	xorl	%r11d, %r11d
	cmpq	$-915000000, %rax
	setae	%r11b
	addl	%r11d, %r11d
	leaq	-885000000(%rdx), %rax
	cmpq	$-442500000, %rax
	movl	$4, %eax
	cmovbq	%r11, %rax
	leaq	-442500000(%rdx), %r11
	cmpq	$-221250000, %r11
	movl	$8, %r11d
	cmovbq	%rax, %r11
	leaq	-221250000(%rdx), %rax
	cmpq	$-110625000, %rax
	movl	$16, %eax
	cmovbq	%r11, %rax
	leaq	-110625000(%rdx), %r11
	cmpq	$-55312500, %r11
	movl	$32, %r11d
	cmovbq	%rax, %r11
	leaq	-55312500(%rdx), %rax
	cmpq	$-27656250, %rax
	movl	$64, %ebx
	cmovbq	%r11, %rbx
	testq	%rbx, %rbx
	je	.Lpasetone_BB40_19
	movl	%ecx, %r15d
	imulq	%rbx, %rdx
	leaq	(%r15,%r15), %rcx
	movq	%rdx, %rax
	orq	%rcx, %rax
	shrq	$32, %rax
	je	.Lpasetone_BB40_5
	movq	%rdx, %rax
	xorl	%edx, %edx
	divq	%rcx
	jmp	.Lpasetone_BB40_6
.Lpasetone_BB40_4:
	xorl	%eax, %eax
	cmpq	$2, %rsi
	setb	%al
	leal	(%rax,%rax,2), %eax
	incl	%eax
	xorl	%ecx, %ecx
	jmp	.Lpasetone_BB40_20
.Lpasetone_BB40_5:
	movl	%edx, %eax
	xorl	%edx, %edx
	divl	%ecx
.Lpasetone_BB40_6:
	xorl	%ecx, %ecx
	testq	%rsi, %rsi
	setne	%r11b
	cmpq	$13, %rax
	jb	.Lpasetone_BB40_19
	movb	%r11b, %cl
	shll	$6, %ecx
	orq	$63, %rcx
	cmpq	%rax, %rcx
	jb	.Lpasetone_BB40_19
	movb	%r10b, %r14b
	shll	$12, %r14d
	movq	%r14, -16(%rsp)
	movq	%rax, -8(%rsp)
	leal	-13(%rax), %ebp
	movl	%ebp, %eax
	shll	$6, %eax
	shrl	$2, %ebp
	addl	%eax, %ebp
	shrq	$3, %rdx
	movabsq	$2361183241434822607, %rcx
	movq	%rdx, %rax
	mulq	%rcx
	movq	%rdx, %rcx
	imulq	$274877907, %r15, %r10
	shrq	$4, %rcx
	shrq	$37, %r10
	andl	$-2, %r10d
	movl	$16, %r12d
	xorl	%r13d, %r13d
	xorl	%r15d, %r15d
	jmp	.Lpasetone_BB40_11
	.p2align	4
.Lpasetone_BB40_9:
	xorl	%r13d, %r13d
.Lpasetone_BB40_10:
	addq	$24, %r12
	cmpq	$400, %r12
	je	.Lpasetone_BB40_21
.Lpasetone_BB40_11:
	testb	$1, %r13b
	movb	$1, %r13b
	jne	.Lpasetone_BB40_10
	cmpq	$2, %rcx
	jb	.Lpasetone_BB40_9
	leaq	.Lpasetone_static.10(%rip), %rax
	movq	-16(%r12,%rax), %r11
	testq	%r11, %r11
	je	.Lpasetone_BB40_26
	movq	-8(%r12,%rax), %r14
	movzbl	(%r12,%rax), %r13d
	cmpq	%r11, %r10
	jb	.Lpasetone_BB40_17
	movl	%r10d, %eax
	xorl	%edx, %edx
	divl	%r11d
	movq	%rcx, %rdx
	subq	%rax, %rdx
	jbe	.Lpasetone_BB40_9
	jmp	.Lpasetone_BB40_18
.Lpasetone_BB40_17:
	xorl	%eax, %eax
	movq	%rcx, %rdx
	subq	%rax, %rdx
	jbe	.Lpasetone_BB40_9
.Lpasetone_BB40_18:
	addq	%r14, %r15
	movq	%rdx, %rcx
	jmp	.Lpasetone_BB40_10
.Lpasetone_BB40_19:
	xorl	%ecx, %ecx
	cmpq	$2, %rsi
	movl	$0, %eax
	adcl	$1, %eax
.Lpasetone_BB40_20:
	movq	%rcx, (%rdi)
	movq	$0, 8(%rdi)
	movl	%eax, 16(%rdi)
	movl	$0, 20(%rdi)
	movq	%rdi, %rax
	popq	%rbx
	.cfi_def_cfa_offset 48
	popq	%r12
	.cfi_def_cfa_offset 40
	popq	%r13
	.cfi_def_cfa_offset 32
	popq	%r14
	.cfi_def_cfa_offset 24
	popq	%r15
	.cfi_def_cfa_offset 16
	popq	%rbp
	.cfi_def_cfa_offset 8
	retq
.Lpasetone_BB40_21:
	.cfi_def_cfa_offset 56
	cmpq	$1, %rsi
	jbe	.Lpasetone_BB40_23
	movl	$1, %eax
	xorl	%ecx, %ecx
	jmp	.Lpasetone_BB40_20
.Lpasetone_BB40_23:
	xorl	%eax, %eax
	cmpq	$5, %r9
	jae	.Lpasetone_BB40_25
	movl	$8, %eax
	xorl	%ecx, %ecx
	jmp	.Lpasetone_BB40_20
.Lpasetone_BB40_25:
	movq	-16(%rsp), %rsi
	movb	%bl, (%r8,%rsi)
	movq	-8(%rsp), %rdx
	movb	%dl, 1(%r8,%rsi)
	movb	%bpl, 2(%r8,%rsi)
	movw	%r15w, 3(%r8,%rsi)
	jmp	.Lpasetone_BB40_20
.Lpasetone_BB40_26:
	ud2
.Lpasetone_func_end40:
	.size	pasetone_plan_pll_by_worksheet, .Lpasetone_func_end40-pasetone_plan_pll_by_worksheet
	.cfi_endproc

	.section	.text.pasetone_plan_tuning,"ax",@progbits
	.globl	pasetone_plan_tuning
	.p2align	4
	.type	pasetone_plan_tuning,@function
pasetone_plan_tuning:
	.cfi_startproc
	pushq	%rbx
	.cfi_def_cfa_offset 16
	.cfi_offset %rbx, -16
	movq	%rdi, %rax
	xorl	%edi, %edi
	testq	%rcx, %rcx
	sete	%r9b
	xorl	%ebx, %ebx
	testq	%rsi, %rsi
	je	.Lpasetone_BB41_4
	cmpq	$1, %rsi
	jne	.Lpasetone_BB41_6
	leaq	28800000(%rdx), %rsi
	cmpq	$250000000, %rdx
	movb	$2, %r10b
	sbbb	$0, %r10b
	xorl	%r11d, %r11d
	cmpq	$28800000, %rdx
	cmovaeq	%rdx, %rsi
	movzbl	%r10b, %r10d
	cmovbl	%r11d, %r10d
	cmpq	$2200001, %rdx
	jae	.Lpasetone_BB41_7
.Lpasetone_BB41_3:
	movb	$1, %r11b
	jmp	.Lpasetone_BB41_11
.Lpasetone_BB41_4:
	movb	$3, %r10b
	xorl	%r11d, %r11d
	movq	%rdx, %rsi
	xorl	%edx, %edx
	cmpq	$3, %r8
	jb	.Lpasetone_BB41_12
.Lpasetone_BB41_5:
	movb	%r9b, %dil
	shll	$12, %edi
	movb	%bl, (%rcx,%rdi)
	movb	%r10b, 1(%rcx,%rdi)
	movb	%r11b, 2(%rcx,%rdi)
	jmp	.Lpasetone_BB41_14
.Lpasetone_BB41_6:
	movl	$1, %edx
	jmp	.Lpasetone_BB41_13
.Lpasetone_BB41_7:
	cmpq	$85000000, %rdx
	jb	.Lpasetone_BB41_10
	cmpq	$112000001, %rdx
	setae	%r11b
	leaq	-172000000(%rdx), %rbx
	cmpq	$70000001, %rbx
	setae	%bl
	testb	%bl, %r11b
	je	.Lpasetone_BB41_3
.Lpasetone_BB41_10:
	xorl	%r11d, %r11d
.Lpasetone_BB41_11:
	cmpq	$28800000, %rdx
	setb	%bl
	xorl	%edx, %edx
	cmpq	$3, %r8
	jae	.Lpasetone_BB41_5
.Lpasetone_BB41_12:
	movl	$8, %edx
.Lpasetone_BB41_13:
	xorl	%esi, %esi
.Lpasetone_BB41_14:
	movq	%rsi, (%rax)
	movq	$0, 8(%rax)
	movl	%edx, 16(%rax)
	movl	$0, 20(%rax)
	popq	%rbx
	.cfi_def_cfa_offset 8
	retq
.Lpasetone_func_end41:
	.size	pasetone_plan_tuning, .Lpasetone_func_end41-pasetone_plan_tuning
	.cfi_endproc

	.section	.text.pasetone_power_on,"ax",@progbits
	.globl	pasetone_power_on
	.p2align	4
	.type	pasetone_power_on,@function
pasetone_power_on:
	.cfi_startproc
	pushq	%rbx
	.cfi_def_cfa_offset 16
	subq	$32, %rsp
	.cfi_def_cfa_offset 48
	.cfi_offset %rbx, -16
	movq	%rdi, %rbx
	xorl	%eax, %eax
	testq	%rsi, %rsi
	sete	%al
	shll	$12, %eax
	addq	%rax, %rsi
	xorl	%eax, %eax
	testq	%rcx, %rcx
	sete	%al
	shll	$12, %eax
	addq	%rax, %rcx
	xorps	%xmm0, %xmm0
	movaps	%xmm0, (%rsp)
	movq	$0, 16(%rsp)
	movq	%rsp, %rdi
	callq	"demod::init_baseband"
	movzbl	(%rsp), %ecx
	movq	8(%rsp), %rdx
	movq	16(%rsp), %rax
	testl	%ecx, %ecx
	je	.Lpasetone_BB42_1
	cmpl	$2, %ecx
	jne	.Lpasetone_BB42_3
	movl	$11, %ecx
	xorl	%esi, %esi
	jmp	.Lpasetone_BB42_5
.Lpasetone_BB42_1:
	movq	%rdx, %rsi
	movq	%rcx, %rdx
	jmp	.Lpasetone_BB42_5
.Lpasetone_BB42_3:
	movzbl	1(%rsp), %ecx
	xorl	%esi, %esi
	xorl	%edx, %edx
.Lpasetone_BB42_5:
	movq	%rsi, (%rbx)
	movq	%rdx, 8(%rbx)
	movl	%ecx, 16(%rbx)
	movl	%eax, 20(%rbx)
	movq	%rbx, %rax
	addq	$32, %rsp
	.cfi_def_cfa_offset 16
	popq	%rbx
	.cfi_def_cfa_offset 8
	retq
.Lpasetone_func_end42:
	.size	pasetone_power_on, .Lpasetone_func_end42-pasetone_power_on
	.cfi_endproc

	.section	.text.pasetone_read_packets,"ax",@progbits
	.globl	pasetone_read_packets
	.p2align	4
	.type	pasetone_read_packets,@function
pasetone_read_packets:
	.cfi_startproc
	pushq	%rbp
	.cfi_def_cfa_offset 16
	pushq	%r15
	.cfi_def_cfa_offset 24
	pushq	%r14
	.cfi_def_cfa_offset 32
	pushq	%r13
	.cfi_def_cfa_offset 40
	pushq	%r12
	.cfi_def_cfa_offset 48
	pushq	%rbx
	.cfi_def_cfa_offset 56
	subq	$56, %rsp
	.cfi_def_cfa_offset 112
	.cfi_offset %rbx, -56
	.cfi_offset %r12, -48
	.cfi_offset %r13, -40
	.cfi_offset %r14, -32
	.cfi_offset %r15, -24
	.cfi_offset %rbp, -16
	movq	%r8, 8(%rsp)
	movq	%rdx, %r14
	movq	%rdi, %rbx
	xorl	%r15d, %r15d
	testq	%rsi, %rsi
	sete	%r15b
	shll	$12, %r15d
	addq	%rsi, %r15
	xorl	%r12d, %r12d
	movq	%rcx, 48(%rsp)
	testq	%rcx, %rcx
	sete	(%rsp)
	movl	$8, %r13d
	testq	%rdx, %rdx
	je	.Lpasetone_BB43_5
	xorl	%ebp, %ebp
	.p2align	4
.Lpasetone_BB43_2:
	addq	$16, %r13
	cmpq	$65560, %r13
	je	.Lpasetone_BB43_7
	leaq	16(%rsp), %rdi
	movq	%r15, %rsi
	movq	%r14, %rdx
	movq	%rbp, %rcx
	callq	"packets::hear"
	cmpb	$1, 16(%rsp)
	jne	.Lpasetone_BB43_7
	addq	40(%rsp), %rbp
	cmpq	%r14, %rbp
	jb	.Lpasetone_BB43_2
.Lpasetone_BB43_5:
	cmpq	%r13, 8(%rsp)
	jae	.Lpasetone_BB43_8
	movl	$8, %eax
	xorl	%r13d, %r13d
	jmp	.Lpasetone_BB43_12
.Lpasetone_BB43_7:
	movl	$15, %eax
	xorl	%r13d, %r13d
	jmp	.Lpasetone_BB43_12
.Lpasetone_BB43_8:
	movq	%rbx, 8(%rsp)
	movzbl	(%rsp), %eax
	movb	%al, %r12b
	shll	$12, %r12d
	movq	48(%rsp), %rbx
	leaq	(%rbx,%r12), %rax
	movq	%rax, (%rsp)
	leaq	16(%rsp), %rdi
	movq	%r15, %rsi
	movq	%r14, %rdx
	xorl	%ecx, %ecx
	callq	"packets::hear"
	cmpb	$1, 16(%rsp)
	movl	$0, %ebp
	jne	.Lpasetone_BB43_11
	addq	%r12, %rbx
	addq	$8, %rbx
	xorl	%ebp, %ebp
	xorl	%r12d, %r12d
	.p2align	4
.Lpasetone_BB43_10:
	movzwl	24(%rsp), %eax
	movl	26(%rsp), %ecx
	shlq	$16, %rcx
	orq	%rax, %rcx
	addq	40(%rsp), %r12
	movq	30(%rsp), %rax
	movq	%rcx, -8(%rbx)
	movq	%rax, (%rbx)
	incq	%rbp
	leaq	16(%rsp), %rdi
	movq	%r15, %rsi
	movq	%r14, %rdx
	movq	%r12, %rcx
	callq	"packets::hear"
	addq	$16, %rbx
	cmpb	$1, 16(%rsp)
	je	.Lpasetone_BB43_10
.Lpasetone_BB43_11:
	movq	%rbp, %rax
	shlq	$4, %rax
	movq	(%rsp), %rcx
	movl	%ebp, (%rcx,%rax)
	movl	%eax, 4(%rcx,%rax)
	movq	8(%rsp), %rbx
	xorl	%eax, %eax
.Lpasetone_BB43_12:
	movq	%r13, (%rbx)
	movq	$0, 8(%rbx)
	movl	%eax, 16(%rbx)
	movl	$0, 20(%rbx)
	movq	%rbx, %rax
	addq	$56, %rsp
	.cfi_def_cfa_offset 56
	popq	%rbx
	.cfi_def_cfa_offset 48
	popq	%r12
	.cfi_def_cfa_offset 40
	popq	%r13
	.cfi_def_cfa_offset 32
	popq	%r14
	.cfi_def_cfa_offset 24
	popq	%r15
	.cfi_def_cfa_offset 16
	popq	%rbp
	.cfi_def_cfa_offset 8
	retq
.Lpasetone_func_end43:
	.size	pasetone_read_packets, .Lpasetone_func_end43-pasetone_read_packets
	.cfi_endproc

	.section	.text.pasetone_read_section,"ax",@progbits
	.globl	pasetone_read_section
	.p2align	4
	.type	pasetone_read_section,@function
pasetone_read_section:
	.cfi_startproc
	pushq	%rbx
	.cfi_def_cfa_offset 16
	subq	$32, %rsp
	.cfi_def_cfa_offset 48
	.cfi_offset %rbx, -16
	movq	%rdi, %rbx
	xorl	%eax, %eax
	testq	%rsi, %rsi
	sete	%al
	shll	$12, %eax
	addq	%rax, %rsi
	xorps	%xmm0, %xmm0
	movaps	%xmm0, (%rsp)
	movq	$0, 16(%rsp)
	movq	%rsp, %rdi
	callq	"transcript::read_section"
	xorl	%eax, %eax
	cmpb	$1, (%rsp)
	movq	8(%rsp), %rcx
	cmovneq	%rax, %rcx
	movq	16(%rsp), %rdx
	cmovneq	%rax, %rdx
	movl	$12, %esi
	cmovel	%eax, %esi
	movq	%rcx, (%rbx)
	movq	%rdx, 8(%rbx)
	movl	%esi, 16(%rbx)
	movl	$0, 20(%rbx)
	movq	%rbx, %rax
	addq	$32, %rsp
	.cfi_def_cfa_offset 16
	popq	%rbx
	.cfi_def_cfa_offset 8
	retq
.Lpasetone_func_end44:
	.size	pasetone_read_section, .Lpasetone_func_end44-pasetone_read_section
	.cfi_endproc

	.section	.text.pasetone_read_settings_1,"ax",@progbits
	.globl	pasetone_read_settings_1
	.p2align	4
	.type	pasetone_read_settings_1,@function
pasetone_read_settings_1:
	.cfi_startproc
	movq	%rdi, %rax
	xorl	%edi, %edi
	testq	%rsi, %rsi
	sete	%r8b
	pxor	%xmm0, %xmm0
	movl	$17, %ecx
	cmpq	$4, %rdx
	jb	.Lpasetone_BB45_11
	movb	%r8b, %dil
	shll	$12, %edi
	addq	%rdi, %rsi
	cmpb	$1, -4(%rsi,%rdx)
	jne	.Lpasetone_BB45_10
	leaq	-4(%rdx), %r8
	xorl	%edi, %edi
	cmpq	$19, %r8
	jb	.Lpasetone_BB45_12
	cmpw	$19, -2(%rsi,%rdx)
	jne	.Lpasetone_BB45_12
	cmpb	$0, -3(%rsi,%rdx)
	jne	.Lpasetone_BB45_12
	movzbl	-5(%rsi,%rdx), %r11d
	xorl	%edi, %edi
	cmpq	$28, %r11
	ja	.Lpasetone_BB45_12
	pushq	%r15
	.cfi_def_cfa_offset 16
	pushq	%r14
	.cfi_def_cfa_offset 24
	pushq	%rbx
	.cfi_def_cfa_offset 32
	.cfi_offset %rbx, -32
	.cfi_offset %r14, -24
	.cfi_offset %r15, -16
	movzbl	-23(%rsi,%rdx), %ebx
	movzbl	-22(%rsi,%rdx), %r14d
	movq	%r14, %r15
	orq	%rbx, %r15
	movl	$0, %r8d
	movl	$0, %r9d
	movl	$0, %r10d
	cmpl	$1, %r15d
	ja	.Lpasetone_BB45_9
	movq	-13(%rsi,%rdx), %r9
	movq	-21(%rsi,%rdx), %xmm0
	pshufd	$225, %xmm0, %xmm0
	xorl	%ecx, %ecx
	movq	%rbx, %rdi
	movq	%r14, %r8
	movq	%r11, %r10
.Lpasetone_BB45_9:
	popq	%rbx
	.cfi_def_cfa_offset 24
	popq	%r14
	.cfi_def_cfa_offset 16
	popq	%r15
	.cfi_def_cfa_offset 8
	.cfi_restore %rbx
	.cfi_restore %r14
	.cfi_restore %r15
	jmp	.Lpasetone_BB45_13
.Lpasetone_BB45_10:
	movl	$16, %ecx
.Lpasetone_BB45_11:
	xorl	%edi, %edi
.Lpasetone_BB45_12:
	xorl	%r8d, %r8d
	xorl	%r9d, %r9d
	xorl	%r10d, %r10d
.Lpasetone_BB45_13:
	movq	%r9, (%rax)
	movq	%rdi, 8(%rax)
	movq	%r8, 16(%rax)
	movq	%r10, 24(%rax)
	movq	%xmm0, 32(%rax)
	movl	%ecx, 40(%rax)
	movl	$0, 44(%rax)
	retq
.Lpasetone_func_end45:
	.size	pasetone_read_settings_1, .Lpasetone_func_end45-pasetone_read_settings_1
	.cfi_endproc

	.section	.text.pasetone_read_settings_2,"ax",@progbits
	.globl	pasetone_read_settings_2
	.p2align	4
	.type	pasetone_read_settings_2,@function
pasetone_read_settings_2:
	.cfi_startproc
	pushq	%r15
	.cfi_def_cfa_offset 16
	pushq	%r14
	.cfi_def_cfa_offset 24
	pushq	%r12
	.cfi_def_cfa_offset 32
	pushq	%rbx
	.cfi_def_cfa_offset 40
	.cfi_offset %rbx, -40
	.cfi_offset %r12, -32
	.cfi_offset %r14, -24
	.cfi_offset %r15, -16
	movq	%rdi, %rax
	xorl	%edi, %edi
	testq	%rsi, %rsi
	sete	%r8b
	pxor	%xmm0, %xmm0
	movl	$17, %ecx
	cmpq	$4, %rdx
	jae	.Lpasetone_BB46_2
	xorl	%edi, %edi
	jmp	.Lpasetone_BB46_12
.Lpasetone_BB46_2:
	movb	%r8b, %dil
	shll	$12, %edi
	addq	%rdi, %rsi
	leaq	-4(%rdx), %r8
	movzbl	-4(%rsi,%rdx), %edi
	cmpl	$1, %edi
	je	.Lpasetone_BB46_11
	cmpl	$2, %edi
	jne	.Lpasetone_BB46_4
	xorl	%edi, %edi
	cmpq	$23, %r8
	jb	.Lpasetone_BB46_12
	cmpw	$23, -2(%rsi,%rdx)
	jne	.Lpasetone_BB46_12
	cmpb	$0, -3(%rsi,%rdx)
	jne	.Lpasetone_BB46_12
	movzbl	-9(%rsi,%rdx), %ebx
	xorl	%edi, %edi
	cmpb	$28, %bl
	ja	.Lpasetone_BB46_12
	movzbl	-27(%rsi,%rdx), %r14d
	movzbl	-26(%rsi,%rdx), %r15d
	movq	%r15, %r12
	orq	%r14, %r12
	movl	$0, %r8d
	movl	$0, %r9d
	movl	$0, %r11d
	movl	$0, %r10d
	cmpl	$1, %r12d
	ja	.Lpasetone_BB46_19
	movq	-17(%rsi,%rdx), %r9
	movq	-25(%rsi,%rdx), %xmm0
	movl	-8(%rsi,%rdx), %r10d
	jmp	.Lpasetone_BB46_18
.Lpasetone_BB46_11:
	xorl	%edi, %edi
	cmpq	$19, %r8
	jb	.Lpasetone_BB46_12
	cmpw	$19, -2(%rsi,%rdx)
	jne	.Lpasetone_BB46_12
	cmpb	$0, -3(%rsi,%rdx)
	jne	.Lpasetone_BB46_12
	movzbl	-5(%rsi,%rdx), %ebx
	xorl	%edi, %edi
	cmpb	$28, %bl
	ja	.Lpasetone_BB46_12
	movzbl	-23(%rsi,%rdx), %r14d
	movzbl	-22(%rsi,%rdx), %r15d
	movq	%r15, %r12
	orq	%r14, %r12
	movl	$0, %r8d
	movl	$0, %r9d
	movl	$0, %r11d
	movl	$0, %r10d
	cmpl	$1, %r12d
	ja	.Lpasetone_BB46_19
	movq	-13(%rsi,%rdx), %r9
	movq	-21(%rsi,%rdx), %xmm0
	movl	$2300000, %r10d
.Lpasetone_BB46_18:
	xorl	%ecx, %ecx
	movq	%r14, %rdi
	movq	%r15, %r8
	movl	%ebx, %r11d
	jmp	.Lpasetone_BB46_19
.Lpasetone_BB46_4:
	xorl	%edi, %edi
	movl	$16, %ecx
.Lpasetone_BB46_12:
	xorl	%r8d, %r8d
	xorl	%r9d, %r9d
	xorl	%r11d, %r11d
	xorl	%r10d, %r10d
.Lpasetone_BB46_19:
	movzbl	%r11b, %edx
	movq	%r9, (%rax)
	movq	%rdi, 8(%rax)
	movq	%r8, 16(%rax)
	movq	%rdx, 24(%rax)
	pshufd	$225, %xmm0, %xmm0
	movq	%xmm0, 32(%rax)
	movl	%r10d, 40(%rax)
	movl	%ecx, 44(%rax)
	popq	%rbx
	.cfi_def_cfa_offset 32
	popq	%r12
	.cfi_def_cfa_offset 24
	popq	%r14
	.cfi_def_cfa_offset 16
	popq	%r15
	.cfi_def_cfa_offset 8
	retq
.Lpasetone_func_end46:
	.size	pasetone_read_settings_2, .Lpasetone_func_end46-pasetone_read_settings_2
	.cfi_endproc

	.section	.text.pasetone_reload,"ax",@progbits
	.globl	pasetone_reload
	.p2align	4
	.type	pasetone_reload,@function
pasetone_reload:
	.cfi_startproc
	pushq	%rbx
	.cfi_def_cfa_offset 16
	subq	$64, %rsp
	.cfi_def_cfa_offset 80
	.cfi_offset %rbx, -16
	movq	%rdi, %rbx
	movq	80(%rsp), %rax
	movq	96(%rsp), %rdi
	movq	88(%rsp), %r10
	xorl	%r11d, %r11d
	testq	%rsi, %rsi
	sete	%r11b
	shll	$12, %r11d
	addq	%r11, %rsi
	xorl	%r11d, %r11d
	testq	%rcx, %rcx
	sete	%r11b
	shll	$12, %r11d
	addq	%r11, %rcx
	xorl	%r11d, %r11d
	testq	%r9, %r9
	sete	%r11b
	shll	$12, %r11d
	addq	%r11, %r9
	xorl	%r11d, %r11d
	testq	%r10, %r10
	sete	%r11b
	shll	$12, %r11d
	addq	%r10, %r11
	xorps	%xmm0, %xmm0
	movaps	%xmm0, 32(%rsp)
	movq	$0, 48(%rsp)
	movq	%rdi, 16(%rsp)
	movq	%rax, (%rsp)
	movq	%r11, 8(%rsp)
	leaq	32(%rsp), %rdi
	callq	"tuners::reload"
	movq	48(%rsp), %rax
	movq	%rax, 16(%rbx)
	movaps	32(%rsp), %xmm0
	movups	%xmm0, (%rbx)
	movq	%rbx, %rax
	addq	$64, %rsp
	.cfi_def_cfa_offset 16
	popq	%rbx
	.cfi_def_cfa_offset 8
	retq
.Lpasetone_func_end47:
	.size	pasetone_reload, .Lpasetone_func_end47-pasetone_reload
	.cfi_endproc

	.section	.text.pasetone_resample_regs,"ax",@progbits
	.globl	pasetone_resample_regs
	.p2align	4
	.type	pasetone_resample_regs,@function
pasetone_resample_regs:
	.cfi_startproc
	xorl	%r9d, %r9d
	testq	%rcx, %rcx
	sete	%al
	testl	%edx, %edx
	sete	%r10b
	shlb	$2, %r10b
	testl	%esi, %esi
	movzbl	%r10b, %r11d
	movl	$3, %r10d
	cmovnel	%r11d, %r10d
	testb	%r10b, %r10b
	jne	.Lpasetone_BB48_7
	testl	%esi, %esi
	je	.Lpasetone_BB48_9
	movb	$8, %r10b
	cmpq	$4, %r8
	jae	.Lpasetone_BB48_3
.Lpasetone_BB48_7:
	movzbl	%r10b, %eax
.Lpasetone_BB48_8:
	xorps	%xmm0, %xmm0
	movups	%xmm0, (%rdi)
	movl	%eax, 16(%rdi)
	movl	$0, 20(%rdi)
	movq	%rdi, %rax
	retq
.Lpasetone_BB48_3:
	movb	%al, %r9b
	shll	$12, %r9d
	movl	%edx, %eax
	shlq	$22, %rax
	movl	%esi, %esi
	movabsq	$18014394214514688, %rdx
	testq	%rdx, %rax
	je	.Lpasetone_BB48_4
	xorl	%edx, %edx
	divq	%rsi
	jmp	.Lpasetone_BB48_6
.Lpasetone_BB48_4:
	xorl	%edx, %edx
	divl	%esi
.Lpasetone_BB48_6:
	andl	$1073741823, %eax
	bswapl	%eax
	movl	%eax, (%rcx,%r9)
	xorl	%eax, %eax
	jmp	.Lpasetone_BB48_8
.Lpasetone_BB48_9:
	ud2
.Lpasetone_func_end48:
	.size	pasetone_resample_regs, .Lpasetone_func_end48-pasetone_resample_regs
	.cfi_endproc

	.section	.text.pasetone_reset_demod,"ax",@progbits
	.globl	pasetone_reset_demod
	.p2align	4
	.type	pasetone_reset_demod,@function
pasetone_reset_demod:
	.cfi_startproc
	movq	%rdi, %rax
	xorl	%r9d, %r9d
	testq	%rsi, %rsi
	sete	%r11b
	xorl	%edi, %edi
	testq	%rcx, %rcx
	sete	%r10b
	cmpq	$40, %r8
	jae	.Lpasetone_BB49_2
	movl	$8, %ecx
	jmp	.Lpasetone_BB49_4
.Lpasetone_BB49_2:
	cmpq	$2, %rdx
	jae	.Lpasetone_BB49_7
	movl	$9, %ecx
.Lpasetone_BB49_4:
	xorl	%esi, %esi
.Lpasetone_BB49_5:
	xorl	%edx, %edx
.Lpasetone_BB49_6:
	movq	$0, (%rax)
	movq	%rdx, 8(%rax)
	movl	%ecx, 16(%rax)
	movl	%esi, 20(%rax)
	retq
.Lpasetone_BB49_7:
	movb	%r11b, %r9b
	shll	$12, %r9d
	movb	%r10b, %dil
	shll	$12, %edi
	movabsq	$4311810052, %r8
	leaq	256(%r8), %rdx
	cmpb	$0, (%rsi,%r9)
	cmoveq	%r8, %rdx
	movq	%rdx, (%rcx,%rdi)
	movq	$20, 8(%rcx,%rdi)
	je	.Lpasetone_BB49_9
	movabsq	$68719476737, %rdx
	movq	%rdx, 16(%rcx,%rdi)
	movl	$11, %ecx
	movl	$1, %esi
	jmp	.Lpasetone_BB49_5
.Lpasetone_BB49_9:
	xorl	%r10d, %r10d
	xorl	%edx, %edx
	cmpb	$0, 1(%rsi,%r9)
	leaq	256(%r8), %rsi
	setne	%dl
	cmoveq	%r8, %rsi
	movq	%rsi, 16(%rcx,%rdi)
	movq	$16, 24(%rcx,%rdi)
	movabsq	$137438953474, %rsi
	movq	%rsi, 32(%rcx,%rdi)
	movl	$11, %ecx
	cmovel	%r10d, %ecx
	movl	$2, %esi
	jmp	.Lpasetone_BB49_6
.Lpasetone_func_end49:
	.size	pasetone_reset_demod, .Lpasetone_func_end49-pasetone_reset_demod
	.cfi_endproc

	.section	.text.pasetone_restore,"ax",@progbits
	.globl	pasetone_restore
	.p2align	4
	.type	pasetone_restore,@function
pasetone_restore:
	.cfi_startproc
	pushq	%rbp
	.cfi_def_cfa_offset 16
	pushq	%r15
	.cfi_def_cfa_offset 24
	pushq	%r14
	.cfi_def_cfa_offset 32
	pushq	%r13
	.cfi_def_cfa_offset 40
	pushq	%r12
	.cfi_def_cfa_offset 48
	pushq	%rbx
	.cfi_def_cfa_offset 56
	subq	$408, %rsp
	.cfi_def_cfa_offset 464
	.cfi_offset %rbx, -56
	.cfi_offset %r12, -48
	.cfi_offset %r13, -40
	.cfi_offset %r14, -32
	.cfi_offset %r15, -24
	.cfi_offset %rbp, -16
	movq	%r9, 48(%rsp)
	movl	%ecx, %ebp
	movq	%rdi, %rbx
	xorl	%eax, %eax
	testq	%rsi, %rsi
	sete	%cl
	xorl	%r13d, %r13d
	movq	%r8, 8(%rsp)
	testq	%r8, %r8
	sete	%r15b
	xorps	%xmm0, %xmm0
	movaps	%xmm0, 304(%rsp)
	movaps	%xmm0, 320(%rsp)
	movaps	%xmm0, 336(%rsp)
	movaps	%xmm0, 352(%rsp)
	movaps	%xmm0, 368(%rsp)
	movaps	%xmm0, 384(%rsp)
	movaps	%xmm0, 16(%rsp)
	movq	$0, 32(%rsp)
	testq	%rdx, %rdx
	je	.Lpasetone_BB50_15
	movq	%rsi, %r12
	movb	%cl, %al
	shll	$12, %eax
	addq	%rax, %r12
	jmp	.Lpasetone_BB50_3
	.p2align	4
.Lpasetone_BB50_2:
	testq	%rdx, %rdx
	je	.Lpasetone_BB50_15
.Lpasetone_BB50_3:
	leaq	16(%rsp), %rdi
	movq	%r12, %rsi
	callq	"transcript::read_section"
	cmpb	$1, 16(%rsp)
	jne	.Lpasetone_BB50_52
	movq	24(%rsp), %rdx
	movq	32(%rsp), %rax
	testq	%rax, %rax
	je	.Lpasetone_BB50_2
	leaq	(%r12,%rdx), %rcx
	jmp	.Lpasetone_BB50_7
	.p2align	4
.Lpasetone_BB50_6:
	testq	%rax, %rax
	je	.Lpasetone_BB50_2
.Lpasetone_BB50_7:
	decq	%rax
	movq	%rax, %rdi
	shlq	$4, %rdi
	cmpb	$2, (%rcx,%rdi)
	jne	.Lpasetone_BB50_6
	cmpb	%bpl, 2(%rcx,%rdi)
	jne	.Lpasetone_BB50_6
	movq	8(%rcx,%rdi), %r8
	xorl	%esi, %esi
	cmpb	$0, 1(%rcx,%rdi)
	movzbl	3(%rcx,%rdi), %edi
	sete	%r9b
	movq	%r8, 56(%rsp)
	cmpb	$2, %dil
	jb	.Lpasetone_BB50_6
	movb	%r9b, %sil
	shll	$8, %esi
	addl	$256, %esi
	movzbl	%r8b, %r8d
	decq	%rdi
	leaq	(%r8,%r8,2), %r9
	addq	%rsp, %r9
	addq	$304, %r9
	addq	$-32, %r8
	xorl	%r10d, %r10d
	jmp	.Lpasetone_BB50_12
	.p2align	4
.Lpasetone_BB50_11:
	incq	%r10
	addq	$3, %r9
	cmpq	%r10, %rdi
	je	.Lpasetone_BB50_6
.Lpasetone_BB50_12:
	leaq	(%r8,%r10), %r11
	cmpq	$-27, %r11
	jb	.Lpasetone_BB50_11
	cmpb	$1, (%r9)
	je	.Lpasetone_BB50_11
	movzbl	57(%rsp,%r10), %r11d
	movzwl	%r11w, %r11d
	movzwl	%si, %r14d
	orl	%r11d, %r14d
	movb	$1, (%r9)
	movw	%r14w, 1(%r9)
	jmp	.Lpasetone_BB50_11
.Lpasetone_BB50_15:
	movb	%r15b, %r13b
	shll	$12, %r13d
	movq	8(%rsp), %rdi
	addq	%r13, %rdi
	xorps	%xmm0, %xmm0
	movaps	%xmm0, 64(%rsp)
	movaps	%xmm0, 80(%rsp)
	movaps	%xmm0, 96(%rsp)
	movaps	%xmm0, 112(%rsp)
	movaps	%xmm0, 128(%rsp)
	movaps	%xmm0, 144(%rsp)
	movaps	%xmm0, 160(%rsp)
	movaps	%xmm0, 176(%rsp)
	movaps	%xmm0, 192(%rsp)
	movaps	%xmm0, 208(%rsp)
	movaps	%xmm0, 224(%rsp)
	movaps	%xmm0, 240(%rsp)
	movaps	%xmm0, 256(%rsp)
	movaps	%xmm0, 272(%rsp)
	movq	$0, 288(%rsp)
	movzbl	%bpl, %ecx
	shll	$16, %ecx
	orq	$16777218, %rcx
	xorl	%eax, %eax
	xorl	%r13d, %r13d
	xorl	%edx, %edx
.Lpasetone_BB50_16:
	leaq	(,%r13,2), %rsi
	addq	%r13, %rsi
	leaq	(%rsp,%rsi), %r11
	addq	$304, %r11
	movq	%r13, %rsi
	jmp	.Lpasetone_BB50_18
	.p2align	4
.Lpasetone_BB50_17:
	incq	%rsi
	addq	$3, %r11
	cmpq	$32, %rsi
	je	.Lpasetone_BB50_50
.Lpasetone_BB50_18:
	cmpb	$1, (%r11)
	jne	.Lpasetone_BB50_17
	cmpb	$2, 2(%r11)
	jne	.Lpasetone_BB50_17
	cmpq	$31, %rsi
	movq	%rdi, 8(%rsp)
	je	.Lpasetone_BB50_39
	cmpb	$1, 3(%r11)
	jne	.Lpasetone_BB50_39
	cmpb	$2, 5(%r11)
	jne	.Lpasetone_BB50_39
	cmpq	$29, %rsi
	ja	.Lpasetone_BB50_44
	cmpb	$1, 6(%r11)
	jne	.Lpasetone_BB50_44
	cmpb	$2, 8(%r11)
	jne	.Lpasetone_BB50_44
	cmpq	$29, %rsi
	je	.Lpasetone_BB50_45
	cmpb	$1, 9(%r11)
	jne	.Lpasetone_BB50_45
	cmpb	$2, 11(%r11)
	jne	.Lpasetone_BB50_45
	cmpq	$27, %rsi
	ja	.Lpasetone_BB50_46
	cmpb	$1, 12(%r11)
	jne	.Lpasetone_BB50_46
	cmpb	$2, 14(%r11)
	jne	.Lpasetone_BB50_46
	cmpq	$27, %rsi
	je	.Lpasetone_BB50_47
	cmpb	$1, 15(%r11)
	jne	.Lpasetone_BB50_47
	cmpb	$2, 17(%r11)
	jne	.Lpasetone_BB50_47
	cmpq	$25, %rsi
	ja	.Lpasetone_BB50_48
	cmpb	$1, 18(%r11)
	jne	.Lpasetone_BB50_48
	cmpb	$2, 20(%r11)
	movzbl	1(%r11), %r8d
	movzbl	4(%r11), %r10d
	movzbl	7(%r11), %r15d
	movzbl	10(%r11), %r12d
	movzbl	13(%r11), %r9d
	movzbl	16(%r11), %edi
	jne	.Lpasetone_BB50_49
	movzbl	19(%r11), %r11d
	shlq	$56, %r11
	movl	$7, %r13d
	jmp	.Lpasetone_BB50_43
	.p2align	4
.Lpasetone_BB50_39:
	movzbl	1(%r11), %r8d
	movl	$1, %r13d
	xorl	%edi, %edi
	xorl	%r12d, %r12d
	xorl	%r10d, %r10d
.Lpasetone_BB50_40:
	xorl	%r15d, %r15d
.Lpasetone_BB50_41:
	xorl	%r9d, %r9d
.Lpasetone_BB50_42:
	xorl	%r11d, %r11d
.Lpasetone_BB50_43:
	movq	%rax, %rbp
	shlq	$4, %rbp
	movzbl	%r8b, %r8d
	shll	$8, %r8d
	movzbl	%r10b, %r10d
	shll	$16, %r10d
	movzbl	%r15b, %r14d
	shll	$24, %r14d
	movzbl	%r12b, %r15d
	shlq	$32, %r15
	orq	%r10, %r15
	movzbl	%r9b, %r10d
	shlq	$40, %r10
	movzbl	%dil, %r9d
	shlq	$48, %r9
	movabsq	$72057594037927935, %r12
	andq	%r12, %rdx
	orq	%rsi, %rdx
	orq	%r9, %rdx
	orq	%r15, %rdx
	orq	%r14, %rdx
	orq	%r10, %rdx
	orq	%r8, %rdx
	orq	%r11, %rdx
	movl	%r13d, %r8d
	shll	$24, %r8d
	addq	%rcx, %r8
	movq	%r8, 64(%rsp,%rbp)
	movq	%rdx, 72(%rsp,%rbp)
	incq	%rax
	addq	%rsi, %r13
	movq	%r11, %rdx
	cmpq	$32, %r13
	movq	8(%rsp), %rdi
	jb	.Lpasetone_BB50_16
	jmp	.Lpasetone_BB50_50
.Lpasetone_BB50_44:
	movzbl	1(%r11), %r8d
	movzbl	4(%r11), %r10d
	movl	$2, %r13d
	xorl	%edi, %edi
	xorl	%r12d, %r12d
	jmp	.Lpasetone_BB50_40
.Lpasetone_BB50_45:
	movzbl	1(%r11), %r8d
	movzbl	4(%r11), %r10d
	movzbl	7(%r11), %r15d
	movl	$3, %r13d
	xorl	%edi, %edi
	xorl	%r12d, %r12d
	jmp	.Lpasetone_BB50_41
.Lpasetone_BB50_46:
	movzbl	1(%r11), %r8d
	movzbl	4(%r11), %r10d
	movzbl	7(%r11), %r15d
	movzbl	10(%r11), %r12d
	movl	$4, %r13d
	xorl	%edi, %edi
	jmp	.Lpasetone_BB50_41
.Lpasetone_BB50_47:
	movzbl	1(%r11), %r8d
	movzbl	4(%r11), %r10d
	movzbl	7(%r11), %r15d
	movzbl	10(%r11), %r12d
	movzbl	13(%r11), %r9d
	movl	$5, %r13d
	xorl	%edi, %edi
	jmp	.Lpasetone_BB50_42
.Lpasetone_BB50_48:
	movzbl	1(%r11), %r8d
	movzbl	4(%r11), %r10d
	movzbl	7(%r11), %r15d
	movzbl	10(%r11), %r12d
	movzbl	13(%r11), %r9d
	movzbl	16(%r11), %edi
	movl	$6, %r13d
	jmp	.Lpasetone_BB50_42
.Lpasetone_BB50_49:
	xorl	%r11d, %r11d
	movl	$6, %r13d
	jmp	.Lpasetone_BB50_43
.Lpasetone_BB50_50:
	movq	%rax, %r12
	shlq	$4, %r12
	movl	%eax, 64(%rsp,%r12)
	movl	%r12d, 68(%rsp,%r12)
	orq	$8, %r12
	movl	$8, %eax
	cmpq	%r12, 48(%rsp)
	jb	.Lpasetone_BB50_53
	leaq	64(%rsp), %rsi
	movq	%r12, %rdx
	callq	memcpy@PLT
	xorl	%eax, %eax
	jmp	.Lpasetone_BB50_54
.Lpasetone_BB50_52:
	movl	$12, %eax
.Lpasetone_BB50_53:
	xorl	%r12d, %r12d
.Lpasetone_BB50_54:
	movq	%r12, (%rbx)
	movq	$0, 8(%rbx)
	movl	%eax, 16(%rbx)
	movl	$0, 20(%rbx)
	movq	%rbx, %rax
	addq	$408, %rsp
	.cfi_def_cfa_offset 56
	popq	%rbx
	.cfi_def_cfa_offset 48
	popq	%r12
	.cfi_def_cfa_offset 40
	popq	%r13
	.cfi_def_cfa_offset 32
	popq	%r14
	.cfi_def_cfa_offset 24
	popq	%r15
	.cfi_def_cfa_offset 16
	popq	%rbp
	.cfi_def_cfa_offset 8
	retq
.Lpasetone_func_end50:
	.size	pasetone_restore, .Lpasetone_func_end50-pasetone_restore
	.cfi_endproc

	.section	.text.pasetone_set_bandwidth,"ax",@progbits
	.globl	pasetone_set_bandwidth
	.p2align	4
	.type	pasetone_set_bandwidth,@function
pasetone_set_bandwidth:
	.cfi_startproc
	pushq	%r14
	.cfi_def_cfa_offset 16
	pushq	%rbx
	.cfi_def_cfa_offset 24
	subq	$56, %rsp
	.cfi_def_cfa_offset 80
	.cfi_offset %rbx, -24
	.cfi_offset %r14, -16
	movq	%rdi, %rbx
	movq	88(%rsp), %rax
	movq	104(%rsp), %rdi
	movq	96(%rsp), %r10
	movq	80(%rsp), %r11
	xorl	%r14d, %r14d
	testq	%rsi, %rsi
	sete	%r14b
	shll	$12, %r14d
	addq	%r14, %rsi
	xorl	%r14d, %r14d
	testq	%r8, %r8
	sete	%r14b
	shll	$12, %r14d
	addq	%r14, %r8
	xorl	%r14d, %r14d
	testq	%r11, %r11
	sete	%r14b
	shll	$12, %r14d
	addq	%r11, %r14
	xorl	%r11d, %r11d
	testq	%r10, %r10
	sete	%r11b
	shll	$12, %r11d
	addq	%r10, %r11
	xorps	%xmm0, %xmm0
	movaps	%xmm0, 32(%rsp)
	movq	$0, 48(%rsp)
	movq	%rdi, 24(%rsp)
	movq	%rax, 8(%rsp)
	movq	%r11, 16(%rsp)
	movq	%r14, (%rsp)
	leaq	32(%rsp), %rdi
	callq	"tuners::set_bandwidth"
	movq	48(%rsp), %rax
	movq	%rax, 16(%rbx)
	movaps	32(%rsp), %xmm0
	movups	%xmm0, (%rbx)
	movq	%rbx, %rax
	addq	$56, %rsp
	.cfi_def_cfa_offset 24
	popq	%rbx
	.cfi_def_cfa_offset 16
	popq	%r14
	.cfi_def_cfa_offset 8
	retq
.Lpasetone_func_end51:
	.size	pasetone_set_bandwidth, .Lpasetone_func_end51-pasetone_set_bandwidth
	.cfi_endproc

	.section	.text.pasetone_set_frequency,"ax",@progbits
	.globl	pasetone_set_frequency
	.p2align	4
	.type	pasetone_set_frequency,@function
pasetone_set_frequency:
	.cfi_startproc
	pushq	%r15
	.cfi_def_cfa_offset 16
	pushq	%r14
	.cfi_def_cfa_offset 24
	pushq	%r12
	.cfi_def_cfa_offset 32
	pushq	%rbx
	.cfi_def_cfa_offset 40
	subq	$88, %rsp
	.cfi_def_cfa_offset 128
	.cfi_offset %rbx, -40
	.cfi_offset %r12, -32
	.cfi_offset %r14, -24
	.cfi_offset %r15, -16
	movq	%rdi, %rbx
	movq	136(%rsp), %rax
	movq	152(%rsp), %rdi
	movq	168(%rsp), %r10
	movq	160(%rsp), %r11
	movq	144(%rsp), %r14
	movq	128(%rsp), %r12
	xorl	%r15d, %r15d
	testq	%rsi, %rsi
	sete	%r15b
	shll	$12, %r15d
	addq	%r15, %rsi
	xorl	%r15d, %r15d
	testq	%r8, %r8
	sete	%r15b
	shll	$12, %r15d
	addq	%r15, %r8
	xorl	%r15d, %r15d
	testq	%r12, %r12
	sete	%r15b
	shll	$12, %r15d
	addq	%r12, %r15
	xorl	%r12d, %r12d
	testq	%r14, %r14
	sete	%r12b
	shll	$12, %r12d
	addq	%r14, %r12
	xorl	%r14d, %r14d
	testq	%r11, %r11
	sete	%r14b
	shll	$12, %r14d
	addq	%r11, %r14
	xorps	%xmm0, %xmm0
	movaps	%xmm0, 64(%rsp)
	movaps	%xmm0, 48(%rsp)
	movq	%r10, 40(%rsp)
	movq	%rdi, 24(%rsp)
	movq	%rax, 8(%rsp)
	movq	%r14, 32(%rsp)
	movq	%r12, 16(%rsp)
	movq	%r15, (%rsp)
	leaq	48(%rsp), %rdi
	callq	"tuners::set_frequency"
	movaps	48(%rsp), %xmm0
	movaps	64(%rsp), %xmm1
	movups	%xmm1, 16(%rbx)
	movups	%xmm0, (%rbx)
	movq	%rbx, %rax
	addq	$88, %rsp
	.cfi_def_cfa_offset 40
	popq	%rbx
	.cfi_def_cfa_offset 32
	popq	%r12
	.cfi_def_cfa_offset 24
	popq	%r14
	.cfi_def_cfa_offset 16
	popq	%r15
	.cfi_def_cfa_offset 8
	retq
.Lpasetone_func_end52:
	.size	pasetone_set_frequency, .Lpasetone_func_end52-pasetone_set_frequency
	.cfi_endproc

	.section	.text.pasetone_set_gain,"ax",@progbits
	.globl	pasetone_set_gain
	.p2align	4
	.type	pasetone_set_gain,@function
pasetone_set_gain:
	.cfi_startproc
	pushq	%rbx
	.cfi_def_cfa_offset 16
	subq	$64, %rsp
	.cfi_def_cfa_offset 80
	.cfi_offset %rbx, -16
	movq	%rdi, %rbx
	movq	80(%rsp), %rax
	movq	96(%rsp), %rdi
	movq	88(%rsp), %r10
	xorl	%r11d, %r11d
	testq	%rsi, %rsi
	sete	%r11b
	shll	$12, %r11d
	addq	%r11, %rsi
	xorl	%r11d, %r11d
	testq	%rcx, %rcx
	sete	%r11b
	shll	$12, %r11d
	addq	%r11, %rcx
	xorl	%r11d, %r11d
	testq	%r9, %r9
	sete	%r11b
	shll	$12, %r11d
	addq	%r11, %r9
	xorl	%r11d, %r11d
	testq	%r10, %r10
	sete	%r11b
	shll	$12, %r11d
	addq	%r10, %r11
	xorps	%xmm1, %xmm1
	movaps	%xmm1, 32(%rsp)
	movq	$0, 48(%rsp)
	movq	%rdi, 16(%rsp)
	movq	%rax, (%rsp)
	movq	%r11, 8(%rsp)
	leaq	32(%rsp), %rdi
	callq	"tuners::set_gain"
	movq	48(%rsp), %rax
	movq	%rax, 16(%rbx)
	movaps	32(%rsp), %xmm0
	movups	%xmm0, (%rbx)
	movq	%rbx, %rax
	addq	$64, %rsp
	.cfi_def_cfa_offset 16
	popq	%rbx
	.cfi_def_cfa_offset 8
	retq
.Lpasetone_func_end53:
	.size	pasetone_set_gain, .Lpasetone_func_end53-pasetone_set_gain
	.cfi_endproc

	.section	.text.pasetone_set_gain_by_index,"ax",@progbits
	.globl	pasetone_set_gain_by_index
	.p2align	4
	.type	pasetone_set_gain_by_index,@function
pasetone_set_gain_by_index:
	.cfi_startproc
	pushq	%r14
	.cfi_def_cfa_offset 16
	pushq	%rbx
	.cfi_def_cfa_offset 24
	subq	$56, %rsp
	.cfi_def_cfa_offset 80
	.cfi_offset %rbx, -24
	.cfi_offset %r14, -16
	movq	%rdi, %rbx
	movq	88(%rsp), %rax
	movq	104(%rsp), %rdi
	movq	96(%rsp), %r10
	movq	80(%rsp), %r11
	xorl	%r14d, %r14d
	testq	%rsi, %rsi
	sete	%r14b
	shll	$12, %r14d
	addq	%r14, %rsi
	xorl	%r14d, %r14d
	testq	%r8, %r8
	sete	%r14b
	shll	$12, %r14d
	addq	%r14, %r8
	xorl	%r14d, %r14d
	testq	%r11, %r11
	sete	%r14b
	shll	$12, %r14d
	addq	%r11, %r14
	xorl	%r11d, %r11d
	testq	%r10, %r10
	sete	%r11b
	shll	$12, %r11d
	addq	%r10, %r11
	xorps	%xmm0, %xmm0
	movaps	%xmm0, 32(%rsp)
	movq	$0, 48(%rsp)
	movq	%rdi, 24(%rsp)
	movq	%rax, 8(%rsp)
	movq	%r11, 16(%rsp)
	movq	%r14, (%rsp)
	leaq	32(%rsp), %rdi
	callq	"tuners::set_gain_by_index"
	movq	48(%rsp), %rax
	movq	%rax, 16(%rbx)
	movaps	32(%rsp), %xmm0
	movups	%xmm0, (%rbx)
	movq	%rbx, %rax
	addq	$56, %rsp
	.cfi_def_cfa_offset 24
	popq	%rbx
	.cfi_def_cfa_offset 16
	popq	%r14
	.cfi_def_cfa_offset 8
	retq
.Lpasetone_func_end54:
	.size	pasetone_set_gain_by_index, .Lpasetone_func_end54-pasetone_set_gain_by_index
	.cfi_endproc

	.section	.text.pasetone_set_gpio_bit,"ax",@progbits
	.globl	pasetone_set_gpio_bit
	.p2align	4
	.type	pasetone_set_gpio_bit,@function
pasetone_set_gpio_bit:
	.cfi_startproc
	pushq	%rbp
	.cfi_def_cfa_offset 16
	pushq	%r15
	.cfi_def_cfa_offset 24
	pushq	%r14
	.cfi_def_cfa_offset 32
	pushq	%r13
	.cfi_def_cfa_offset 40
	pushq	%r12
	.cfi_def_cfa_offset 48
	pushq	%rbx
	.cfi_def_cfa_offset 56
	.cfi_offset %rbx, -56
	.cfi_offset %r12, -48
	.cfi_offset %r13, -40
	.cfi_offset %r14, -32
	.cfi_offset %r15, -24
	.cfi_offset %rbp, -16
	movq	%rcx, %r10
	movl	%esi, %ecx
	movq	%rdi, %rax
	movq	64(%rsp), %rsi
	xorl	%r11d, %r11d
	testq	%r10, %r10
	sete	%bpl
	xorl	%r13d, %r13d
	testq	%r9, %r9
	sete	%r12b
	xorl	%edi, %edi
	testq	%rsi, %rsi
	sete	%r14b
	cmpb	$7, %cl
	jbe	.Lpasetone_BB55_3
	movl	$6, %ecx
.Lpasetone_BB55_2:
	xorl	%ebx, %ebx
	xorl	%edx, %edx
	jmp	.Lpasetone_BB55_13
.Lpasetone_BB55_3:
	movq	56(%rsp), %r15
	xorl	%ebx, %ebx
	testq	%r15, %r15
	je	.Lpasetone_BB55_4
	movb	%r12b, %r13b
	shll	$12, %r13d
	movzbl	(%r9,%r13), %r9d
	jmp	.Lpasetone_BB55_6
.Lpasetone_BB55_4:
	xorl	%r9d, %r9d
.Lpasetone_BB55_6:
	movb	$1, %r12b
	shlb	%cl, %r12b
	movb	$-2, %r13b
	rolb	%cl, %r13b
	andb	%r9b, %r13b
	orb	%r9b, %r12b
	testb	%dl, %dl
	movzbl	%r13b, %ecx
	movzbl	%r12b, %edx
	cmovel	%ecx, %edx
	cmpq	$40, 72(%rsp)
	jae	.Lpasetone_BB55_8
	movl	$8, %ecx
	xorl	%edx, %edx
	jmp	.Lpasetone_BB55_13
.Lpasetone_BB55_8:
	testq	%r15, %r15
	sete	%r15b
	xorl	%ebx, %ebx
	cmpq	$2, %r8
	setb	%cl
	orb	%cl, %r15b
	je	.Lpasetone_BB55_10
	movb	%cl, %bl
	movl	$10, %ecx
	subl	%ebx, %ecx
	jmp	.Lpasetone_BB55_2
.Lpasetone_BB55_10:
	movb	%bpl, %r11b
	movb	%r14b, %dil
	shll	$12, %r11d
	shll	$12, %edi
	movabsq	$52780870008838, %r8
	leaq	2(%r8), %rbx
	leaq	258(%r8), %r14
	xorl	%ecx, %ecx
	cmpb	$0, (%r10,%r11)
	movzbl	%r9b, %r9d
	cmovnel	%ecx, %r9d
	movzbl	%r9b, %r9d
	cmoveq	%rbx, %r14
	movq	%r14, (%rsi,%rdi)
	movq	%r9, 8(%rsi,%rdi)
	je	.Lpasetone_BB55_12
	movabsq	$68719476737, %rcx
	movq	%rcx, 16(%rsi,%rdi)
	movl	$11, %ecx
	movl	$1, %ebx
	xorl	%edx, %edx
	jmp	.Lpasetone_BB55_13
.Lpasetone_BB55_12:
	movzbl	%dl, %r9d
	xorl	%edx, %edx
	cmpb	$0, 1(%r10,%r11)
	leaq	256(%r8), %r10
	setne	%dl
	cmoveq	%r8, %r10
	movq	%r10, 16(%rsi,%rdi)
	movq	%r9, 24(%rsi,%rdi)
	movabsq	$137438953474, %r8
	movq	%r8, 32(%rsi,%rdi)
	movl	$11, %esi
	cmovnel	%esi, %ecx
	movl	$2, %ebx
.Lpasetone_BB55_13:
	movq	$0, (%rax)
	movq	%rdx, 8(%rax)
	movl	%ecx, 16(%rax)
	movl	%ebx, 20(%rax)
	popq	%rbx
	.cfi_def_cfa_offset 48
	popq	%r12
	.cfi_def_cfa_offset 40
	popq	%r13
	.cfi_def_cfa_offset 32
	popq	%r14
	.cfi_def_cfa_offset 24
	popq	%r15
	.cfi_def_cfa_offset 16
	popq	%rbp
	.cfi_def_cfa_offset 8
	retq
.Lpasetone_func_end55:
	.size	pasetone_set_gpio_bit, .Lpasetone_func_end55-pasetone_set_gpio_bit
	.cfi_endproc

	.section	.text.pasetone_set_gpio_output,"ax",@progbits
	.globl	pasetone_set_gpio_output
	.p2align	4
	.type	pasetone_set_gpio_output,@function
pasetone_set_gpio_output:
	.cfi_startproc
	pushq	%rbp
	.cfi_def_cfa_offset 16
	pushq	%r15
	.cfi_def_cfa_offset 24
	pushq	%r14
	.cfi_def_cfa_offset 32
	pushq	%r13
	.cfi_def_cfa_offset 40
	pushq	%r12
	.cfi_def_cfa_offset 48
	pushq	%rbx
	.cfi_def_cfa_offset 56
	.cfi_offset %rbx, -56
	.cfi_offset %r12, -48
	.cfi_offset %r13, -40
	.cfi_offset %r14, -32
	.cfi_offset %r15, -24
	.cfi_offset %rbp, -16
	movq	%rcx, %r10
	movl	%esi, %ecx
	movq	%rdi, %rax
	movq	56(%rsp), %rsi
	xorl	%edi, %edi
	testq	%rdx, %rdx
	sete	%bpl
	xorl	%ebx, %ebx
	testq	%r8, %r8
	sete	%r13b
	xorl	%r15d, %r15d
	testq	%rsi, %rsi
	sete	%r12b
	cmpb	$7, %cl
	jbe	.Lpasetone_BB56_3
	movl	$6, %edx
.Lpasetone_BB56_2:
	xorl	%r11d, %r11d
	jmp	.Lpasetone_BB56_10
.Lpasetone_BB56_3:
	movq	64(%rsp), %r14
	xorl	%r11d, %r11d
	testq	%r9, %r9
	je	.Lpasetone_BB56_6
	movb	%r13b, %bl
	shll	$12, %ebx
	movzbl	(%r8,%rbx), %r13d
	movq	%r13, -8(%rsp)
	cmpq	$1, %r9
	jne	.Lpasetone_BB56_7
	xorl	%r8d, %r8d
	jmp	.Lpasetone_BB56_8
.Lpasetone_BB56_6:
	movq	$0, -8(%rsp)
	xorl	%r8d, %r8d
	jmp	.Lpasetone_BB56_8
.Lpasetone_BB56_7:
	movzbl	1(%r8,%rbx), %r8d
.Lpasetone_BB56_8:
	movb	$1, %r13b
	shlb	%cl, %r13b
	movb	$-2, %bl
	rolb	%cl, %bl
	cmpq	$72, %r14
	jae	.Lpasetone_BB56_12
	movl	$8, %edx
.Lpasetone_BB56_10:
	xorl	%ecx, %ecx
.Lpasetone_BB56_11:
	movq	$0, (%rax)
	movq	%rcx, 8(%rax)
	movl	%edx, 16(%rax)
	movl	%r11d, 20(%rax)
	popq	%rbx
	.cfi_def_cfa_offset 48
	popq	%r12
	.cfi_def_cfa_offset 40
	popq	%r13
	.cfi_def_cfa_offset 32
	popq	%r14
	.cfi_def_cfa_offset 24
	popq	%r15
	.cfi_def_cfa_offset 16
	popq	%rbp
	.cfi_def_cfa_offset 8
	retq
.Lpasetone_BB56_12:
	.cfi_def_cfa_offset 56
	cmpq	$4, %r10
	jae	.Lpasetone_BB56_14
	movl	$9, %edx
	jmp	.Lpasetone_BB56_2
.Lpasetone_BB56_14:
	cmpq	$2, %r9
	jae	.Lpasetone_BB56_16
	movl	$10, %edx
	jmp	.Lpasetone_BB56_2
.Lpasetone_BB56_16:
	movb	%r12b, %r15b
	movb	%bpl, %dil
	shll	$12, %r15d
	shll	$12, %edi
	addq	%r15, %rsi
	movabsq	$52789459943430, %r9
	leaq	2(%r9), %r10
	leaq	258(%r9), %r11
	xorl	%ecx, %ecx
	cmpb	$0, (%rdx,%rdi)
	movq	-8(%rsp), %r15
	movzbl	%r15b, %ebp
	cmovnel	%ecx, %ebp
	movzbl	%bpl, %r14d
	cmoveq	%r10, %r11
	movq	%r11, (%rsi)
	movq	%r14, 8(%rsi)
	je	.Lpasetone_BB56_18
	movl	$1, %r11d
	jmp	.Lpasetone_BB56_22
.Lpasetone_BB56_18:
	orb	%r13b, %r15b
	movzbl	%r15b, %ecx
	leaq	256(%r9), %r10
	cmpb	$0, 1(%rdx,%rdi)
	cmoveq	%r9, %r10
	movq	%r10, 16(%rsi)
	movq	%rcx, 24(%rsi)
	je	.Lpasetone_BB56_20
	movl	$1, %ecx
	movl	$2, %r11d
	jmp	.Lpasetone_BB56_22
.Lpasetone_BB56_20:
	movabsq	$52793754910726, %rcx
	leaq	2(%rcx), %r10
	leaq	258(%rcx), %r11
	xorl	%r9d, %r9d
	cmpb	$0, 2(%rdx,%rdi)
	movzbl	%r8b, %ebp
	cmovnel	%r9d, %ebp
	movzbl	%bpl, %r14d
	cmoveq	%r10, %r11
	movq	%r11, 32(%rsi)
	movq	%r14, 40(%rsi)
	je	.Lpasetone_BB56_23
	movl	$2, %ecx
	movl	$3, %r11d
.Lpasetone_BB56_22:
	movl	%r11d, %edx
	shll	$4, %edx
	movl	%r11d, (%rsi,%rdx)
	movl	%edx, 4(%rsi,%rdx)
	movl	$11, %edx
	jmp	.Lpasetone_BB56_11
.Lpasetone_BB56_23:
	andb	%bl, %r8b
	movzbl	%r8b, %r8d
	leaq	256(%rcx), %r10
	xorl	%r11d, %r11d
	cmpb	$0, 3(%rdx,%rdi)
	setne	%r11b
	cmoveq	%rcx, %r10
	movq	%r10, 48(%rsi)
	movq	%r8, 56(%rsi)
	movabsq	$274877906948, %rcx
	movq	%rcx, 64(%rsi)
	leaq	(%r11,%r11,2), %rcx
	movl	$11, %edx
	cmovel	%r9d, %edx
	movl	$4, %r11d
	jmp	.Lpasetone_BB56_11
.Lpasetone_func_end56:
	.size	pasetone_set_gpio_output, .Lpasetone_func_end56-pasetone_set_gpio_output
	.cfi_endproc

	.section	.text.pasetone_set_if_freq,"ax",@progbits
	.globl	pasetone_set_if_freq
	.p2align	4
	.type	pasetone_set_if_freq,@function
pasetone_set_if_freq:
	.cfi_startproc
	pushq	%rbp
	.cfi_def_cfa_offset 16
	pushq	%r15
	.cfi_def_cfa_offset 24
	pushq	%r14
	.cfi_def_cfa_offset 32
	pushq	%r13
	.cfi_def_cfa_offset 40
	pushq	%r12
	.cfi_def_cfa_offset 48
	pushq	%rbx
	.cfi_def_cfa_offset 56
	subq	$520, %rsp
	.cfi_def_cfa_offset 576
	.cfi_offset %rbx, -56
	.cfi_offset %r12, -48
	.cfi_offset %r13, -40
	.cfi_offset %r14, -32
	.cfi_offset %r15, -24
	.cfi_offset %rbp, -16
	movq	%r9, 24(%rsp)
	movq	%r8, %r12
	movq	%rcx, 40(%rsp)
	movq	%rdi, %rbx
	movq	592(%rsp), %rbp
	movq	576(%rsp), %r15
	xorl	%eax, %eax
	testq	%rsi, %rsi
	sete	%al
	shll	$12, %eax
	addq	%rax, %rsi
	xorl	%r13d, %r13d
	testq	%r8, %r8
	sete	15(%rsp)
	xorl	%r14d, %r14d
	testq	%r15, %r15
	sete	16(%rsp)
	testq	%rbp, %rbp
	sete	17(%rsp)
	leaq	336(%rsp), %rdi
	callq	"records::decode_tuner"
	cmpb	$1, 336(%rsp)
	jne	.Lpasetone_BB57_1
	cmpq	$78, 600(%rsp)
	jb	.Lpasetone_BB57_4
	movzbl	344(%rsp), %eax
	movb	%al, 12(%rsp)
	movzbl	345(%rsp), %eax
	leaq	346(%rsp), %rcx
	movl	400(%rsp), %r11d
	movl	404(%rsp), %r9d
	movzbl	408(%rsp), %edx
	movb	%dl, 13(%rsp)
	movd	412(%rsp), %xmm2
	movq	416(%rsp), %rdi
	movzbl	424(%rsp), %edx
	movb	%dl, 14(%rsp)
	xorps	%xmm0, %xmm0
	movups	%xmm0, 91(%rsp)
	movaps	%xmm0, 80(%rsp)
	movaps	%xmm0, 48(%rsp)
	movups	%xmm0, 59(%rsp)
	movaps	%xmm0, 144(%rsp)
	movups	%xmm0, 155(%rsp)
	movaps	%xmm0, 112(%rsp)
	movups	%xmm0, 123(%rsp)
	cmpq	$3500000, 40(%rsp)
	setae	%dl
	movl	$107, %esi
	movl	$128, %r8d
	cmovael	%esi, %r8d
	shlb	$4, %dl
	movb	$10, 18(%rsp)
	movb	%dl, 19(%rsp)
	movw	$2928, 20(%rsp)
	movb	%r8b, 22(%rsp)
	movb	$-17, 23(%rsp)
	movaps	%xmm0, 304(%rsp)
	movaps	%xmm0, 288(%rsp)
	movaps	%xmm0, 272(%rsp)
	movaps	%xmm0, 256(%rsp)
	movaps	%xmm0, 240(%rsp)
	movq	$0, 320(%rsp)
	testl	%r11d, %r11d
	sete	%sil
	movl	%r9d, 36(%rsp)
	testl	%r9d, %r9d
	sete	%r8b
	movl	$1, %edx
	orb	%sil, %r8b
	jne	.Lpasetone_BB57_8
	movl	$8, %edx
	cmpq	$72, 584(%rsp)
	jb	.Lpasetone_BB57_8
	movl	$9, %edx
	cmpq	$3, 24(%rsp)
	ja	.Lpasetone_BB57_9
.Lpasetone_BB57_8:
	movups	(%rcx), %xmm0
	movups	11(%rcx), %xmm1
	movups	%xmm1, 219(%rsp)
	movaps	%xmm0, 208(%rsp)
	movups	27(%rcx), %xmm0
	movups	38(%rcx), %xmm1
	movaps	%xmm0, 176(%rsp)
	movups	%xmm1, 187(%rsp)
	movb	$1, %r8b
	xorl	%esi, %esi
	xorl	%ecx, %ecx
.Lpasetone_BB57_13:
	movaps	208(%rsp), %xmm0
	movaps	%xmm0, 144(%rsp)
	movups	219(%rsp), %xmm0
	movups	%xmm0, 155(%rsp)
	movaps	176(%rsp), %xmm0
	movaps	%xmm0, 112(%rsp)
	movups	187(%rsp), %xmm0
	movups	%xmm0, 123(%rsp)
	movaps	144(%rsp), %xmm0
	movaps	%xmm0, 80(%rsp)
	movups	155(%rsp), %xmm0
	movups	%xmm0, 91(%rsp)
	movups	123(%rsp), %xmm0
	movups	%xmm0, 59(%rsp)
	movaps	112(%rsp), %xmm0
	movaps	%xmm0, 48(%rsp)
	testb	%r8b, %r8b
	setne	%r9b
	testq	%rcx, %rcx
	sete	%r10b
	testb	%r10b, %r9b
	jne	.Lpasetone_BB57_15
	xorl	%r9d, %r9d
	movzbl	17(%rsp), %r10d
	movb	%r10b, %r9b
	shll	$12, %r9d
	addq	%r9, %rbp
	movzbl	14(%rsp), %r14d
	andb	$1, %r14b
	movd	%xmm2, %r9d
	ucomiss	%xmm2, %xmm2
	movl	$2143289344, %r10d
	cmovnpl	%r9d, %r10d
	movzbl	13(%rsp), %r9d
	andb	$1, %r9b
	movzbl	12(%rsp), %r15d
	movb	%r15b, (%rbp)
	movb	%al, 1(%rbp)
	movaps	80(%rsp), %xmm0
	movups	%xmm0, 2(%rbp)
	movups	91(%rsp), %xmm0
	movups	%xmm0, 13(%rbp)
	movl	%r11d, 29(%rbp)
	movl	36(%rsp), %eax
	movl	%eax, 33(%rbp)
	movb	%r9b, 37(%rbp)
	movl	%r10d, 38(%rbp)
	movq	%rdi, 42(%rbp)
	movb	%r14b, 50(%rbp)
	movaps	48(%rsp), %xmm0
	movups	%xmm0, 51(%rbp)
	movups	59(%rsp), %xmm0
	movups	%xmm0, 62(%rbp)
.Lpasetone_BB57_15:
	movzbl	%r8b, %eax
	testb	%r8b, %r8b
	je	.Lpasetone_BB57_16
	cmpl	$2, %eax
	jne	.Lpasetone_BB57_18
	movl	$11, %eax
	xorl	%edi, %edi
	jmp	.Lpasetone_BB57_20
.Lpasetone_BB57_1:
	xorl	%edi, %edi
	movl	$1, %eax
	jmp	.Lpasetone_BB57_2
.Lpasetone_BB57_4:
	xorl	%edi, %edi
	movl	$8, %eax
.Lpasetone_BB57_2:
	xorl	%esi, %esi
	xorl	%ecx, %ecx
.Lpasetone_BB57_20:
	movq	%rdi, (%rbx)
	movq	%rsi, 8(%rbx)
	movl	%eax, 16(%rbx)
	movl	%ecx, 20(%rbx)
	movq	%rbx, %rax
	addq	$520, %rsp
	.cfi_def_cfa_offset 56
	popq	%rbx
	.cfi_def_cfa_offset 48
	popq	%r12
	.cfi_def_cfa_offset 40
	popq	%r13
	.cfi_def_cfa_offset 32
	popq	%r14
	.cfi_def_cfa_offset 24
	popq	%r15
	.cfi_def_cfa_offset 16
	popq	%rbp
	.cfi_def_cfa_offset 8
	retq
.Lpasetone_BB57_16:
	.cfi_def_cfa_offset 576
	movq	%rsi, %rdi
	movq	%rax, %rsi
	jmp	.Lpasetone_BB57_20
.Lpasetone_BB57_18:
	xorl	%edi, %edi
	xorl	%esi, %esi
	movl	%edx, %eax
	jmp	.Lpasetone_BB57_20
.Lpasetone_BB57_9:
	movd	%xmm2, 32(%rsp)
	movl	%r11d, 24(%rsp)
	movzbl	15(%rsp), %edx
	movb	%dl, %r13b
	shll	$12, %r13d
	addq	%r13, %r12
	movzbl	16(%rsp), %edx
	movb	%dl, %r14b
	shll	$12, %r14d
	addq	%r14, %r15
	movb	%al, 432(%rsp)
	movups	(%rcx), %xmm0
	movups	11(%rcx), %xmm1
	movups	%xmm0, 433(%rsp)
	movups	%xmm1, 444(%rsp)
	movups	27(%rcx), %xmm0
	movups	38(%rcx), %xmm1
	movups	%xmm0, 460(%rsp)
	movups	%xmm1, 471(%rsp)
	xorps	%xmm0, %xmm0
	movups	%xmm0, 487(%rsp)
	movups	%xmm0, 503(%rsp)
	movb	$0, 519(%rsp)
	leaq	240(%rsp), %rdi
	leaq	432(%rsp), %rsi
	leaq	18(%rsp), %rdx
	movl	$2, %ecx
	movq	%r12, %r8
	movq	%r15, %r9
	callq	"chip::with_repeater"
	movq	296(%rsp), %rcx
	movq	%rcx, %rax
	shlq	$4, %rax
	xorl	%edx, %edx
	cmpb	$0, 304(%rsp)
	setne	%r8b
	je	.Lpasetone_BB57_10
	movq	312(%rsp), %rsi
	jmp	.Lpasetone_BB57_12
.Lpasetone_BB57_10:
	xorl	%esi, %esi
.Lpasetone_BB57_12:
	movl	%ecx, (%r15,%rax)
	movl	%eax, 4(%r15,%rax)
	addb	%r8b, %r8b
	movzbl	240(%rsp), %eax
	movups	241(%rsp), %xmm0
	movaps	%xmm0, 208(%rsp)
	movups	252(%rsp), %xmm0
	movups	%xmm0, 219(%rsp)
	movups	268(%rsp), %xmm0
	movaps	%xmm0, 176(%rsp)
	movups	279(%rsp), %xmm0
	movups	%xmm0, 187(%rsp)
	movq	40(%rsp), %rdi
	movl	24(%rsp), %r11d
	movd	32(%rsp), %xmm2
	jmp	.Lpasetone_BB57_13
.Lpasetone_func_end57:
	.size	pasetone_set_if_freq, .Lpasetone_func_end57-pasetone_set_if_freq
	.cfi_endproc

	.section	.text.pasetone_set_if_freq_xtal,"ax",@progbits
	.globl	pasetone_set_if_freq_xtal
	.p2align	4
	.type	pasetone_set_if_freq_xtal,@function
pasetone_set_if_freq_xtal:
	.cfi_startproc
	pushq	%rbp
	.cfi_def_cfa_offset 16
	pushq	%r15
	.cfi_def_cfa_offset 24
	pushq	%r14
	.cfi_def_cfa_offset 32
	pushq	%rbx
	.cfi_def_cfa_offset 40
	.cfi_offset %rbx, -40
	.cfi_offset %r14, -32
	.cfi_offset %r15, -24
	.cfi_offset %rbp, -16
	xorl	%r10d, %r10d
	testq	%rcx, %rcx
	sete	%bl
	xorl	%r11d, %r11d
	testq	%r9, %r9
	sete	%bpl
	testl	%edx, %edx
	je	.Lpasetone_BB58_1
	movq	40(%rsp), %r14
	movl	%edx, %r15d
	movl	%esi, %eax
	shlq	$22, %rax
	movabsq	$18014394214514688, %rdx
	testq	%rdx, %rax
	je	.Lpasetone_BB58_4
	xorl	%edx, %edx
	divq	%r15
	cmpq	$56, %r14
	jae	.Lpasetone_BB58_8
.Lpasetone_BB58_7:
	movl	$8, %edx
	jmp	.Lpasetone_BB58_2
.Lpasetone_BB58_1:
	movl	$4, %edx
	jmp	.Lpasetone_BB58_2
.Lpasetone_BB58_4:
	xorl	%edx, %edx
	divl	%r15d
	cmpq	$56, %r14
	jb	.Lpasetone_BB58_7
.Lpasetone_BB58_8:
	cmpq	$3, %r8
	jae	.Lpasetone_BB58_10
	movl	$9, %edx
.Lpasetone_BB58_2:
	xorl	%ecx, %ecx
	xorl	%eax, %eax
.Lpasetone_BB58_16:
	movq	$0, (%rdi)
	movq	%rax, 8(%rdi)
	movl	%edx, 16(%rdi)
	movl	%ecx, 20(%rdi)
	movq	%rdi, %rax
	popq	%rbx
	.cfi_def_cfa_offset 32
	popq	%r14
	.cfi_def_cfa_offset 24
	popq	%r15
	.cfi_def_cfa_offset 16
	popq	%rbp
	.cfi_def_cfa_offset 8
	retq
.Lpasetone_BB58_10:
	.cfi_def_cfa_offset 40
	movb	%bpl, %r11b
	movb	%bl, %r10b
	shll	$12, %r11d
	shll	$12, %r10d
	addq	%r11, %r9
	negl	%eax
	movl	%eax, %edx
	shrl	$16, %edx
	andl	$63, %edx
	movabsq	$107391025156, %rsi
	leaq	256(%rsi), %r8
	cmpb	$0, (%rcx,%r10)
	cmoveq	%rsi, %r8
	movq	%r8, (%r9)
	movq	%rdx, 8(%r9)
	je	.Lpasetone_BB58_12
	xorl	%eax, %eax
	movl	$1, %ecx
	jmp	.Lpasetone_BB58_14
.Lpasetone_BB58_12:
	movzbl	%ah, %edx
	movzwl	%dx, %edx
	movabsq	$111685992452, %rsi
	leaq	256(%rsi), %r8
	cmpb	$0, 1(%rcx,%r10)
	cmoveq	%rsi, %r8
	movq	%r8, 16(%r9)
	movq	%rdx, 24(%r9)
	je	.Lpasetone_BB58_15
	movl	$1, %eax
	movl	$2, %ecx
.Lpasetone_BB58_14:
	movl	%ecx, %edx
	shll	$4, %edx
	movl	%ecx, (%r9,%rdx)
	movl	%edx, 4(%r9,%rdx)
	movl	$11, %edx
	jmp	.Lpasetone_BB58_16
.Lpasetone_BB58_15:
	movzbl	%al, %eax
	movzwl	%ax, %edx
	movabsq	$115980959748, %rsi
	leaq	256(%rsi), %r8
	xorl	%r11d, %r11d
	xorl	%eax, %eax
	cmpb	$0, 2(%rcx,%r10)
	setne	%al
	cmoveq	%rsi, %r8
	movq	%r8, 32(%r9)
	movq	%rdx, 40(%r9)
	movabsq	$206158430211, %rcx
	movq	%rcx, 48(%r9)
	movl	$11, %edx
	cmovel	%r11d, %edx
	addl	%eax, %eax
	movl	$3, %ecx
	jmp	.Lpasetone_BB58_16
.Lpasetone_func_end58:
	.size	pasetone_set_if_freq_xtal, .Lpasetone_func_end58-pasetone_set_if_freq_xtal
	.cfi_endproc

	.section	.text.pasetone_set_input_path,"ax",@progbits
	.globl	pasetone_set_input_path
	.p2align	4
	.type	pasetone_set_input_path,@function
pasetone_set_input_path:
	.cfi_startproc
	pushq	%rbp
	.cfi_def_cfa_offset 16
	pushq	%r15
	.cfi_def_cfa_offset 24
	pushq	%r14
	.cfi_def_cfa_offset 32
	pushq	%r13
	.cfi_def_cfa_offset 40
	pushq	%r12
	.cfi_def_cfa_offset 48
	pushq	%rbx
	.cfi_def_cfa_offset 56
	subq	$392, %rsp
	.cfi_def_cfa_offset 448
	.cfi_offset %rbx, -56
	.cfi_offset %r12, -48
	.cfi_offset %r13, -40
	.cfi_offset %r14, -32
	.cfi_offset %r15, -24
	.cfi_offset %rbp, -16
	movq	%r9, 24(%rsp)
	movq	%r8, %r15
	movq	%rcx, %r13
	movq	%rdi, %rbx
	movq	464(%rsp), %rbp
	movq	448(%rsp), %r14
	xorl	%eax, %eax
	testq	%rsi, %rsi
	sete	%al
	shll	$12, %eax
	addq	%rax, %rsi
	testq	%r8, %r8
	sete	%r12b
	testq	%r14, %r14
	sete	12(%rsp)
	testq	%rbp, %rbp
	sete	13(%rsp)
	leaq	208(%rsp), %rdi
	callq	"records::decode_tuner"
	cmpb	$1, 208(%rsp)
	jne	.Lpasetone_BB59_1
	cmpq	$78, 472(%rsp)
	setb	%al
	shlb	$3, %al
	cmpq	$3, %r13
	movzbl	%al, %ecx
	movl	$1, %eax
	cmovbl	%ecx, %eax
	testb	%al, %al
	je	.Lpasetone_BB59_5
	movzbl	%al, %eax
	xorl	%ecx, %ecx
	jmp	.Lpasetone_BB59_2
.Lpasetone_BB59_1:
	xorl	%ecx, %ecx
	movl	$1, %eax
.Lpasetone_BB59_2:
	xorl	%edx, %edx
	xorl	%esi, %esi
.Lpasetone_BB59_25:
	movq	%rcx, (%rbx)
	movq	%rdx, 8(%rbx)
	movl	%eax, 16(%rbx)
	movl	%esi, 20(%rbx)
	movq	%rbx, %rax
	addq	$392, %rsp
	.cfi_def_cfa_offset 56
	popq	%rbx
	.cfi_def_cfa_offset 48
	popq	%r12
	.cfi_def_cfa_offset 40
	popq	%r13
	.cfi_def_cfa_offset 32
	popq	%r14
	.cfi_def_cfa_offset 24
	popq	%r15
	.cfi_def_cfa_offset 16
	popq	%rbp
	.cfi_def_cfa_offset 8
	retq
.Lpasetone_BB59_5:
	.cfi_def_cfa_offset 448
	movzbl	216(%rsp), %esi
	movzbl	217(%rsp), %eax
	leaq	218(%rsp), %rdx
	movl	272(%rsp), %r11d
	movl	276(%rsp), %r10d
	movzbl	280(%rsp), %ecx
	movb	%cl, 10(%rsp)
	movd	284(%rsp), %xmm2
	movq	288(%rsp), %rcx
	movq	%rcx, 104(%rsp)
	movzbl	296(%rsp), %ecx
	movb	%cl, 11(%rsp)
	cmpb	$2, %r13b
	movb	%sil, 9(%rsp)
	ja	.Lpasetone_BB59_26
	testb	%sil, %sil
	je	.Lpasetone_BB59_7
	shll	$3, %r13d
	movl	$328966, %esi
	movl	%r13d, %ecx
	shrl	%cl, %esi
	movl	$2113544, %edi
	shrl	%cl, %edi
	movl	$6316040, %r8d
	shrl	%cl, %r8d
	movl	$394757, %r9d
	shrl	%cl, %r9d
	movl	%r10d, 20(%rsp)
	movl	$526432, %r10d
	shrl	%cl, %r10d
	movb	%sil, 14(%rsp)
	movb	%dil, 15(%rsp)
	movb	%r8b, 16(%rsp)
	movb	%r9b, 17(%rsp)
	movb	$0, 18(%rsp)
	movb	%r10b, 19(%rsp)
	movl	20(%rsp), %r10d
	xorps	%xmm0, %xmm0
	movaps	%xmm0, 176(%rsp)
	movaps	%xmm0, 160(%rsp)
	movaps	%xmm0, 144(%rsp)
	movaps	%xmm0, 128(%rsp)
	movaps	%xmm0, 112(%rsp)
	movq	$0, 192(%rsp)
	testl	%r11d, %r11d
	sete	%sil
	testl	%r10d, %r10d
	sete	%dil
	movb	$1, %cl
	orb	%sil, %dil
	movb	$1, %dil
	jne	.Lpasetone_BB59_11
	movb	$8, %dil
	cmpq	$72, 456(%rsp)
	jb	.Lpasetone_BB59_11
	movb	$9, %dil
	cmpq	$3, 24(%rsp)
	ja	.Lpasetone_BB59_12
.Lpasetone_BB59_11:
	movups	(%rdx), %xmm0
	movups	11(%rdx), %xmm1
	movups	%xmm1, 75(%rsp)
	movaps	%xmm0, 64(%rsp)
	movups	27(%rdx), %xmm0
	movups	38(%rdx), %xmm1
	movaps	%xmm0, 32(%rsp)
	movups	%xmm1, 43(%rsp)
	xorl	%edx, %edx
	xorl	%esi, %esi
	movzbl	%dil, %edi
	testb	%cl, %cl
	jne	.Lpasetone_BB59_18
	jmp	.Lpasetone_BB59_19
.Lpasetone_BB59_26:
	movups	(%rdx), %xmm0
	movups	11(%rdx), %xmm1
	movups	%xmm1, 75(%rsp)
	movaps	%xmm0, 64(%rsp)
	movups	27(%rdx), %xmm0
	movups	38(%rdx), %xmm1
	movaps	%xmm0, 32(%rsp)
	movups	%xmm1, 43(%rsp)
	movl	$1, %edi
	movb	$1, %cl
	xorl	%edx, %edx
	xorl	%esi, %esi
	testb	%cl, %cl
	jne	.Lpasetone_BB59_18
	jmp	.Lpasetone_BB59_19
.Lpasetone_BB59_7:
	testl	%r11d, %r11d
	sete	%sil
	testl	%r10d, %r10d
	sete	%cl
	orb	%sil, %cl
	movups	(%rdx), %xmm0
	movups	11(%rdx), %xmm1
	movups	%xmm1, 75(%rsp)
	movaps	%xmm0, 64(%rsp)
	movups	27(%rdx), %xmm0
	movups	38(%rdx), %xmm1
	movaps	%xmm0, 32(%rsp)
	movups	%xmm1, 43(%rsp)
	xorl	%edx, %edx
	movl	%ecx, %edi
	xorl	%esi, %esi
	movzbl	%dil, %edi
	testb	%cl, %cl
	je	.Lpasetone_BB59_19
.Lpasetone_BB59_18:
	testq	%rsi, %rsi
	je	.Lpasetone_BB59_20
.Lpasetone_BB59_19:
	xorl	%r8d, %r8d
	movzbl	13(%rsp), %r9d
	movb	%r9b, %r8b
	shll	$12, %r8d
	addq	%r8, %rbp
	movzbl	11(%rsp), %r14d
	andb	$1, %r14b
	movd	%xmm2, %r8d
	ucomiss	%xmm2, %xmm2
	movl	$2143289344, %r9d
	cmovnpl	%r8d, %r9d
	movzbl	10(%rsp), %r8d
	andb	$1, %r8b
	movzbl	9(%rsp), %r15d
	movb	%r15b, (%rbp)
	movb	%al, 1(%rbp)
	movaps	64(%rsp), %xmm0
	movups	%xmm0, 2(%rbp)
	movups	75(%rsp), %xmm0
	movups	%xmm0, 13(%rbp)
	movl	%r11d, 29(%rbp)
	movl	%r10d, 33(%rbp)
	movb	%r8b, 37(%rbp)
	movl	%r9d, 38(%rbp)
	movq	104(%rsp), %rax
	movq	%rax, 42(%rbp)
	movb	%r14b, 50(%rbp)
	movaps	32(%rsp), %xmm0
	movups	%xmm0, 51(%rbp)
	movups	43(%rsp), %xmm0
	movups	%xmm0, 62(%rbp)
.Lpasetone_BB59_20:
	movzbl	%cl, %eax
	testb	%cl, %cl
	je	.Lpasetone_BB59_21
	cmpl	$2, %eax
	jne	.Lpasetone_BB59_23
	movl	$11, %eax
	xorl	%ecx, %ecx
	jmp	.Lpasetone_BB59_25
.Lpasetone_BB59_21:
	movq	%rdx, %rcx
	movq	%rax, %rdx
	jmp	.Lpasetone_BB59_25
.Lpasetone_BB59_23:
	xorl	%ecx, %ecx
	xorl	%edx, %edx
	movl	%edi, %eax
	jmp	.Lpasetone_BB59_25
.Lpasetone_BB59_12:
	movd	%xmm2, 24(%rsp)
	movl	%r11d, %r13d
	xorl	%ecx, %ecx
	movb	%r12b, %cl
	shll	$12, %ecx
	addq	%rcx, %r15
	xorl	%ecx, %ecx
	movzbl	12(%rsp), %esi
	movb	%sil, %cl
	shll	$12, %ecx
	addq	%rcx, %r14
	movb	%al, 304(%rsp)
	movups	(%rdx), %xmm0
	movups	11(%rdx), %xmm1
	movups	%xmm0, 305(%rsp)
	movups	%xmm1, 316(%rsp)
	movups	27(%rdx), %xmm0
	movups	38(%rdx), %xmm1
	movups	%xmm0, 332(%rsp)
	movups	%xmm1, 343(%rsp)
	xorps	%xmm0, %xmm0
	movups	%xmm0, 359(%rsp)
	movups	%xmm0, 375(%rsp)
	movb	$0, 391(%rsp)
	leaq	112(%rsp), %rdi
	leaq	304(%rsp), %rsi
	leaq	14(%rsp), %rdx
	movl	$2, %ecx
	movq	%r15, %r8
	movq	%r14, %r9
	callq	"chip::with_repeater"
	movq	168(%rsp), %rsi
	movq	%rsi, %rax
	shlq	$4, %rax
	xorl	%edi, %edi
	cmpb	$0, 176(%rsp)
	setne	%cl
	je	.Lpasetone_BB59_13
	movq	184(%rsp), %rdx
	jmp	.Lpasetone_BB59_15
.Lpasetone_BB59_13:
	xorl	%edx, %edx
.Lpasetone_BB59_15:
	movl	%esi, (%r14,%rax)
	movl	%eax, 4(%r14,%rax)
	addb	%cl, %cl
	movzbl	112(%rsp), %eax
	movups	113(%rsp), %xmm0
	movaps	%xmm0, 64(%rsp)
	movups	124(%rsp), %xmm0
	movups	%xmm0, 75(%rsp)
	movups	140(%rsp), %xmm0
	movaps	%xmm0, 32(%rsp)
	movups	151(%rsp), %xmm0
	movups	%xmm0, 43(%rsp)
	movl	%r13d, %r11d
	movl	20(%rsp), %r10d
	movd	24(%rsp), %xmm2
	movzbl	%dil, %edi
	testb	%cl, %cl
	jne	.Lpasetone_BB59_18
	jmp	.Lpasetone_BB59_19
.Lpasetone_func_end59:
	.size	pasetone_set_input_path, .Lpasetone_func_end59-pasetone_set_input_path
	.cfi_endproc

	.section	.text.pasetone_set_ppm,"ax",@progbits
	.globl	pasetone_set_ppm
	.p2align	4
	.type	pasetone_set_ppm,@function
pasetone_set_ppm:
	.cfi_startproc
	pushq	%rbx
	.cfi_def_cfa_offset 16
	subq	$32, %rsp
	.cfi_def_cfa_offset 48
	.cfi_offset %rbx, -16
	movq	%rdi, %rbx
	xorl	%eax, %eax
	testq	%rsi, %rsi
	sete	%al
	shll	$12, %eax
	addq	%rax, %rsi
	xorl	%eax, %eax
	testq	%rcx, %rcx
	sete	%al
	shll	$12, %eax
	addq	%rax, %rcx
	leaq	8(%rsp), %rdi
	callq	"drivers::set_ppm"
	movq	24(%rsp), %rax
	movq	%rax, 16(%rbx)
	movups	8(%rsp), %xmm0
	movups	%xmm0, (%rbx)
	movq	%rbx, %rax
	addq	$32, %rsp
	.cfi_def_cfa_offset 16
	popq	%rbx
	.cfi_def_cfa_offset 8
	retq
.Lpasetone_func_end60:
	.size	pasetone_set_ppm, .Lpasetone_func_end60-pasetone_set_ppm
	.cfi_endproc

	.section	.text.pasetone_set_sample_rate,"ax",@progbits
	.globl	pasetone_set_sample_rate
	.p2align	4
	.type	pasetone_set_sample_rate,@function
pasetone_set_sample_rate:
	.cfi_startproc
	pushq	%rbp
	.cfi_def_cfa_offset 16
	pushq	%r15
	.cfi_def_cfa_offset 24
	pushq	%r14
	.cfi_def_cfa_offset 32
	pushq	%r13
	.cfi_def_cfa_offset 40
	pushq	%r12
	.cfi_def_cfa_offset 48
	pushq	%rbx
	.cfi_def_cfa_offset 56
	subq	$104, %rsp
	.cfi_def_cfa_offset 160
	.cfi_offset %rbx, -56
	.cfi_offset %r12, -48
	.cfi_offset %r13, -40
	.cfi_offset %r14, -32
	.cfi_offset %r15, -24
	.cfi_offset %rbp, -16
	movq	%rdi, %rbx
	movl	168(%rsp), %edi
	movq	184(%rsp), %r10
	movq	200(%rsp), %r11
	movq	224(%rsp), %r14
	movq	208(%rsp), %r15
	movq	192(%rsp), %r13
	movq	176(%rsp), %rbp
	xorl	%r12d, %r12d
	testq	%rsi, %rsi
	sete	%r12b
	shll	$12, %r12d
	addq	%r12, %rsi
	xorl	%r12d, %r12d
	testq	%rcx, %rcx
	sete	%r12b
	shll	$12, %r12d
	addq	%r12, %rcx
	xorl	%r12d, %r12d
	testq	%r9, %r9
	sete	%r12b
	shll	$12, %r12d
	addq	%r12, %r9
	xorl	%r12d, %r12d
	testq	%rbp, %rbp
	sete	%r12b
	shll	$12, %r12d
	addq	%rbp, %r12
	xorl	%ebp, %ebp
	testq	%r13, %r13
	sete	%bpl
	shll	$12, %ebp
	addq	%r13, %rbp
	xorl	%r13d, %r13d
	testq	%r15, %r15
	sete	%r13b
	shll	$12, %r13d
	addq	%r15, %r13
	xorl	%r15d, %r15d
	testq	%r14, %r14
	sete	%r15b
	shll	$12, %r15d
	addq	%r14, %r15
	movq	216(%rsp), %r14
	xorps	%xmm0, %xmm0
	movaps	%xmm0, 80(%rsp)
	movq	$0, 96(%rsp)
	movq	232(%rsp), %rax
	movq	%rax, 72(%rsp)
	movq	%r14, 56(%rsp)
	movq	%r11, 40(%rsp)
	movq	%r10, 24(%rsp)
	movl	%edi, 8(%rsp)
	movq	160(%rsp), %rax
	movq	%rax, (%rsp)
	movq	%r15, 64(%rsp)
	movq	%r13, 48(%rsp)
	movq	%rbp, 32(%rsp)
	movq	%r12, 16(%rsp)
	leaq	80(%rsp), %rdi
	callq	"drivers::set_sample_rate"
	movq	96(%rsp), %rax
	movq	%rax, 16(%rbx)
	movaps	80(%rsp), %xmm0
	movups	%xmm0, (%rbx)
	movq	%rbx, %rax
	addq	$104, %rsp
	.cfi_def_cfa_offset 56
	popq	%rbx
	.cfi_def_cfa_offset 48
	popq	%r12
	.cfi_def_cfa_offset 40
	popq	%r13
	.cfi_def_cfa_offset 32
	popq	%r14
	.cfi_def_cfa_offset 24
	popq	%r15
	.cfi_def_cfa_offset 16
	popq	%rbp
	.cfi_def_cfa_offset 8
	retq
.Lpasetone_func_end61:
	.size	pasetone_set_sample_rate, .Lpasetone_func_end61-pasetone_set_sample_rate
	.cfi_endproc

	.section	.text.pasetone_set_sample_rate_xtal,"ax",@progbits
	.globl	pasetone_set_sample_rate_xtal
	.p2align	4
	.type	pasetone_set_sample_rate_xtal,@function
pasetone_set_sample_rate_xtal:
	.cfi_startproc
	pushq	%rbp
	.cfi_def_cfa_offset 16
	pushq	%r14
	.cfi_def_cfa_offset 24
	pushq	%rbx
	.cfi_def_cfa_offset 32
	.cfi_offset %rbx, -32
	.cfi_offset %r14, -24
	.cfi_offset %rbp, -16
	xorl	%r10d, %r10d
	testq	%rcx, %rcx
	sete	%bl
	xorl	%r11d, %r11d
	testq	%r9, %r9
	sete	%bpl
	testl	%edx, %edx
	sete	%al
	shlb	$2, %al
	testl	%esi, %esi
	movzbl	%al, %eax
	movl	$3, %r14d
	cmovnel	%eax, %r14d
	testb	%r14b, %r14b
	je	.Lpasetone_BB62_1
.Lpasetone_BB62_17:
	movzbl	%r14b, %edx
	xorl	%ecx, %ecx
	xorl	%eax, %eax
.Lpasetone_BB62_18:
	movq	$0, (%rdi)
	movq	%rax, 8(%rdi)
	movl	%edx, 16(%rdi)
	movl	%ecx, 20(%rdi)
	movq	%rdi, %rax
	popq	%rbx
	.cfi_def_cfa_offset 24
	popq	%r14
	.cfi_def_cfa_offset 16
	popq	%rbp
	.cfi_def_cfa_offset 8
	retq
.Lpasetone_BB62_1:
	.cfi_def_cfa_offset 32
	testl	%esi, %esi
	je	.Lpasetone_BB62_19
	movl	%esi, %esi
	movl	%edx, %eax
	shlq	$22, %rax
	movabsq	$18014394214514688, %rdx
	testq	%rdx, %rax
	je	.Lpasetone_BB62_3
	xorl	%edx, %edx
	divq	%rsi
	leaq	-4(%rax), %rdx
	movb	$13, %r14b
	cmpq	$536870907, %rdx
	jbe	.Lpasetone_BB62_6
	jmp	.Lpasetone_BB62_17
.Lpasetone_BB62_3:
	xorl	%edx, %edx
	divl	%esi
	leaq	-4(%rax), %rdx
	movb	$13, %r14b
	cmpq	$536870907, %rdx
	ja	.Lpasetone_BB62_17
.Lpasetone_BB62_6:
	movl	%eax, %edx
	shrl	$27, %edx
	movl	%eax, %esi
	shrl	$28, %esi
	xorl	%edx, %esi
	andl	$1, %esi
	jne	.Lpasetone_BB62_17
	movb	$8, %r14b
	cmpq	$72, 32(%rsp)
	jb	.Lpasetone_BB62_17
	movb	$9, %r14b
	cmpq	$4, %r8
	jb	.Lpasetone_BB62_17
	movb	%bpl, %r11b
	movb	%bl, %r10b
	shll	$12, %r11d
	shll	$12, %r10d
	addq	%r11, %r9
	movl	%eax, %edx
	andl	$268369920, %edx
	movl	%eax, %esi
	andl	$134217728, %esi
	leal	(%rdx,%rsi,2), %edx
	shrl	$16, %edx
	rolw	$8, %dx
	movzwl	%dx, %edx
	movabsq	$682933420037, %rsi
	leaq	256(%rsi), %r8
	cmpb	$0, (%rcx,%r10)
	cmoveq	%rsi, %r8
	movq	%r8, (%r9)
	movq	%rdx, 8(%r9)
	je	.Lpasetone_BB62_11
	xorl	%eax, %eax
	movl	$1, %ecx
	jmp	.Lpasetone_BB62_15
.Lpasetone_BB62_11:
	andl	$65532, %eax
	rolw	$8, %ax
	movzwl	%ax, %eax
	movabsq	$691523354629, %rdx
	leaq	256(%rdx), %rsi
	cmpb	$0, 1(%rcx,%r10)
	cmoveq	%rdx, %rsi
	movq	%rsi, 16(%r9)
	movq	%rax, 24(%r9)
	je	.Lpasetone_BB62_13
	movl	$1, %eax
	movl	$2, %ecx
	jmp	.Lpasetone_BB62_15
.Lpasetone_BB62_13:
	movabsq	$270599782404, %rax
	leaq	256(%rax), %rdx
	cmpb	$0, 2(%rcx,%r10)
	cmoveq	%rax, %rdx
	movq	%rdx, 32(%r9)
	movq	$0, 40(%r9)
	je	.Lpasetone_BB62_16
	movl	$2, %eax
	movl	$3, %ecx
.Lpasetone_BB62_15:
	movl	%ecx, %edx
	shll	$4, %edx
	movl	%ecx, (%r9,%rdx)
	movl	%edx, 4(%r9,%rdx)
	movl	$11, %edx
	jmp	.Lpasetone_BB62_18
.Lpasetone_BB62_16:
	movabsq	$266304815108, %rax
	leaq	256(%rax), %rdx
	xorl	%esi, %esi
	xorl	%r8d, %r8d
	cmpb	$0, 3(%rcx,%r10)
	setne	%r8b
	cmoveq	%rax, %rdx
	movq	%rdx, 48(%r9)
	movq	$0, 56(%r9)
	movabsq	$274877906948, %rax
	movq	%rax, 64(%r9)
	leaq	(%r8,%r8,2), %rax
	movl	$11, %edx
	cmovel	%esi, %edx
	movl	$4, %ecx
	jmp	.Lpasetone_BB62_18
.Lpasetone_BB62_19:
	ud2
.Lpasetone_func_end62:
	.size	pasetone_set_sample_rate_xtal, .Lpasetone_func_end62-pasetone_set_sample_rate_xtal
	.cfi_endproc

	.section	.text.pasetone_set_tuner_low_if,"ax",@progbits
	.globl	pasetone_set_tuner_low_if
	.p2align	4
	.type	pasetone_set_tuner_low_if,@function
pasetone_set_tuner_low_if:
	.cfi_startproc
	movq	%rdi, %rax
	xorl	%r9d, %r9d
	testq	%rsi, %rsi
	sete	%r11b
	xorl	%edi, %edi
	testq	%rcx, %rcx
	sete	%r10b
	cmpq	$40, %r8
	jae	.Lpasetone_BB63_2
	movl	$8, %ecx
	jmp	.Lpasetone_BB63_4
.Lpasetone_BB63_2:
	cmpq	$2, %rdx
	jae	.Lpasetone_BB63_7
	movl	$9, %ecx
.Lpasetone_BB63_4:
	xorl	%esi, %esi
.Lpasetone_BB63_5:
	xorl	%edx, %edx
.Lpasetone_BB63_6:
	movq	$0, (%rax)
	movq	%rdx, 8(%rax)
	movl	%ecx, 16(%rax)
	movl	%esi, 20(%rax)
	retq
.Lpasetone_BB63_7:
	movb	%r11b, %r9b
	shll	$12, %r9d
	movb	%r10b, %dil
	shll	$12, %edi
	movabsq	$760226054148, %rdx
	leaq	256(%rdx), %r8
	cmpb	$0, (%rsi,%r9)
	cmoveq	%rdx, %r8
	movq	%r8, (%rcx,%rdi)
	movq	$26, 8(%rcx,%rdi)
	je	.Lpasetone_BB63_9
	movabsq	$68719476737, %rdx
	movq	%rdx, 16(%rcx,%rdi)
	movl	$11, %ecx
	movl	$1, %esi
	jmp	.Lpasetone_BB63_5
.Lpasetone_BB63_9:
	movabsq	$34376515588, %r8
	xorl	%r10d, %r10d
	xorl	%edx, %edx
	cmpb	$0, 1(%rsi,%r9)
	leaq	256(%r8), %rsi
	setne	%dl
	cmoveq	%r8, %rsi
	movq	%rsi, 16(%rcx,%rdi)
	movq	$77, 24(%rcx,%rdi)
	movabsq	$137438953474, %rsi
	movq	%rsi, 32(%rcx,%rdi)
	movl	$11, %ecx
	cmovel	%r10d, %ecx
	movl	$2, %esi
	jmp	.Lpasetone_BB63_6
.Lpasetone_func_end63:
	.size	pasetone_set_tuner_low_if, .Lpasetone_func_end63-pasetone_set_tuner_low_if
	.cfi_endproc

	.section	.text.pasetone_set_tuner_zero_if,"ax",@progbits
	.globl	pasetone_set_tuner_zero_if
	.p2align	4
	.type	pasetone_set_tuner_zero_if,@function
pasetone_set_tuner_zero_if:
	.cfi_startproc
	movq	%rdi, %rax
	xorl	%r9d, %r9d
	testq	%rsi, %rsi
	sete	%r11b
	xorl	%edi, %edi
	testq	%rcx, %rcx
	sete	%r10b
	cmpq	$40, %r8
	jae	.Lpasetone_BB64_2
	movl	$8, %ecx
	jmp	.Lpasetone_BB64_4
.Lpasetone_BB64_2:
	cmpq	$2, %rdx
	jae	.Lpasetone_BB64_7
	movl	$9, %ecx
.Lpasetone_BB64_4:
	xorl	%esi, %esi
.Lpasetone_BB64_5:
	xorl	%edx, %edx
.Lpasetone_BB64_6:
	movq	$0, (%rax)
	movq	%rdx, 8(%rax)
	movl	%ecx, 16(%rax)
	movl	%esi, 20(%rax)
	retq
.Lpasetone_BB64_7:
	movb	%r11b, %r9b
	shll	$12, %r9d
	movb	%r10b, %dil
	shll	$12, %edi
	movabsq	$760226054148, %rdx
	leaq	256(%rdx), %r8
	cmpb	$0, (%rsi,%r9)
	cmoveq	%rdx, %r8
	movq	%r8, (%rcx,%rdi)
	movq	$27, 8(%rcx,%rdi)
	je	.Lpasetone_BB64_9
	movabsq	$68719476737, %rdx
	movq	%rdx, 16(%rcx,%rdi)
	movl	$11, %ecx
	movl	$1, %esi
	jmp	.Lpasetone_BB64_5
.Lpasetone_BB64_9:
	movabsq	$34376515588, %r8
	xorl	%r10d, %r10d
	xorl	%edx, %edx
	cmpb	$0, 1(%rsi,%r9)
	leaq	256(%r8), %rsi
	setne	%dl
	cmoveq	%r8, %rsi
	movq	%rsi, 16(%rcx,%rdi)
	movq	$76, 24(%rcx,%rdi)
	movabsq	$137438953474, %rsi
	movq	%rsi, 32(%rcx,%rdi)
	movl	$11, %ecx
	cmovel	%r10d, %ecx
	movl	$2, %esi
	jmp	.Lpasetone_BB64_6
.Lpasetone_func_end64:
	.size	pasetone_set_tuner_zero_if, .Lpasetone_func_end64-pasetone_set_tuner_zero_if
	.cfi_endproc

	.section	.text.pasetone_start_streaming,"ax",@progbits
	.globl	pasetone_start_streaming
	.p2align	4
	.type	pasetone_start_streaming,@function
pasetone_start_streaming:
	.cfi_startproc
	movq	%rdi, %rax
	xorl	%r9d, %r9d
	testq	%rsi, %rsi
	sete	%r11b
	xorl	%edi, %edi
	testq	%rcx, %rcx
	sete	%r10b
	cmpq	$40, %r8
	jae	.Lpasetone_BB65_2
	movl	$8, %ecx
	jmp	.Lpasetone_BB65_4
.Lpasetone_BB65_2:
	cmpq	$2, %rdx
	jae	.Lpasetone_BB65_7
	movl	$9, %ecx
.Lpasetone_BB65_4:
	xorl	%esi, %esi
.Lpasetone_BB65_5:
	xorl	%edx, %edx
.Lpasetone_BB65_6:
	movq	$0, (%rax)
	movq	%rdx, 8(%rax)
	movl	%ecx, 16(%rax)
	movl	%esi, 20(%rax)
	retq
.Lpasetone_BB65_7:
	movb	%r11b, %r9b
	shll	$12, %r9d
	movb	%r10b, %dil
	shll	$12, %edi
	movabsq	$36593154981895, %r8
	leaq	256(%r8), %rdx
	cmpb	$0, (%rsi,%r9)
	cmoveq	%r8, %rdx
	movq	%rdx, (%rcx,%rdi)
	movq	$528, 8(%rcx,%rdi)
	je	.Lpasetone_BB65_9
	movabsq	$68719476737, %rdx
	movq	%rdx, 16(%rcx,%rdi)
	movl	$11, %ecx
	movl	$1, %esi
	jmp	.Lpasetone_BB65_5
.Lpasetone_BB65_9:
	xorl	%r10d, %r10d
	xorl	%edx, %edx
	cmpb	$0, 1(%rsi,%r9)
	leaq	256(%r8), %rsi
	setne	%dl
	cmoveq	%r8, %rsi
	movq	%rsi, 16(%rcx,%rdi)
	movq	$0, 24(%rcx,%rdi)
	movabsq	$137438953474, %rsi
	movq	%rsi, 32(%rcx,%rdi)
	movl	$11, %ecx
	cmovel	%r10d, %ecx
	movl	$2, %esi
	jmp	.Lpasetone_BB65_6
.Lpasetone_func_end65:
	.size	pasetone_start_streaming, .Lpasetone_func_end65-pasetone_start_streaming
	.cfi_endproc

	.section	.text.pasetone_stop_streaming,"ax",@progbits
	.globl	pasetone_stop_streaming
	.p2align	4
	.type	pasetone_stop_streaming,@function
pasetone_stop_streaming:
	.cfi_startproc
	movq	%rdi, %rax
	xorl	%r9d, %r9d
	testq	%rsi, %rsi
	sete	%r11b
	xorl	%edi, %edi
	testq	%rcx, %rcx
	sete	%r10b
	cmpq	$40, %r8
	jae	.Lpasetone_BB66_2
	movl	$8, %ecx
	jmp	.Lpasetone_BB66_4
.Lpasetone_BB66_2:
	cmpq	$2, %rdx
	jae	.Lpasetone_BB66_7
	movl	$9, %ecx
.Lpasetone_BB66_4:
	xorl	%esi, %esi
.Lpasetone_BB66_5:
	xorl	%edx, %edx
.Lpasetone_BB66_6:
	movq	$0, (%rax)
	movq	%rdx, 8(%rax)
	movl	%ecx, 16(%rax)
	movl	%esi, 20(%rax)
	retq
.Lpasetone_BB66_7:
	movb	%r11b, %r9b
	shll	$12, %r9d
	movb	%r10b, %dil
	shll	$12, %edi
	movabsq	$36593154981895, %rdx
	leaq	256(%rdx), %r8
	cmpb	$0, (%rsi,%r9)
	cmoveq	%rdx, %r8
	movq	%r8, (%rcx,%rdi)
	movq	$528, 8(%rcx,%rdi)
	je	.Lpasetone_BB66_9
	movabsq	$68719476737, %rdx
	movq	%rdx, 16(%rcx,%rdi)
	movl	$11, %ecx
	movl	$1, %esi
	jmp	.Lpasetone_BB66_5
.Lpasetone_BB66_9:
	movabsq	$52776575041542, %r8
	xorl	%r10d, %r10d
	xorl	%edx, %edx
	cmpb	$0, 1(%rsi,%r9)
	leaq	256(%r8), %rsi
	setne	%dl
	cmoveq	%r8, %rsi
	movq	%rsi, 16(%rcx,%rdi)
	movq	$32, 24(%rcx,%rdi)
	movabsq	$137438953474, %rsi
	movq	%rsi, 32(%rcx,%rdi)
	movl	$11, %ecx
	cmovel	%r10d, %ecx
	movl	$2, %esi
	jmp	.Lpasetone_BB66_6
.Lpasetone_func_end66:
	.size	pasetone_stop_streaming, .Lpasetone_func_end66-pasetone_stop_streaming
	.cfi_endproc

	.section	.text.pasetone_stream_pending,"ax",@progbits
	.globl	pasetone_stream_pending
	.p2align	4
	.type	pasetone_stream_pending,@function
pasetone_stream_pending:
	.cfi_startproc
	movq	%rdi, %rax
	xorl	%edi, %edi
	testq	%rsi, %rsi
	sete	%cl
	cmpq	$9, %rdx
	jne	.Lpasetone_BB67_14
	movb	%cl, %dil
	shll	$12, %edi
	movzbl	(%rsi,%rdi), %ecx
	cmpq	$8, %rcx
	ja	.Lpasetone_BB67_14
	cmpl	$8, %ecx
	jne	.Lpasetone_BB67_4
	xorl	%edx, %edx
	movl	$8, %ecx
	jmp	.Lpasetone_BB67_15
.Lpasetone_BB67_4:
	pushq	%r14
	.cfi_def_cfa_offset 16
	pushq	%rbx
	.cfi_def_cfa_offset 24
	.cfi_offset %rbx, -24
	.cfi_offset %r14, -16
	movl	$8, %r8d
	subq	%rcx, %r8
	movl	%r8d, %edx
	andl	$3, %edx
	leal	-5(%rcx), %r9d
	cmpb	$3, %r9b
	jae	.Lpasetone_BB67_6
	xorl	%r9d, %r9d
	jmp	.Lpasetone_BB67_10
.Lpasetone_BB67_6:
	leaq	(%rdi,%rsi), %r10
	addq	$8, %r10
	movq	%r8, %r11
	andq	$-4, %r11
	negq	%r11
	xorl	%r9d, %r9d
	xorl	%ebx, %ebx
	.p2align	4
.Lpasetone_BB67_7:
	movzbl	(%r10,%rbx), %r14d
	shlq	$16, %r9
	shll	$8, %r14d
	orq	%r9, %r14
	movzbl	-1(%r10,%rbx), %r9d
	orq	%r14, %r9
	movzbl	-2(%r10,%rbx), %r14d
	shlq	$16, %r9
	shll	$8, %r14d
	orq	%r9, %r14
	movzbl	-3(%r10,%rbx), %r9d
	orq	%r14, %r9
	addq	$-4, %rbx
	cmpq	%rbx, %r11
	jne	.Lpasetone_BB67_7
	testq	%rdx, %rdx
	je	.Lpasetone_BB67_12
	addq	%rbx, %r8
.Lpasetone_BB67_10:
	addq	%rcx, %rdi
	addq	%r8, %rdi
	addq	%rdi, %rsi
	negq	%rdx
	xorl	%edi, %edi
	.p2align	4
.Lpasetone_BB67_11:
	shlq	$8, %r9
	movzbl	(%rsi,%rdi), %r8d
	orq	%r8, %r9
	decq	%rdi
	cmpq	%rdi, %rdx
	jne	.Lpasetone_BB67_11
.Lpasetone_BB67_12:
	testq	%r9, %r9
	popq	%rbx
	.cfi_def_cfa_offset 16
	popq	%r14
	.cfi_def_cfa_offset 8
	.cfi_restore %rbx
	.cfi_restore %r14
	je	.Lpasetone_BB67_13
.Lpasetone_BB67_14:
	movl	$1, %edx
	xorl	%ecx, %ecx
.Lpasetone_BB67_15:
	movq	%rcx, (%rax)
	movq	$0, 8(%rax)
	movl	%edx, 16(%rax)
	movl	$0, 20(%rax)
	retq
.Lpasetone_BB67_13:
	xorl	%edx, %edx
	jmp	.Lpasetone_BB67_15
.Lpasetone_func_end67:
	.size	pasetone_stream_pending, .Lpasetone_func_end67-pasetone_stream_pending
	.cfi_endproc

	.section	.text.pasetone_tune_board,"ax",@progbits
	.globl	pasetone_tune_board
	.p2align	4
	.type	pasetone_tune_board,@function
pasetone_tune_board:
	.cfi_startproc
	pushq	%rbp
	.cfi_def_cfa_offset 16
	pushq	%r15
	.cfi_def_cfa_offset 24
	pushq	%r14
	.cfi_def_cfa_offset 32
	pushq	%r13
	.cfi_def_cfa_offset 40
	pushq	%r12
	.cfi_def_cfa_offset 48
	pushq	%rbx
	.cfi_def_cfa_offset 56
	subq	$920, %rsp
	.cfi_def_cfa_offset 976
	.cfi_offset %rbx, -56
	.cfi_offset %r12, -48
	.cfi_offset %r13, -40
	.cfi_offset %r14, -32
	.cfi_offset %r15, -24
	.cfi_offset %rbp, -16
	movq	%r9, %r15
	movq	%rdi, %rbx
	movq	1008(%rsp), %rbp
	movq	992(%rsp), %r11
	xorl	%edi, %edi
	testq	%rsi, %rsi
	sete	%al
	xorl	%r9d, %r9d
	testq	%rcx, %rcx
	sete	%r10b
	xorl	%r13d, %r13d
	testq	%r15, %r15
	sete	%r12b
	movq	%r11, 40(%rsp)
	testq	%r11, %r11
	sete	%r14b
	movq	%rbp, 96(%rsp)
	testq	%rbp, %rbp
	sete	88(%rsp)
	movq	1024(%rsp), %r11
	movq	%r11, 104(%rsp)
	testq	%r11, %r11
	sete	32(%rsp)
	cmpq	$0, 1040(%rsp)
	sete	15(%rsp)
	cmpq	$0, 1056(%rsp)
	xorps	%xmm0, %xmm0
	movaps	%xmm0, 256(%rsp)
	movq	$0, 272(%rsp)
	movaps	%xmm0, 128(%rsp)
	movl	$0, 144(%rsp)
	sete	20(%rsp)
	cmpq	$29, %rdx
	jne	.Lpasetone_BB68_33
	movb	%al, %dil
	shll	$12, %edi
	movl	1(%rsi,%rdi), %ebp
	movslq	5(%rsi,%rdi), %rax
	movq	%rax, 608(%rsp)
	imulq	%rbp, %rax
	movabsq	$4835703278458516699, %rdx
	imulq	%rdx
	movzbl	(%rsi,%rdi), %eax
	movq	%rdx, %r11
	shrq	$63, %r11
	sarq	$18, %rdx
	addq	%r11, %rdx
	movq	%rbp, 616(%rsp)
	addq	%rbp, %rdx
	movabsq	$4294967296, %r11
	cmpq	%r11, %rdx
	cmovbq	%rdx, %r11
	cmpb	$1, %al
	ja	.Lpasetone_BB68_33
	movabsq	$-4294967296, %rbp
	addq	%rbp, %rdx
	incq	%rbp
	cmpq	%rbp, %rdx
	jb	.Lpasetone_BB68_33
	movl	%r11d, %edx
	testq	%rdx, %rdx
	je	.Lpasetone_BB68_33
	movb	%r10b, %r9b
	shll	$12, %r9d
	addq	%r9, %rcx
	movq	21(%rsi,%rdi), %rdx
	movq	%rdx, 600(%rsp)
	movl	17(%rsi,%rdi), %edx
	movl	%edx, 124(%rsp)
	movq	9(%rsi,%rdi), %rdx
	movq	%rdx, 80(%rsp)
	cmpb	$1, %al
	sete	14(%rsp)
	leaq	320(%rsp), %rdi
	movq	%rcx, %rsi
	movq	%r8, %rdx
	callq	"records::decode_tuner"
	cmpb	$1, 320(%rsp)
	jne	.Lpasetone_BB68_33
	movq	984(%rsp), %rcx
	movq	976(%rsp), %rdx
	movb	%r12b, %r13b
	shll	$12, %r13d
	addq	%r13, %r15
	movzbl	328(%rsp), %eax
	movb	%al, 12(%rsp)
	movzbl	329(%rsp), %eax
	movb	%al, 9(%rsp)
	movzbl	383(%rsp), %r13d
	movzwl	381(%rsp), %r12d
	movl	377(%rsp), %eax
	movq	%rax, 24(%rsp)
	movl	384(%rsp), %eax
	movl	%eax, 120(%rsp)
	movl	388(%rsp), %eax
	movl	%eax, 16(%rsp)
	movzbl	392(%rsp), %eax
	movb	%al, 11(%rsp)
	movss	396(%rsp), %xmm0
	movss	%xmm0, 116(%rsp)
	movq	400(%rsp), %rbp
	movzbl	408(%rsp), %eax
	movb	%al, 10(%rsp)
	movups	330(%rsp), %xmm0
	movaps	%xmm0, 288(%rsp)
	movups	341(%rsp), %xmm0
	movups	%xmm0, 299(%rsp)
	movups	357(%rsp), %xmm0
	movaps	%xmm0, 48(%rsp)
	movl	373(%rsp), %eax
	movl	%eax, 64(%rsp)
	leaq	256(%rsp), %rdi
	movq	%r15, %rsi
	callq	"bands::plan_by_table"
	movl	256(%rsp), %ecx
	movq	264(%rsp), %r15
	movq	%r15, %rax
	negq	%rax
	movq	%rbp, 280(%rsp)
	cmpq	%rax, %rbp
	setb	%dl
	setae	%al
	addb	%al, %al
	testb	%cl, %cl
	sete	%sil
	movzbl	%al, %eax
	cmovnel	%ecx, %eax
	testb	%dl, %sil
	je	.Lpasetone_BB68_7
	cmpq	$29, 1048(%rsp)
	setae	%cl
	cmpq	$78, 1064(%rsp)
	setae	%dl
	movb	$8, %al
	testb	%dl, %cl
	jne	.Lpasetone_BB68_8
.Lpasetone_BB68_7:
	movzbl	%al, %r9d
	xorl	%r8d, %r8d
	jmp	.Lpasetone_BB68_34
.Lpasetone_BB68_33:
	xorl	%r8d, %r8d
	movl	$1, %r9d
.Lpasetone_BB68_34:
	xorl	%esi, %esi
	xorl	%eax, %eax
	xorl	%ecx, %ecx
	xorl	%edx, %edx
.Lpasetone_BB68_35:
	movq	%r8, (%rbx)
	movq	%rsi, 8(%rbx)
	movl	%r9d, 16(%rbx)
	movl	%eax, 20(%rbx)
	movl	%ecx, 24(%rbx)
	movl	%edx, 28(%rbx)
	movq	%rbx, %rax
	addq	$920, %rsp
	.cfi_def_cfa_offset 56
	popq	%rbx
	.cfi_def_cfa_offset 48
	popq	%r12
	.cfi_def_cfa_offset 40
	popq	%r13
	.cfi_def_cfa_offset 32
	popq	%r14
	.cfi_def_cfa_offset 24
	popq	%r15
	.cfi_def_cfa_offset 16
	popq	%rbp
	.cfi_def_cfa_offset 8
	retq
.Lpasetone_BB68_8:
	.cfi_def_cfa_offset 976
	shll	$16, %r13d
	orl	%r13d, %r12d
	shlq	$32, %r12
	movq	24(%rsp), %rbp
	orq	%r12, %rbp
	movl	120(%rsp), %r13d
	testl	%r13d, %r13d
	sete	%al
	movl	16(%rsp), %r12d
	testl	%r12d, %r12d
	sete	%cl
	movl	$1, %edi
	orb	%al, %cl
	jne	.Lpasetone_BB68_12
	movl	$8, %edi
	cmpq	$1032, 1032(%rsp)
	jb	.Lpasetone_BB68_12
	movl	$9, %edi
	cmpq	$64, 1000(%rsp)
	jb	.Lpasetone_BB68_12
	movl	$10, %edi
	cmpq	$37, 1016(%rsp)
	ja	.Lpasetone_BB68_13
.Lpasetone_BB68_12:
	movups	299(%rsp), %xmm0
	movups	%xmm0, 491(%rsp)
	movaps	288(%rsp), %xmm0
	movaps	%xmm0, 480(%rsp)
	movaps	48(%rsp), %xmm0
	movaps	%xmm0, 128(%rsp)
	movl	64(%rsp), %eax
	movl	%eax, 144(%rsp)
	xorl	%esi, %esi
	movb	$1, %r8b
	xorl	%eax, %eax
	xorl	%ecx, %ecx
	xorl	%edx, %edx
	testb	%r8b, %r8b
	je	.Lpasetone_BB68_27
.Lpasetone_BB68_26:
	testq	%rax, %rax
	je	.Lpasetone_BB68_28
.Lpasetone_BB68_27:
	xorl	%r9d, %r9d
	movzbl	20(%rsp), %r10d
	movb	%r10b, %r9b
	shll	$12, %r9d
	movl	%edi, 20(%rsp)
	movl	%r12d, %edi
	movl	%r13d, %r12d
	movq	1056(%rsp), %r13
	addq	%r9, %r13
	xorl	%r11d, %r11d
	movzbl	15(%rsp), %r9d
	movb	%r9b, %r11b
	shll	$12, %r11d
	movq	1040(%rsp), %r10
	movzbl	14(%rsp), %r9d
	movb	%r9b, (%r10,%r11)
	movq	616(%rsp), %r9
	movl	%r9d, 1(%r10,%r11)
	movq	608(%rsp), %r9
	movl	%r9d, 5(%r10,%r11)
	movq	80(%rsp), %r9
	movq	%r9, 9(%r10,%r11)
	movl	124(%rsp), %r9d
	movl	%r9d, 17(%r10,%r11)
	movq	%rbp, %r15
	movzbl	11(%rsp), %ebp
	andb	$1, %bpl
	movd	116(%rsp), %xmm0
	movd	%xmm0, %r9d
	ucomiss	%xmm0, %xmm0
	movq	600(%rsp), %r14
	movq	%r14, 21(%r10,%r11)
	movl	$2143289344, %r10d
	cmovnpl	%r9d, %r10d
	movzbl	12(%rsp), %r9d
	movb	%r9b, (%r13)
	movzbl	9(%rsp), %r9d
	movb	%r9b, 1(%r13)
	movaps	480(%rsp), %xmm0
	movups	%xmm0, 2(%r13)
	movups	491(%rsp), %xmm0
	movups	%xmm0, 13(%r13)
	movl	%r12d, 29(%r13)
	movl	%edi, 33(%r13)
	movl	20(%rsp), %edi
	movb	%bpl, 37(%r13)
	movl	%r10d, 38(%r13)
	movq	280(%rsp), %r9
	movq	%r9, 42(%r13)
	movzbl	10(%rsp), %r9d
	andb	$1, %r9b
	movb	%r9b, 50(%r13)
	movaps	128(%rsp), %xmm0
	movups	%xmm0, 51(%r13)
	movl	144(%rsp), %r9d
	movl	%r9d, 67(%r13)
	movq	%r15, %r9
	shrq	$48, %r9
	movb	%r9b, 77(%r13)
	movq	%r15, %r9
	shrq	$32, %r9
	movw	%r9w, 75(%r13)
	movl	%r15d, 71(%r13)
.Lpasetone_BB68_28:
	movzbl	%r8b, %r9d
	testb	%r8b, %r8b
	je	.Lpasetone_BB68_29
	cmpl	$2, %r9d
	jne	.Lpasetone_BB68_31
	movl	$11, %r9d
	xorl	%r8d, %r8d
	jmp	.Lpasetone_BB68_35
.Lpasetone_BB68_29:
	movq	%rsi, %r8
	movq	%r9, %rsi
	jmp	.Lpasetone_BB68_35
.Lpasetone_BB68_31:
	xorl	%r8d, %r8d
	xorl	%esi, %esi
	movl	%edi, %r9d
	jmp	.Lpasetone_BB68_35
.Lpasetone_BB68_13:
	xorl	%eax, %eax
	movb	%r14b, %al
	shll	$12, %eax
	addq	%rax, 40(%rsp)
	xorl	%eax, %eax
	movzbl	88(%rsp), %ecx
	movb	%cl, %al
	shll	$12, %eax
	addq	%rax, 96(%rsp)
	xorl	%eax, %eax
	movzbl	32(%rsp), %ecx
	movb	%cl, %al
	shll	$12, %eax
	addq	%rax, 104(%rsp)
	movzbl	272(%rsp), %eax
	movb	%al, 13(%rsp)
	movl	%r12d, %ecx
	movzbl	273(%rsp), %r12d
	movzbl	274(%rsp), %eax
	movb	%al, 24(%rsp)
	movzbl	275(%rsp), %eax
	movb	%al, 10(%rsp)
	movq	%r15, %rdx
	addq	280(%rsp), %rdx
	movzbl	12(%rsp), %r14d
	leaq	872(%rsp), %rdi
	movl	%r14d, %esi
	callq	"pll::plan_pll"
	movzbl	872(%rsp), %eax
	movq	%rax, 32(%rsp)
	xorps	%xmm0, %xmm0
	movaps	%xmm0, 480(%rsp)
	movups	%xmm0, 491(%rsp)
	movaps	%xmm0, 416(%rsp)
	movl	$0, 432(%rsp)
	movaps	%xmm0, 624(%rsp)
	movups	%xmm0, 635(%rsp)
	movaps	%xmm0, 848(%rsp)
	movl	$0, 864(%rsp)
	movq	$0, 784(%rsp)
	movaps	%xmm0, 512(%rsp)
	movaps	%xmm0, 528(%rsp)
	movaps	%xmm0, 544(%rsp)
	movaps	%xmm0, 560(%rsp)
	movaps	%xmm0, 576(%rsp)
	movq	$0, 592(%rsp)
	xorl	%eax, %eax
	testb	%r12b, %r12b
	setne	%al
	movq	%rbp, %rcx
	shrq	$32, %rcx
	movq	%rbp, %rdx
	shrq	$48, %rdx
	movzbl	9(%rsp), %r11d
	movb	%r11b, 320(%rsp)
	movaps	288(%rsp), %xmm1
	movups	%xmm1, 321(%rsp)
	movups	299(%rsp), %xmm1
	movups	%xmm1, 332(%rsp)
	movl	64(%rsp), %esi
	movl	%esi, 364(%rsp)
	movq	%rbp, %rsi
	xorl	%edi, %edi
	movaps	48(%rsp), %xmm1
	movups	%xmm1, 348(%rsp)
	movb	%dl, 374(%rsp)
	movw	%cx, 372(%rsp)
	movl	%esi, 368(%rsp)
	movups	%xmm0, 375(%rsp)
	movups	%xmm0, 391(%rsp)
	movb	$0, 407(%rsp)
	movaps	%xmm0, 160(%rsp)
	movaps	%xmm0, 176(%rsp)
	movaps	%xmm0, 192(%rsp)
	movaps	%xmm0, 208(%rsp)
	movaps	%xmm0, 224(%rsp)
	movq	$0, 240(%rsp)
	testb	%r14b, %r14b
	leaq	(%rax,%rax,2), %rax
	cmovneq	%rax, %rdi
	movq	%rdi, 88(%rsp)
	je	.Lpasetone_BB68_14
	testb	%r12b, %r12b
	je	.Lpasetone_BB68_16
	movq	104(%rsp), %rax
	movq	%rax, (%rsp)
	movzbl	24(%rsp), %ecx
	leaq	160(%rsp), %rdi
	leaq	320(%rsp), %rsi
	movl	$1, %edx
	movq	40(%rsp), %r8
	movq	96(%rsp), %r9
	callq	"driver::path_steps"
	movups	216(%rsp), %xmm0
	movq	232(%rsp), %r10
	movzbl	240(%rsp), %r9d
	movzbl	241(%rsp), %r8d
	movzwl	242(%rsp), %esi
	movzbl	244(%rsp), %edx
	movzbl	245(%rsp), %ecx
	movzwl	246(%rsp), %eax
	movzbl	214(%rsp), %edi
	shll	$16, %edi
	movzwl	212(%rsp), %r11d
	orl	%edi, %r11d
	shlq	$32, %r11
	movl	208(%rsp), %ebp
	orq	%r11, %rbp
	movzbl	215(%rsp), %edi
	movzbl	160(%rsp), %r11d
	movb	%r11b, 9(%rsp)
	jmp	.Lpasetone_BB68_18
.Lpasetone_BB68_14:
	movups	299(%rsp), %xmm1
	movups	%xmm1, 667(%rsp)
	movaps	288(%rsp), %xmm1
	movaps	%xmm1, 656(%rsp)
	movaps	48(%rsp), %xmm1
	movaps	%xmm1, 448(%rsp)
	movl	64(%rsp), %eax
	movl	%eax, 464(%rsp)
	xorl	%edi, %edi
	xorl	%eax, %eax
	xorl	%ecx, %ecx
	xorl	%edx, %edx
	xorl	%esi, %esi
	xorl	%r8d, %r8d
	xorl	%r9d, %r9d
	xorl	%r10d, %r10d
	movl	16(%rsp), %r12d
	jmp	.Lpasetone_BB68_19
.Lpasetone_BB68_16:
	movups	299(%rsp), %xmm0
	movups	%xmm0, 172(%rsp)
	movaps	288(%rsp), %xmm0
	movups	%xmm0, 161(%rsp)
	movaps	48(%rsp), %xmm0
	movups	%xmm0, 188(%rsp)
	movl	64(%rsp), %eax
	movl	%eax, 204(%rsp)
	xorps	%xmm0, %xmm0
	xorl	%edi, %edi
	xorl	%eax, %eax
	xorl	%ecx, %ecx
	xorl	%edx, %edx
	xorl	%esi, %esi
	xorl	%r8d, %r8d
	xorl	%r9d, %r9d
	xorl	%r10d, %r10d
.Lpasetone_BB68_18:
	movl	16(%rsp), %r12d
	movups	161(%rsp), %xmm1
	movups	172(%rsp), %xmm2
	movups	188(%rsp), %xmm3
	movups	%xmm2, 667(%rsp)
	movaps	%xmm1, 656(%rsp)
	movaps	%xmm3, 448(%rsp)
	movl	204(%rsp), %r11d
	movl	%r11d, 464(%rsp)
	movzbl	9(%rsp), %r11d
.Lpasetone_BB68_19:
	movb	%r11b, 696(%rsp)
	movaps	656(%rsp), %xmm1
	movups	%xmm1, 697(%rsp)
	movups	667(%rsp), %xmm1
	movups	%xmm1, 708(%rsp)
	movaps	448(%rsp), %xmm1
	movups	%xmm1, 724(%rsp)
	movl	464(%rsp), %r11d
	movl	%r11d, 740(%rsp)
	movq	%rbp, %r11
	shrq	$48, %r11
	movb	%r11b, 750(%rsp)
	movl	%ebp, 744(%rsp)
	shrq	$32, %rbp
	movw	%bp, 748(%rsp)
	movb	%dil, 751(%rsp)
	movups	%xmm0, 752(%rsp)
	movq	%r10, 768(%rsp)
	movb	%r9b, 776(%rsp)
	movb	%r8b, 777(%rsp)
	movw	%si, 778(%rsp)
	movb	%dl, 780(%rsp)
	movb	%cl, 781(%rsp)
	movw	%ax, 782(%rsp)
	movzbl	12(%rsp), %eax
	movb	%al, 784(%rsp)
	movzbl	10(%rsp), %eax
	andb	$1, %al
	movb	%al, 785(%rsp)
	movq	32(%rsp), %rbp
	movq	%rbp, 792(%rsp)
	leaq	872(%rsp), %rax
	movups	8(%rax), %xmm0
	movups	24(%rax), %xmm1
	movq	40(%rax), %rax
	movq	%rax, 832(%rsp)
	movups	%xmm0, 800(%rsp)
	movups	%xmm1, 816(%rsp)
	movq	%r15, 840(%rsp)
	movq	96(%rsp), %r8
	addq	88(%rsp), %r8
	leaq	512(%rsp), %rdi
	leaq	696(%rsp), %rsi
	leaq	784(%rsp), %rdx
	movq	40(%rsp), %rcx
	movq	104(%rsp), %r14
	movq	%r14, %r9
	callq	"tuning::tune"
	movq	560(%rsp), %r15
	movq	568(%rsp), %rax
	movzbl	576(%rsp), %r8d
	movq	584(%rsp), %r9
	movzwl	594(%rsp), %ecx
	movzbl	596(%rsp), %edx
	testq	%rbp, %rbp
	movq	%r15, 24(%rsp)
	je	.Lpasetone_BB68_20
	testq	%r8, %r8
	jne	.Lpasetone_BB68_23
	movzbl	13(%rsp), %esi
	andl	$1, %esi
	leaq	1(,%rsi,4), %rsi
	movq	%rax, %rdi
	shlq	$4, %rdi
	movabsq	$90211155972, %r10
	leaq	256(%r10), %r11
	xorl	%r9d, %r9d
	xorl	%r8d, %r8d
	movq	40(%rsp), %rbp
	cmpb	$0, (%rbp,%rax)
	cmovneq	%rax, %r9
	cmoveq	%r10, %r11
	setne	%r8b
	movq	%r11, (%r14,%rdi)
	movq	%rsi, 8(%r14,%rdi)
	incq	%rax
.Lpasetone_BB68_23:
	movq	984(%rsp), %rdi
	movzbl	512(%rsp), %esi
	movb	%sil, 9(%rsp)
	movups	513(%rsp), %xmm0
	movaps	%xmm0, 320(%rsp)
	movups	524(%rsp), %xmm0
	movups	%xmm0, 331(%rsp)
	movups	540(%rsp), %xmm0
	movaps	%xmm0, 160(%rsp)
	movl	556(%rsp), %esi
	movl	%esi, 176(%rsp)
	xorl	%r10d, %r10d
	movq	%rdi, %rsi
	movq	%rdi, %r15
	jmp	.Lpasetone_BB68_24
.Lpasetone_BB68_20:
	movzbl	512(%rsp), %esi
	movb	%sil, 9(%rsp)
	movups	513(%rsp), %xmm0
	movaps	%xmm0, 320(%rsp)
	movups	524(%rsp), %xmm0
	movups	%xmm0, 331(%rsp)
	movups	540(%rsp), %xmm0
	movaps	%xmm0, 160(%rsp)
	movl	556(%rsp), %esi
	movl	%esi, 176(%rsp)
	movl	$2, %r10d
	xorl	%esi, %esi
	movq	984(%rsp), %r15
.Lpasetone_BB68_24:
	xorl	%ebp, %ebp
	cmpb	$0, 32(%rsp)
	sete	%bpl
	movl	176(%rsp), %edi
	movl	%edi, 432(%rsp)
	movq	%rax, %r11
	shlq	$4, %r11
	xorl	%edi, %edi
	testq	%r8, %r8
	movl	$2, %r8d
	cmovel	%ebp, %r8d
	movups	331(%rsp), %xmm0
	movups	%xmm0, 635(%rsp)
	movaps	320(%rsp), %xmm0
	movaps	%xmm0, 624(%rsp)
	movaps	160(%rsp), %xmm0
	movaps	624(%rsp), %xmm1
	movaps	%xmm1, 480(%rsp)
	movups	635(%rsp), %xmm1
	movups	%xmm1, 491(%rsp)
	movaps	%xmm0, 416(%rsp)
	cmovneq	%r9, %rsi
	cmovel	%r10d, %edi
	movl	%eax, (%r14,%r11)
	testb	%r8b, %r8b
	movq	80(%rsp), %r9
	cmoveq	%r15, %r9
	movq	%r9, 80(%rsp)
	movl	%r11d, 4(%r14,%r11)
	cmpw	$10, %cx
	setne	%r9b
	andb	11(%rsp), %r9b
	orb	%dl, %r9b
	andb	$1, %r9b
	movl	432(%rsp), %r10d
	movl	%r10d, 144(%rsp)
	movaps	416(%rsp), %xmm0
	movaps	%xmm0, 128(%rsp)
	andl	$1, %edx
	movb	%r9b, 11(%rsp)
	movq	24(%rsp), %rbp
	testb	%r8b, %r8b
	jne	.Lpasetone_BB68_26
	jmp	.Lpasetone_BB68_27
.Lpasetone_func_end68:
	.size	pasetone_tune_board, .Lpasetone_func_end68-pasetone_tune_board
	.cfi_endproc

	.section	.rodata.cst16,"aM",@progbits,16
	.p2align	4, 0x0
.Lpasetone_CPI69_0:
	.byte	131
	.byte	48
	.byte	117
	.byte	192
	.byte	64
	.byte	214
	.byte	108
	.byte	245
	.byte	99
	.byte	117
	.byte	104
	.byte	108
	.byte	131
	.byte	128
	.byte	0
	.byte	15
.Lpasetone_CPI69_1:
	.zero	16,1
	.section	.text.pasetone_tuner_new,"ax",@progbits
	.globl	pasetone_tuner_new
	.p2align	4
	.type	pasetone_tuner_new,@function
pasetone_tuner_new:
	.cfi_startproc
	pushq	%r14
	.cfi_def_cfa_offset 16
	pushq	%rbx
	.cfi_def_cfa_offset 24
	.cfi_offset %rbx, -24
	.cfi_offset %r14, -16
	movq	%rdi, %rax
	xorl	%edi, %edi
	testq	%r8, %r8
	sete	%r10b
	movabsq	$-4294967296, %rbx
	leaq	(%rcx,%rbx), %r14
	incq	%rbx
	movl	$1, %r11d
	cmpq	%rbx, %r14
	jb	.Lpasetone_BB69_7
	testq	%rsi, %rsi
	je	.Lpasetone_BB69_2
	cmpq	$1, %rsi
	jne	.Lpasetone_BB69_7
	movb	$1, %sil
	movl	$8, %r11d
	cmpq	$78, %r9
	jb	.Lpasetone_BB69_7
.Lpasetone_BB69_6:
	movb	%r10b, %dil
	shll	$12, %edi
	addq	%rdi, %r8
	movb	%sil, (%r8)
	movb	%dl, 1(%r8)
	movaps	.Lpasetone_CPI69_0(%rip), %xmm0
	movups	%xmm0, 2(%r8)
	movabsq	$6052944329686695936, %rdx
	movq	%rdx, 18(%r8)
	movw	$19118, 26(%r8)
	movb	$-64, 28(%r8)
	movl	%ecx, 29(%r8)
	movl	%ecx, 33(%r8)
	movb	$0, 37(%r8)
	movl	$0, 38(%r8)
	movq	$2300000, 42(%r8)
	movb	$0, 50(%r8)
	movaps	.Lpasetone_CPI69_1(%rip), %xmm0
	movups	%xmm0, 51(%r8)
	movups	%xmm0, 62(%r8)
	xorl	%r11d, %r11d
.Lpasetone_BB69_7:
	xorps	%xmm0, %xmm0
	movups	%xmm0, (%rax)
	movl	%r11d, 16(%rax)
	movl	$0, 20(%rax)
	popq	%rbx
	.cfi_def_cfa_offset 16
	popq	%r14
	.cfi_def_cfa_offset 8
	retq
.Lpasetone_BB69_2:
	.cfi_def_cfa_offset 24
	xorl	%esi, %esi
	movl	$8, %r11d
	cmpq	$78, %r9
	jae	.Lpasetone_BB69_6
	jmp	.Lpasetone_BB69_7
.Lpasetone_func_end69:
	.size	pasetone_tuner_new, .Lpasetone_func_end69-pasetone_tuner_new
	.cfi_endproc

	.section	.rodata.cst16,"aM",@progbits,16
	.p2align	4, 0x0
.Lpasetone_CPI70_0:
	.byte	0
	.byte	255
	.byte	255
	.byte	255
	.byte	0
	.byte	255
	.byte	255
	.byte	255
	.byte	0
	.byte	255
	.byte	255
	.byte	255
	.byte	0
	.byte	255
	.byte	255
	.byte	255
.Lpasetone_CPI70_1:
	.byte	2
	.byte	8
	.byte	14
	.byte	5
	.zero	1
	.zero	1
	.zero	1
	.zero	1
	.zero	1
	.zero	1
	.zero	1
	.zero	1
	.zero	1
	.zero	1
	.zero	1
	.zero	1
.Lpasetone_CPI70_2:
	.short	3840
	.short	3840
	.short	3840
	.short	3840
	.zero	2
	.zero	2
	.zero	2
	.zero	2
.Lpasetone_CPI70_3:
	.byte	4
	.byte	128
	.byte	10
	.byte	128
	.byte	1
	.byte	128
	.byte	7
	.byte	128
	.zero	1
	.byte	128
	.zero	1
	.byte	128
	.zero	1
	.byte	128
	.zero	1
	.byte	128
.Lpasetone_CPI70_4:
	.short	4096
	.short	4096
	.short	4096
	.short	4096
	.zero	2
	.zero	2
	.zero	2
	.zero	2
.Lpasetone_CPI70_5:
	.byte	0
	.byte	6
	.byte	12
	.byte	3
	.zero	1
	.zero	1
	.zero	1
	.zero	1
	.zero	1
	.zero	1
	.zero	1
	.zero	1
	.zero	1
	.zero	1
	.zero	1
	.zero	1
.Lpasetone_CPI70_6:
	.short	61440
	.short	61440
	.short	61440
	.short	61440
	.zero	2
	.zero	2
	.zero	2
	.zero	2
	.section	.text.pasetone_unpack_fir,"ax",@progbits
	.globl	pasetone_unpack_fir
	.p2align	4
	.type	pasetone_unpack_fir,@function
pasetone_unpack_fir:
	.cfi_startproc
	pushq	%rbx
	.cfi_def_cfa_offset 16
	.cfi_offset %rbx, -16
	movq	%rdi, %rax
	xorl	%r9d, %r9d
	testq	%rsi, %rsi
	sete	%r11b
	xorl	%edi, %edi
	testq	%rcx, %rcx
	sete	%r10b
	movl	$7, %ebx
	cmpq	$20, %rdx
	jne	.Lpasetone_BB70_3
	movl	$8, %ebx
	cmpq	$64, %r8
	jb	.Lpasetone_BB70_3
	movb	%r11b, %r9b
	shll	$12, %r9d
	movb	%r10b, %dil
	shll	$12, %edi
	movd	(%rsi,%r9), %xmm0
	pcmpeqd	%xmm1, %xmm1
	pmovzxbd	%xmm0, %xmm2
	pcmpgtb	%xmm1, %xmm0
	pmovsxbd	%xmm0, %xmm0
	movdqa	.Lpasetone_CPI70_0(%rip), %xmm3
	pandn	%xmm3, %xmm0
	por	%xmm2, %xmm0
	movd	4(%rsi,%r9), %xmm4
	pmovzxbd	%xmm4, %xmm2
	pcmpgtb	%xmm1, %xmm4
	pmovsxbd	%xmm4, %xmm4
	pandn	%xmm3, %xmm4
	por	%xmm4, %xmm2
	movd	16(%rsi,%r9), %xmm3
	movq	8(%rsi,%r9), %xmm4
	punpcklbw	%xmm3, %xmm4
	movdqa	%xmm4, %xmm3
	pshufb	.Lpasetone_CPI70_1(%rip), %xmm3
	pmovzxbw	%xmm3, %xmm5
	pxor	%xmm6, %xmm6
	punpcklbw	%xmm3, %xmm6
	pand	.Lpasetone_CPI70_2(%rip), %xmm6
	movdqa	%xmm4, %xmm3
	pshufb	.Lpasetone_CPI70_3(%rip), %xmm3
	por	%xmm6, %xmm3
	movdqa	%xmm5, %xmm6
	psllw	$9, %xmm6
	pand	.Lpasetone_CPI70_4(%rip), %xmm6
	psubw	%xmm6, %xmm3
	psrlw	$4, %xmm5
	pshufb	.Lpasetone_CPI70_5(%rip), %xmm4
	pmovzxbw	%xmm4, %xmm6
	psllw	$4, %xmm6
	por	%xmm5, %xmm6
	pcmpgtb	%xmm1, %xmm4
	pmovsxbw	%xmm4, %xmm1
	pandn	.Lpasetone_CPI70_6(%rip), %xmm1
	por	%xmm6, %xmm1
	punpcklwd	%xmm3, %xmm1
	movdqu	%xmm0, (%rcx,%rdi)
	movdqu	%xmm2, 16(%rcx,%rdi)
	pshufd	$238, %xmm1, %xmm0
	pmovsxwd	%xmm0, %xmm0
	pmovsxwd	%xmm1, %xmm1
	movdqu	%xmm1, 32(%rcx,%rdi)
	movdqu	%xmm0, 48(%rcx,%rdi)
	xorl	%ebx, %ebx
.Lpasetone_BB70_3:
	pxor	%xmm0, %xmm0
	movdqu	%xmm0, (%rax)
	movl	%ebx, 16(%rax)
	movl	$0, 20(%rax)
	popq	%rbx
	.cfi_def_cfa_offset 8
	retq
.Lpasetone_func_end70:
	.size	pasetone_unpack_fir, .Lpasetone_func_end70-pasetone_unpack_fir
	.cfi_endproc

	.section	.text.pasetone_version,"ax",@progbits
	.globl	pasetone_version
	.p2align	4
	.type	pasetone_version,@function
pasetone_version:
	.cfi_startproc
	movl	$459008, %eax
	retq
.Lpasetone_func_end71:
	.size	pasetone_version, .Lpasetone_func_end71-pasetone_version
	.cfi_endproc

	.section	.text.pasetone_write_reg_direct,"ax",@progbits
	.globl	pasetone_write_reg_direct
	.p2align	4
	.type	pasetone_write_reg_direct,@function
pasetone_write_reg_direct:
	.cfi_startproc
	pushq	%rbp
	.cfi_def_cfa_offset 16
	pushq	%r15
	.cfi_def_cfa_offset 24
	pushq	%r14
	.cfi_def_cfa_offset 32
	pushq	%rbx
	.cfi_def_cfa_offset 40
	.cfi_offset %rbx, -40
	.cfi_offset %r14, -32
	.cfi_offset %r15, -24
	.cfi_offset %rbp, -16
	movq	%rdi, %rax
	movq	40(%rsp), %rdi
	xorl	%r11d, %r11d
	testq	%r8, %r8
	sete	%r15b
	xorl	%r10d, %r10d
	testq	%rdi, %rdi
	sete	%r14b
	movl	$8, %ebx
	xorl	%ebp, %ebp
	cmpq	$24, 48(%rsp)
	jb	.Lpasetone_BB72_4
	testq	%r9, %r9
	je	.Lpasetone_BB72_2
	movb	%r15b, %r11b
	shll	$12, %r11d
	movb	%r14b, %r10b
	shll	$12, %r10d
	movzwl	%dx, %edx
	shlq	$32, %rdx
	movzbl	%sil, %esi
	shll	$16, %esi
	orq	%rdx, %rsi
	xorl	%edx, %edx
	xorl	%r9d, %r9d
	cmpb	$0, (%r8,%r11)
	movzbl	%cl, %ecx
	movl	$11, %ebx
	cmovel	%edx, %ebx
	setne	%r9b
	shll	$8, %r9d
	leaq	(%r9,%rsi), %rdx
	addq	$16777220, %rdx
	movq	%rdx, (%rdi,%r10)
	movq	%rcx, 8(%rdi,%r10)
	movabsq	$68719476737, %rcx
	movq	%rcx, 16(%rdi,%r10)
	movl	$1, %ebp
	jmp	.Lpasetone_BB72_4
.Lpasetone_BB72_2:
	movl	$9, %ebx
.Lpasetone_BB72_4:
	xorps	%xmm0, %xmm0
	movups	%xmm0, (%rax)
	movl	%ebx, 16(%rax)
	movl	%ebp, 20(%rax)
	popq	%rbx
	.cfi_def_cfa_offset 32
	popq	%r14
	.cfi_def_cfa_offset 24
	popq	%r15
	.cfi_def_cfa_offset 16
	popq	%rbp
	.cfi_def_cfa_offset 8
	retq
.Lpasetone_func_end72:
	.size	pasetone_write_reg_direct, .Lpasetone_func_end72-pasetone_write_reg_direct
	.cfi_endproc

	.section	.text.pasetone_write_settings_1,"ax",@progbits
	.globl	pasetone_write_settings_1
	.p2align	4
	.type	pasetone_write_settings_1,@function
pasetone_write_settings_1:
	.cfi_startproc
	pushq	%rbp
	.cfi_def_cfa_offset 16
	pushq	%r14
	.cfi_def_cfa_offset 24
	pushq	%rbx
	.cfi_def_cfa_offset 32
	.cfi_offset %rbx, -32
	.cfi_offset %r14, -24
	.cfi_offset %rbp, -16
	movq	%rdi, %rax
	movq	40(%rsp), %r10
	movq	32(%rsp), %rbx
	xorl	%r11d, %r11d
	testq	%r10, %r10
	sete	%bpl
	movq	%rdx, %rdi
	orq	%rsi, %rdi
	cmpq	$2, %rdi
	setae	%dil
	cmpq	$29, %rbx
	setae	%r14b
	orb	%dil, %r14b
	jne	.Lpasetone_BB73_1
	xorl	%edi, %edi
	cmpq	$23, 48(%rsp)
	jae	.Lpasetone_BB73_4
	movl	$8, %edi
	xorl	%ecx, %ecx
	jmp	.Lpasetone_BB73_5
.Lpasetone_BB73_1:
	movl	$17, %edi
	xorl	%ecx, %ecx
	jmp	.Lpasetone_BB73_5
.Lpasetone_BB73_4:
	movb	%bpl, %r11b
	shll	$12, %r11d
	movb	%sil, (%r10,%r11)
	movb	%dl, 1(%r10,%r11)
	movl	%ecx, 2(%r10,%r11)
	movl	%r8d, 6(%r10,%r11)
	movq	%r9, 10(%r10,%r11)
	movb	%bl, 18(%r10,%r11)
	movl	$1245185, 19(%r10,%r11)
	movl	$23, %ecx
.Lpasetone_BB73_5:
	movq	%rcx, (%rax)
	movq	$0, 8(%rax)
	movl	%edi, 16(%rax)
	movl	$0, 20(%rax)
	popq	%rbx
	.cfi_def_cfa_offset 24
	popq	%r14
	.cfi_def_cfa_offset 16
	popq	%rbp
	.cfi_def_cfa_offset 8
	retq
.Lpasetone_func_end73:
	.size	pasetone_write_settings_1, .Lpasetone_func_end73-pasetone_write_settings_1
	.cfi_endproc

	.section	.text.pasetone_write_settings_2,"ax",@progbits
	.globl	pasetone_write_settings_2
	.p2align	4
	.type	pasetone_write_settings_2,@function
pasetone_write_settings_2:
	.cfi_startproc
	pushq	%rbp
	.cfi_def_cfa_offset 16
	pushq	%r14
	.cfi_def_cfa_offset 24
	pushq	%rbx
	.cfi_def_cfa_offset 32
	.cfi_offset %rbx, -32
	.cfi_offset %r14, -24
	.cfi_offset %rbp, -16
	movq	%rdi, %rax
	movq	48(%rsp), %r10
	movq	32(%rsp), %rbx
	xorl	%r11d, %r11d
	testq	%r10, %r10
	sete	%bpl
	movq	%rdx, %rdi
	orq	%rsi, %rdi
	cmpq	$2, %rdi
	setae	%dil
	cmpq	$29, %rbx
	setae	%r14b
	orb	%dil, %r14b
	jne	.Lpasetone_BB74_1
	xorl	%edi, %edi
	cmpq	$27, 56(%rsp)
	jae	.Lpasetone_BB74_4
	movl	$8, %edi
	xorl	%ecx, %ecx
	jmp	.Lpasetone_BB74_5
.Lpasetone_BB74_1:
	movl	$17, %edi
	xorl	%ecx, %ecx
	jmp	.Lpasetone_BB74_5
.Lpasetone_BB74_4:
	movl	40(%rsp), %r14d
	movb	%bpl, %r11b
	shll	$12, %r11d
	movb	%sil, (%r10,%r11)
	movb	%dl, 1(%r10,%r11)
	movl	%ecx, 2(%r10,%r11)
	movl	%r8d, 6(%r10,%r11)
	movq	%r9, 10(%r10,%r11)
	movb	%bl, 18(%r10,%r11)
	movl	%r14d, 19(%r10,%r11)
	movl	$1507330, 23(%r10,%r11)
	movl	$27, %ecx
.Lpasetone_BB74_5:
	movq	%rcx, (%rax)
	movq	$0, 8(%rax)
	movl	%edi, 16(%rax)
	movl	$0, 20(%rax)
	popq	%rbx
	.cfi_def_cfa_offset 24
	popq	%r14
	.cfi_def_cfa_offset 16
	popq	%rbp
	.cfi_def_cfa_offset 8
	retq
.Lpasetone_func_end74:
	.size	pasetone_write_settings_2, .Lpasetone_func_end74-pasetone_write_settings_2
	.cfi_endproc

	.type	.Lpasetone_static.0,@object
	.section	.rodata..Lpasetone_static.0,"a",@progbits
.Lpasetone_static.0:
	.ascii	"\000\200@\300 \240`\340\020\220P\3200\260p\360\b\210H\310(\250h\350\030\230X\3308\270x\370\004\204D\304$\244d\344\024\224T\3244\264t\364\f\214L\314,\254l\354\034\234\\\334<\274|\374\002\202B\302\"\242b\342\022\222R\3222\262r\362\n\212J\312*\252j\352\032\232Z\332:\272z\372\006\206F\306&\246f\346\026\226V\3266\266v\366\016\216N\316.\256n\356\036\236^\336>\276~\376\001\201A\301!\241a\341\021\221Q\3211\261q\361\t\211I\311)\251i\351\031\231Y\3319\271y\371\005\205E\305%\245e\345\025\225U\3255\265u\365\r\215M\315-\255m\355\035\235]\335=\275}\375\003\203C\303#\243c\343\023\223S\3233\263s\363\013\213K\313+\253k\353\033\233[\333;\273{\373\007\207G\307'\247g\347\027\227W\3277\267w\367\017\217O\317/\257o\357\037\237_\337?\277\177\377"
	.size	.Lpasetone_static.0, 256

	.type	.Lpasetone_static.1,@object
	.section	.rodata..Lpasetone_static.1,"a",@progbits
.Lpasetone_static.1:
	.asciz	"\000\000\000\000\000\000\000\000\377\377\377\377\377\377\377\377\000\000\000\000\000\000\000\000\000\003"
	.size	.Lpasetone_static.1, 27

	.type	.Lpasetone_static.2,@object
	.section	.rodata..Lpasetone_static.2,"a",@progbits
.Lpasetone_static.2:
	.asciz	"\000\000\000\000\000\000\000\000\300\221!\000\000\000\000\000\000t\267\001\000\000\000\000\001\000\001\301\221!\000\000\000\000\000\377s\267\001\000\000\000\000\000t\267\001\000\000\000\000\001\000\000\000t\267\001\000\000\000\000?\377\020\005\000\000\000\000\000\000\000\000\000\000\000\000\000\001\000@\377\020\005\000\000\000\000\000\374\254\006\000\000\000\000\000\000\000\000\000\000\000\000\000\001\001\001\374\254\006\000\000\000\000\377\202@\n\000\000\000\000\000\000\000\000\000\000\000\000\000\001\000\000\203@\n\000\000\000\000\200\240l\016\000\000\000\000\000\000\000\000\000\000\000\000\000\001\001\201\240l\016\000\000\000\000\177\262\346\016\000\000\000\000\000\000\000\000\000\000\000\000\000\001\000\200\262\346\016\000\000\000\000\377\377\377\377\377\377\377\377\000\000\000\000\000\000\000\000\000\002"
	.size	.Lpasetone_static.2, 216

	.type	.Lpasetone_static.5,@object
	.section	.rodata..Lpasetone_static.5,"a",@progbits
	.p2align	1, 0x0
.Lpasetone_static.5:
	.ascii	"\000\000\t\000\016\000\033\000%\000M\000W\000}\000\220\000\235\000\246\000\305\000\317\000\345\000\376\000\030\001)\001H\001R\001l\001t\001\202\001\222\001\245\001\262\001\267\001\275\001\340\001\360\001"
	.size	.Lpasetone_static.5, 58

	.type	.Lpasetone_static.10,@object
	.section	.rodata..Lpasetone_static.10,"a",@progbits
	.p2align	3, 0x0
.Lpasetone_static.10:
	.asciz	"\002\000\000\000\000\000\000\000\000\200\000\000\000\000\000\000\000\000\000\000\000\000\000\000\004\000\000\000\000\000\000\000\000@\000\000\000\000\000\000\000\000\000\000\000\000\000\000\b\000\000\000\000\000\000\000\000 \000\000\000\000\000\000\000\000\000\000\000\000\000\000\020\000\000\000\000\000\000\000\000\020\000\000\000\000\000\000\000\000\000\000\000\000\000\000 \000\000\000\000\000\000\000\000\b\000\000\000\000\000\000\000\000\000\000\000\000\000\000@\000\000\000\000\000\000\000\000\004\000\000\000\000\000\000\000\000\000\000\000\000\000\000\200\000\000\000\000\000\000\000\000\002\000\000\000\000\000\000\000\000\000\000\000\000\000\000\000\001\000\000\000\000\000\000\000\001\000\000\000\000\000\000\000\000\000\000\000\000\000\000\000\002\000\000\000\000\000\000\200\000\000\000\000\000\000\000\000\000\000\000\000\000\000\000\000\004\000\000\000\000\000\000@\000\000\000\000\000\000\000\000\000\000\000\000\000\000\000\000\b\000\000\000\000\000\000 \000\000\000\000\000\000\000\000\000\000\000\000\000\000\000\000\020\000\000\000\000\000\000\020\000\000\000\000\000\000\000\000\000\000\000\000\000\000\000\000 \000\000\000\000\000\000\b\000\000\000\000\000\000\000\000\000\000\000\000\000\000\000\000@\000\000\000\000\000\000\004\000\000\000\000\000\000\000\000\000\000\000\000\000\000\000\000\200\000\000\000\000\000\000\002\000\000\000\000\000\000\000\001\000\000\000\000\000\000\000\000\000\001\000\000\000\000\000\001\000\000\000\000\000\000\000\001\000\000\000\000\000\000"
	.size	.Lpasetone_static.10, 384

	.ident	"rattle logic=dac8208d650f15bf3e2dc313a14fa4c783a3acf887bdfab66e1714b038d9e11b"
	.section	".note.GNU-stack","",@progbits
