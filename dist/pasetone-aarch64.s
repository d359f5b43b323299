/* Pasetone 7.1.0 for Linux on aarch64: what was proved, as assembly. Made by host/dist from what Rattle's kit compiled of crate pasetone and by the clang of
   that kit; not written by hand. `.ci/run dist` makes it anew and fails where a byte differs. Apache License 2.0, see NOTICE. */
	.file	"rattle"
	.section	".text.records::decode_tuner","ax",@progbits
	.p2align	2
	.type	"records::decode_tuner",@function
"records::decode_tuner":
	.cfi_startproc
	cmp	x2, #78
	b.ne	.Lpasetone_BB0_8
	ldur	w15, [x1, #38]
	mov	w8, #2143289344
	ldrb	w10, [x1]
	cmp	w15, w8
	and	w16, w15, #0x7fffffff
	mov	w8, #2139095040
	ccmp	w16, w8, #0, ne
	cset	w11, ls
	cmp	w10, #1
	b.hi	.Lpasetone_BB0_8
	ldur	w8, [x1, #29]
	cbz	w8, .Lpasetone_BB0_8
	ldur	w9, [x1, #33]
	cbz	w9, .Lpasetone_BB0_8
	ldrb	w13, [x1, #37]
	cmp	w13, #1
	b.hi	.Lpasetone_BB0_8
	cbz	w11, .Lpasetone_BB0_8
	ldur	q1, [x1, #51]
	ldur	d0, [x1, #67]
	ldrb	w14, [x1, #76]
	ldrb	w12, [x1, #75]
	ldrb	w18, [x1, #77]
	ext	v2.16b, v1.16b, v1.16b, #8
	orr	v3.16b, v1.16b, v0.16b
	orr	v2.8b, v3.8b, v2.8b
	fmov	x11, d2
	orr	x11, x11, x11, lsr #32
	orr	x17, x11, x11, lsr #16
	ldrb	w11, [x1, #50]
	lsr	x2, x17, #8
	orr	w17, w14, w17
	orr	w17, w17, w12
	orr	w17, w17, w2
	orr	w2, w11, w18
	orr	w17, w17, w2
	and	w17, w17, #0xff
	cmp	w17, #2
	b.hs	.Lpasetone_BB0_8
	mov	w2, #2143289344
	fmov	s2, w15
	mov	w15, #2139095040
	fmov	s3, w2
	cmp	w16, w15
	ldur	q4, [x1, #2]
	ldrb	w17, [x1, #1]
	fcsel	s2, s3, s2, hi
	ldur	q3, [x1, #13]
	cmp	w13, #1
	str	q4, [sp, #-32]!
	.cfi_def_cfa_offset 32
	movi	v4.16b, #1
	stur	q3, [sp, #11]
	movi	v3.8b, #1
	cset	w13, eq
	cmp	w18, #1
	ldr	q5, [sp]
	cset	w15, eq
	cmp	w14, #1
	ldur	x14, [x1, #42]
	cset	w16, eq
	cmp	w12, #1
	stp	w8, w9, [x0, #64]
	cmeq	v1.16b, v1.16b, v4.16b
	cmeq	v0.8b, v0.8b, v3.8b
	cset	w12, eq
	cmp	w10, #1
	mov	w10, #1
	stur	q5, [x0, #10]
	cset	w18, eq
	cmp	w11, #1
	str	x10, [x0]
	and	v1.16b, v1.16b, v4.16b
	and	v0.8b, v0.8b, v3.8b
	ldur	q4, [sp, #11]
	cset	w8, eq
	strb	w18, [x0, #8]
	strb	w17, [x0, #9]
	stur	q4, [x0, #21]
	stur	q1, [x0, #37]
	stur	d0, [x0, #53]
	strb	w12, [x0, #61]
	strb	w16, [x0, #62]
	strb	w15, [x0, #63]
	strb	w13, [x0, #72]
	strb	wzr, [x0, #75]
	sturh	wzr, [x0, #73]
	str	s2, [x0, #76]
	str	x14, [x0, #80]
	strb	w8, [x0, #88]
	str	wzr, [x0, #92]
	stur	wzr, [x0, #89]
	add	sp, sp, #32
	.cfi_def_cfa_offset 0
	ret
.Lpasetone_BB0_8:
	movi	v0.2d, #0000000000000000
	stp	q0, q0, [x0]
	stp	q0, q0, [x0, #32]
	stp	q0, q0, [x0, #64]
	ret
.Lpasetone_func_end0:
	.size	"records::decode_tuner", .Lpasetone_func_end0-"records::decode_tuner"
	.cfi_endproc

	.section	.rodata.cst16,"aM",@progbits,16
	.p2align	4, 0x0
.Lpasetone_CPI1_0:
	.word	328966
	.word	2113544
	.word	6316040
	.word	394757
	.section	".text.driver::path_steps","ax",@progbits
	.p2align	2
	.type	"driver::path_steps",@function
"driver::path_steps":
	.cfi_startproc
	sub	sp, sp, #384
	.cfi_def_cfa_offset 384
	stp	x29, x30, [sp, #336]
	str	x28, [sp, #352]
	stp	x20, x19, [sp, #368]
	add	x29, sp, #336
	.cfi_def_cfa w29, 48
	.cfi_offset w19, -8
	.cfi_offset w20, -16
	.cfi_offset w28, -32
	.cfi_offset w30, -40
	.cfi_offset w29, -48
	movi	v2.2d, #0000000000000000
	ldp	x8, x15, [x1, #56]
	ldp	q0, q1, [x1]
	mov	x19, x0
	ldr	q3, [x1, #32]
	ldrb	w0, [x1, #54]
	ldrh	w7, [x1, #52]
	ldr	w17, [x1, #48]
	tst	x15, #0xff
	ldr	x16, [x1, #72]
	ldrb	w9, [x1, #80]
	ldrb	w12, [x1, #81]
	ldrh	w10, [x1, #82]
	ldrb	w11, [x1, #84]
	ldrb	w13, [x1, #85]
	ldrh	w14, [x1, #86]
	ldrb	w1, [x5]
	ldrb	w18, [x5, #1]
	stp	q0, q1, [x29, #-96]
	stur	q3, [x29, #-64]
	stp	q2, q2, [sp, #48]
	stp	q2, q2, [sp, #80]
	str	q2, [sp, #112]
	str	xzr, [sp, #128]
	b.eq	.Lpasetone_BB1_8
	orr	w0, w7, w0, lsl #16
	tst	x15, #0xff
	b.eq	.Lpasetone_BB1_9
.Lpasetone_BB1_2:
	tst	x15, #0xff
	b.eq	.Lpasetone_BB1_10
.Lpasetone_BB1_3:
	orr	x17, x17, x0, lsl #32
	tst	x15, #0xff
	b.eq	.Lpasetone_BB1_11
.Lpasetone_BB1_4:
	ldp	q0, q1, [x29, #-96]
	tst	w3, #0xff
	ldur	q2, [x29, #-64]
	ldrb	w0, [x5, #2]
	mov	w18, #32
	csel	w18, wzr, w18, eq
	tst	x15, #0xff
	and	x17, x17, #0xffffffffffffff
	stp	q0, q1, [sp]
	str	q2, [sp, #32]
	b.eq	.Lpasetone_BB1_12
	tst	x15, #0xff
	b.eq	.Lpasetone_BB1_13
.Lpasetone_BB1_6:
	ldp	q0, q1, [sp]
	tst	w2, #0xff
	ldr	q2, [sp, #32]
	stp	x17, x8, [x29, #-48]
	stp	x15, x16, [x29, #-32]
	stp	q0, q1, [x29, #-96]
	movi	v0.2d, #0000000000000000
	stur	q2, [x29, #-64]
	sturb	w9, [x29, #-16]
	sturb	w12, [x29, #-15]
	sturh	w10, [x29, #-14]
	sturb	w11, [x29, #-12]
	sturb	w13, [x29, #-11]
	sturh	w14, [x29, #-10]
	stp	q0, q0, [sp, #144]
	stp	q0, q0, [sp, #176]
	str	q0, [sp, #208]
	str	xzr, [sp, #224]
	b.eq	.Lpasetone_BB1_14
	dup	v0.4h, w3
	movi	v1.2d, #0x0000ff000000ff
	adrp	x8, .Lpasetone_CPI1_0
	mov	w9, #2144
	add	x0, sp, #144
	sub	x1, x29, #96
	movk	w9, #8, lsl #16
	add	x2, x29, #24
	mov	x5, x6
	strb	wzr, [x29, #28]
	ushll	v0.4s, v0.4h, #0
	and	v0.16b, v0.16b, v1.16b
	ldr	q1, [x8, :lo12:.Lpasetone_CPI1_0]
	ubfiz	x8, x3, #3, #8
	mov	w3, #2
	lsr	w8, w9, w8
	shl	v0.4s, v0.4s, #3
	strb	w8, [x29, #29]
	neg	v0.4s, v0.4s
	ushl	v0.4s, v1.4s, v0.4s
	xtn	v0.4h, v0.4s
	uzp1	v0.8b, v0.8b, v0.8b
	str	s0, [x29, #24]
	bl	"chip::with_repeater"
	b	.Lpasetone_BB1_15
.Lpasetone_BB1_8:
	mov	x20, #6
	ldrb	w15, [x4, x8]
	add	x16, x6, x8, lsl #4
	movk	x20, #258, lsl #16
	mov	w12, wzr
	mov	w13, wzr
	movk	x20, #12291, lsl #32
	cmp	w15, #0
	mov	w14, wzr
	add	x15, x20, #2
	add	x20, x20, #258
	and	w9, w9, #0x1
	csel	x15, x20, x15, ne
	csel	w20, wzr, w1, ne
	stp	x15, x20, [x16]
	cset	w15, ne
	csel	x16, x8, xzr, ne
	add	x8, x8, #1
	orr	w0, w7, w0, lsl #16
	tst	x15, #0xff
	b.ne	.Lpasetone_BB1_2
.Lpasetone_BB1_9:
	mov	x16, #6
	ldrb	w15, [x4, x8]
	add	x7, x6, x8, lsl #4
	movk	x16, #258, lsl #16
	mov	w12, wzr
	mov	w13, wzr
	movk	x16, #12291, lsl #32
	cmp	w15, #0
	mov	w14, wzr
	orr	x15, x16, #0x100
	and	w9, w9, #0x1
	csel	x15, x15, x16, ne
	orr	x16, x1, #0x20
	stp	x15, x16, [x7]
	cset	w15, ne
	csel	x16, x8, xzr, ne
	add	x8, x8, #1
	tst	x15, #0xff
	b.ne	.Lpasetone_BB1_3
.Lpasetone_BB1_10:
	mov	x1, #6
	ldrb	w15, [x4, x8]
	add	x16, x6, x8, lsl #4
	movk	x1, #258, lsl #16
	mov	w12, wzr
	mov	w13, wzr
	movk	x1, #12292, lsl #32
	cmp	w15, #0
	mov	w14, wzr
	add	x15, x1, #2
	add	x1, x1, #258
	and	w9, w9, #0x1
	csel	x15, x1, x15, ne
	csel	w1, wzr, w18, ne
	stp	x15, x1, [x16]
	cset	w15, ne
	csel	x16, x8, xzr, ne
	add	x8, x8, #1
	orr	x17, x17, x0, lsl #32
	tst	x15, #0xff
	b.ne	.Lpasetone_BB1_4
.Lpasetone_BB1_11:
	mov	x16, #6
	ldrb	w15, [x4, x8]
	add	x0, x6, x8, lsl #4
	movk	x16, #258, lsl #16
	mov	w12, wzr
	mov	w13, wzr
	movk	x16, #12292, lsl #32
	cmp	w15, #0
	mov	w14, wzr
	orr	x15, x16, #0x100
	and	w9, w9, #0x1
	csel	x15, x15, x16, ne
	and	x16, x18, #0xffffffffffffffdf
	stp	x15, x16, [x0]
	cset	w15, ne
	csel	x16, x8, xzr, ne
	add	x8, x8, #1
	b	.Lpasetone_BB1_4
.Lpasetone_BB1_12:
	mov	x1, #6
	ldrb	w15, [x4, x8]
	add	x16, x6, x8, lsl #4
	movk	x1, #258, lsl #16
	mov	w12, wzr
	mov	w13, wzr
	movk	x1, #12289, lsl #32
	cmp	w15, #0
	mov	w14, wzr
	add	x15, x1, #2
	add	x1, x1, #258
	and	w9, w9, #0x1
	csel	x15, x1, x15, ne
	csel	w1, wzr, w0, ne
	stp	x15, x1, [x16]
	cset	w15, ne
	csel	x16, x8, xzr, ne
	add	x8, x8, #1
	tst	x15, #0xff
	b.ne	.Lpasetone_BB1_6
.Lpasetone_BB1_13:
	and	w16, w0, #0xffffffdf
	mov	x0, #6
	ldrb	w15, [x4, x8]
	movk	x0, #258, lsl #16
	add	x1, x6, x8, lsl #4
	orr	w16, w16, w18
	movk	x0, #12289, lsl #32
	cmp	w15, #0
	and	x16, x16, #0xff
	orr	x15, x0, #0x100
	mov	w12, wzr
	mov	w13, wzr
	csel	x15, x15, x0, ne
	mov	w14, wzr
	and	w9, w9, #0x1
	stp	x15, x16, [x1]
	cset	w15, ne
	csel	x16, x8, xzr, ne
	add	x8, x8, #1
	b	.Lpasetone_BB1_6
.Lpasetone_BB1_14:
	ldp	q0, q1, [sp]
	ldr	q2, [sp, #32]
	stp	x17, x8, [sp, #192]
	str	q2, [sp, #176]
	stp	q0, q1, [sp, #144]
	stp	x15, x16, [sp, #208]
	strb	w9, [sp, #224]
	strb	w12, [sp, #225]
	strh	w10, [sp, #226]
	strb	w11, [sp, #228]
	strb	w13, [sp, #229]
	strh	w14, [sp, #230]
.Lpasetone_BB1_15:
	ldp	q0, q1, [sp, #176]
	ldr	q2, [sp, #208]
	ldp	q3, q4, [sp, #144]
	ldr	x8, [sp, #224]
	str	q2, [sp, #112]
	stp	q0, q1, [sp, #80]
	str	x8, [sp, #128]
	stp	q3, q4, [sp, #48]
	stp	q0, q1, [x19, #32]
	str	q2, [x19, #64]
	str	x8, [x19, #80]
	stp	q3, q4, [x19]
	.cfi_def_cfa wsp, 384
	ldp	x20, x19, [sp, #368]
	ldr	x28, [sp, #352]
	ldp	x29, x30, [sp, #336]
	add	sp, sp, #384
	.cfi_def_cfa_offset 0
	.cfi_restore w19
	.cfi_restore w20
	.cfi_restore w28
	.cfi_restore w30
	.cfi_restore w29
	ret
.Lpasetone_func_end1:
	.size	"driver::path_steps", .Lpasetone_func_end1-"driver::path_steps"
	.cfi_endproc

	.section	".text.chip::with_repeater","ax",@progbits
	.p2align	2
	.type	"chip::with_repeater",@function
"chip::with_repeater":
	.cfi_startproc
	sub	sp, sp, #208
	.cfi_def_cfa_offset 208
	str	x19, [sp, #192]
	.cfi_offset w19, -16
	.cfi_remember_state
	ldp	q1, q0, [x1, #48]
	ldr	x8, [x1, #80]
	str	x8, [sp, #176]
	stp	q1, q0, [sp, #144]
	ldr	q0, [x1, #32]
	ldp	x8, x14, [sp, #152]
	str	q0, [sp, #128]
	ldp	q2, q0, [x1]
	tst	x14, #0xff
	stp	q2, q0, [sp, #96]
	b.eq	.Lpasetone_BB2_4
	ldrh	w9, [sp, #182]
	ldrb	w11, [sp, #181]
	and	x15, x14, #0xffffffffffffff00
	ldrb	w12, [sp, #177]
	ldr	x13, [sp, #168]
	ldrb	w10, [sp, #176]
	tst	w14, #0xff
	b.eq	.Lpasetone_BB2_5
.Lpasetone_BB2_2:
	tbz	w10, #0, .Lpasetone_BB2_8
	ldrb	w10, [x4, x8]
	mov	w15, #1
	add	x16, x5, x8, lsl #4
	movk	w15, #256, lsl #16
	mov	w12, wzr
	mov	w11, wzr
	orr	x17, x15, #0x100
	cmp	w10, #0
	mov	w9, wzr
	csel	x10, x15, x17, eq
	add	x8, x8, #1
	stp	x10, xzr, [x16]
	and	x10, x14, #0xff
	b	.Lpasetone_BB2_9
.Lpasetone_BB2_4:
	ldrb	w10, [x4, x8]
	mov	w13, #1
	add	x14, x5, x8, lsl #4
	movk	w13, #256, lsl #16
	mov	x15, xzr
	mov	w12, wzr
	cmp	w10, #0
	orr	x10, x13, #0x100
	mov	w11, wzr
	csel	x10, x13, x10, eq
	mov	w13, #1
	mov	w9, wzr
	stp	x10, x13, [x14]
	cset	w10, eq
	cset	w14, ne
	csel	x13, xzr, x8, eq
	add	x8, x8, #1
	tst	w14, #0xff
	b.ne	.Lpasetone_BB2_2
.Lpasetone_BB2_5:
	ldrb	w12, [x2]
	add	x14, sp, #96
	ldrb	w15, [x2, #2]
	orr	x13, x14, #0x1
	ldrb	w17, [x2, #1]
	ldrb	w1, [sp, #96]
	sub	w11, w12, #5
	ldrb	w6, [x4, x8]
	mov	w7, #2
	and	x16, x11, #0xff
	movk	w7, #512, lsl #16
	and	w17, w17, w15
	ldrb	w18, [x13, x16]
	mov	w19, #256
	cmp	w6, #0
	add	x14, x14, #28
	ldrh	w9, [sp, #178]
	ldrb	w11, [sp, #180]
	bic	w18, w18, w15
	orr	x15, x7, x1, lsl #16
	csel	x7, x19, xzr, ne
	orr	w17, w18, w17
	add	x18, x5, x8, lsl #4
	cset	w1, ne
	bfi	x12, x17, #8, #8
	strb	w17, [x13, x16]
	strb	w1, [x14, x16]
	orr	x16, x7, x15
	stp	x16, x12, [x18]
	add	x12, x8, #1
	cbz	w6, .Lpasetone_BB2_11
.Lpasetone_BB2_6:
	tbz	w10, #0, .Lpasetone_BB2_10
	ldrb	w10, [x4, x12]
	mov	w13, #1
	add	x12, x5, x12, lsl #4
	movk	w13, #256, lsl #16
	orr	x14, x13, #0x100
	cmp	w10, #0
	csel	x10, x13, x14, eq
	stp	x10, xzr, [x12]
	add	x12, x8, #2
	mov	w10, #1
	b	.Lpasetone_BB2_17
.Lpasetone_BB2_8:
	and	x10, x14, #0xff
	orr	x10, x15, x10
.Lpasetone_BB2_9:
	ldr	q0, [sp, #96]
	stp	x8, x10, [sp, #152]
	str	x13, [sp, #168]
	strb	wzr, [sp, #176]
	strb	w12, [sp, #177]
	strb	w11, [sp, #181]
	strh	w9, [sp, #182]
	b	.Lpasetone_BB2_18
.Lpasetone_BB2_10:
	mov	w10, #1
	b	.Lpasetone_BB2_17
.Lpasetone_BB2_11:
	cmp	x3, #1
	b.ne	.Lpasetone_BB2_14
.Lpasetone_BB2_12:
	tbz	w10, #0, .Lpasetone_BB2_16
	ldrb	w13, [x4, x12]
	mov	w14, #1
	add	x12, x5, x12, lsl #4
	movk	w14, #256, lsl #16
	mov	x10, xzr
	orr	x15, x14, #0x100
	cmp	w13, #0
	csel	x13, x14, x15, eq
	stp	x13, xzr, [x12]
	add	x12, x8, #2
	mov	x8, xzr
	b	.Lpasetone_BB2_17
.Lpasetone_BB2_14:
	ldrb	w16, [x2, #3]
	ldrb	w18, [x2, #5]
	ldrb	w1, [x2, #4]
	ldrb	w6, [x4, x12]
	sub	w17, w16, #5
	and	w1, w1, w18
	and	x17, x17, #0xff
	cmp	w6, #0
	ldrb	w7, [x13, x17]
	cset	w19, ne
	strb	w19, [x14, x17]
	bic	w18, w7, w18
	mov	w7, #256
	orr	w18, w18, w1
	add	x1, x5, x12, lsl #4
	csel	x7, x7, xzr, ne
	bfi	x16, x18, #8, #8
	strb	w18, [x13, x17]
	orr	x17, x7, x15
	stp	x17, x16, [x1]
	add	x16, x8, #2
	cbz	w6, .Lpasetone_BB2_19
	mov	x8, x12
	mov	x12, x16
	b	.Lpasetone_BB2_6
.Lpasetone_BB2_16:
	mov	x8, xzr
	mov	x10, xzr
.Lpasetone_BB2_17:
	ldr	q0, [sp, #96]
	stp	x12, x10, [sp, #152]
	str	x8, [sp, #168]
	strh	wzr, [sp, #176]
	strh	w9, [sp, #178]
	strb	w11, [sp, #180]
	strb	wzr, [sp, #181]
	strh	wzr, [sp, #182]
.Lpasetone_BB2_18:
	ldp	q1, q2, [sp, #112]
	ldr	x8, [sp, #176]
	ldr	x19, [sp, #192]
	str	x8, [sp, #80]
	stp	q0, q1, [sp]
	ldp	q0, q1, [sp, #144]
	str	x8, [x0, #80]
	stp	q2, q0, [sp, #32]
	str	q1, [sp, #64]
	ldp	q0, q1, [sp, #32]
	ldr	q2, [sp, #64]
	stp	q0, q1, [x0, #32]
	ldp	q0, q1, [sp]
	str	q2, [x0, #64]
	stp	q0, q1, [x0]
	add	sp, sp, #208
	.cfi_def_cfa_offset 0
	.cfi_restore w19
	ret
.Lpasetone_BB2_19:
	.cfi_restore_state
	cmp	x3, #2
	b.ne	.Lpasetone_BB2_21
	mov	x8, x12
	mov	x12, x16
	b	.Lpasetone_BB2_12
.Lpasetone_BB2_21:
	ldrb	w12, [x2, #6]
	ldrb	w18, [x2, #8]
	ldrb	w1, [x2, #7]
	ldrb	w6, [x4, x16]
	sub	w17, w12, #5
	and	w1, w1, w18
	and	x17, x17, #0xff
	cmp	w6, #0
	ldrb	w7, [x13, x17]
	cset	w19, ne
	strb	w19, [x14, x17]
	bic	w18, w7, w18
	mov	w7, #256
	orr	w18, w18, w1
	add	x1, x5, x16, lsl #4
	csel	x7, x7, xzr, ne
	bfi	x12, x18, #8, #8
	strb	w18, [x13, x17]
	orr	x17, x7, x15
	stp	x17, x12, [x1]
	add	x12, x8, #3
	cbz	w6, .Lpasetone_BB2_23
	mov	x8, x16
	b	.Lpasetone_BB2_6
.Lpasetone_BB2_23:
	cmp	x3, #3
	b.ne	.Lpasetone_BB2_25
	mov	x8, x16
	b	.Lpasetone_BB2_12
.Lpasetone_BB2_25:
	ldrb	w16, [x2, #9]
	ldrb	w18, [x2, #11]
	ldrb	w1, [x2, #10]
	ldrb	w2, [x4, x12]
	sub	w17, w16, #5
	and	w1, w1, w18
	and	x17, x17, #0xff
	cmp	w2, #0
	ldrb	w3, [x13, x17]
	cset	w6, ne
	strb	w6, [x14, x17]
	bic	w18, w3, w18
	mov	w3, #256
	orr	w18, w18, w1
	csel	x1, x3, xzr, ne
	strb	w18, [x13, x17]
	add	x13, x5, x12, lsl #4
	bfi	x16, x18, #8, #8
	orr	x14, x1, x15
	add	x15, x8, #4
	mov	x8, x12
	mov	x12, x15
	stp	x14, x16, [x13]
	cbnz	w2, .Lpasetone_BB2_6
	b	.Lpasetone_BB2_12
.Lpasetone_func_end2:
	.size	"chip::with_repeater", .Lpasetone_func_end2-"chip::with_repeater"
	.cfi_endproc

	.section	".text.bands::plan_by_table","ax",@progbits
	.p2align	2
	.type	"bands::plan_by_table",@function
"bands::plan_by_table":
	.cfi_startproc
	cmp	x2, #432
	b.hi	.Lpasetone_BB3_20
	mov	x8, #16991
	mov	w9, #27
	movk	x8, #2427, lsl #16
	movk	x8, #9709, lsl #32
	movk	x8, #38836, lsl #48
	umulh	x8, x2, x8
	lsr	x8, x8, #4
	msub	x8, x8, x9, x2
	cbnz	x8, .Lpasetone_BB3_20
	cmp	x2, #26
	b.hi	.Lpasetone_BB3_9
.Lpasetone_BB3_3:
	subs	x2, x2, #27
	b.lo	.Lpasetone_BB3_8
	mov	x8, x1
	ldr	x9, [x1], #27
	cmp	x9, x3
	b.hi	.Lpasetone_BB3_3
	ldr	x9, [x8, #8]
	cmp	x3, x9
	b.hi	.Lpasetone_BB3_3
	ldr	x10, [x8, #16]
	ldrb	w9, [x8, #24]
	ldrb	w11, [x8, #25]
	ldrb	w13, [x8, #26]
	tbnz	x10, #63, .Lpasetone_BB3_21
	cmn	x10, x3
	b.lo	.Lpasetone_BB3_22
.Lpasetone_BB3_8:
	mov	x10, xzr
	mov	w8, wzr
	mov	w9, wzr
	mov	w11, wzr
	mov	w13, wzr
	mov	w12, #2
	b	.Lpasetone_BB3_23
.Lpasetone_BB3_9:
	ldp	x9, x8, [x1]
	cmp	x9, x8
	b.hi	.Lpasetone_BB3_20
	ldrb	w9, [x1, #24]
	cmp	w9, #1
	b.hi	.Lpasetone_BB3_20
	ldrb	w9, [x1, #25]
	cmp	w9, #3
	b.hi	.Lpasetone_BB3_20
	ldrb	w9, [x1, #26]
	cmp	w9, #1
	b.hi	.Lpasetone_BB3_20
	add	x9, x1, #53
	sub	x10, x2, #27
.Lpasetone_BB3_14:
	subs	x10, x10, #27
	b.lo	.Lpasetone_BB3_3
	ldur	x11, [x9, #-26]
	cmp	x8, x11
	b.hs	.Lpasetone_BB3_20
	ldur	x8, [x9, #-18]
	cmp	x11, x8
	b.hi	.Lpasetone_BB3_20
	ldurb	w11, [x9, #-2]
	cmp	w11, #1
	b.hi	.Lpasetone_BB3_20
	ldurb	w11, [x9, #-1]
	cmp	w11, #3
	b.hi	.Lpasetone_BB3_20
	ldrb	w11, [x9], #27
	cmp	w11, #2
	b.lo	.Lpasetone_BB3_14
.Lpasetone_BB3_20:
	mov	w8, #19
	stp	xzr, xzr, [x0, #8]
	str	x8, [x0]
	ret
.Lpasetone_BB3_21:
	neg	x8, x10
	cmp	x3, x8
	b.lo	.Lpasetone_BB3_8
.Lpasetone_BB3_22:
	cmp	w9, #1
	mov	x12, xzr
	add	x10, x10, x3
	cset	w8, eq
	cmp	w11, #3
	cset	w9, lo
	csel	w11, w11, wzr, lo
	cmp	w13, #1
	cset	w13, eq
.Lpasetone_BB3_23:
	stp	x12, x10, [x0]
	strb	w8, [x0, #16]
	strb	w9, [x0, #17]
	strb	w11, [x0, #18]
	strb	w13, [x0, #19]
	str	wzr, [x0, #20]
	ret
.Lpasetone_func_end3:
	.size	"bands::plan_by_table", .Lpasetone_func_end3-"bands::plan_by_table"
	.cfi_endproc

	.section	".text.transcript::read_section","ax",@progbits
	.p2align	2
	.type	"transcript::read_section",@function
"transcript::read_section":
	.cfi_startproc
	cmp	x2, #7
	b.ls	.Lpasetone_BB4_4
	sub	x9, x2, #8
	ldr	w8, [x1, x9]
	cmp	w8, #1, lsl #12
	b.hi	.Lpasetone_BB4_4
	add	x10, x1, x2
	ldur	w10, [x10, #-4]
	cmp	x10, x8, lsl #4
	b.ne	.Lpasetone_BB4_4
	subs	x9, x9, x10
	b.hs	.Lpasetone_BB4_5
.Lpasetone_BB4_4:
	stp	xzr, xzr, [x0]
	str	xzr, [x0, #16]
	ret
.Lpasetone_BB4_5:
	cbz	w8, .Lpasetone_BB4_31
	sub	x10, x2, x10
	mov	x11, x8
	add	x10, x10, x1
	sub	x10, x10, #4
.Lpasetone_BB4_7:
	ldurb	w14, [x10, #-4]
	ldur	x13, [x10, #4]
	mov	w16, wzr
	ldurb	w15, [x10, #-3]
	ldurb	w12, [x10, #-1]
	ldr	w17, [x10]
	ldurb	w18, [x10, #-2]
	cmp	w14, #4
	and	w1, w13, #0xff
	b.le	.Lpasetone_BB4_13
	cmp	w14, #6
	b.le	.Lpasetone_BB4_19
	cmp	w14, #7
	b.eq	.Lpasetone_BB4_22
	cmp	w14, #8
	b.eq	.Lpasetone_BB4_21
	cmp	w14, #9
	b.ne	.Lpasetone_BB4_27
	orr	w16, w12, w15
	cmp	w17, #16, lsl #12
	orr	w16, w16, w18
	orr	w16, w16, w1
	ccmp	w16, #0, #0, lo
	b	.Lpasetone_BB4_26
.Lpasetone_BB4_13:
	cmp	w14, #2
	b.gt	.Lpasetone_BB4_17
	cmp	w14, #1
	b.eq	.Lpasetone_BB4_23
	cmp	w14, #2
	b.ne	.Lpasetone_BB4_27
	sub	w16, w12, #1
	cmp	w15, #2
	ccmp	w16, #8, #2, lo
	b	.Lpasetone_BB4_25
.Lpasetone_BB4_17:
	cmp	w14, #3
	b.eq	.Lpasetone_BB4_24
	cmp	w14, #4
	b.eq	.Lpasetone_BB4_21
	b	.Lpasetone_BB4_27
.Lpasetone_BB4_19:
	cmp	w14, #5
	b.eq	.Lpasetone_BB4_22
	cmp	w14, #6
	b.ne	.Lpasetone_BB4_27
.Lpasetone_BB4_21:
	orr	w16, w12, w15
	cmp	w16, #2
	mov	w16, #65536
	ccmp	w17, w16, #2, lo
	ccmp	w12, #0, #4, lo
	cset	w16, ne
	b	.Lpasetone_BB4_27
.Lpasetone_BB4_22:
	cmp	w15, #2
	mov	w16, #65536
	ccmp	w17, w16, #2, lo
	ccmp	w12, #2, #0, lo
	b	.Lpasetone_BB4_26
.Lpasetone_BB4_23:
	cmp	w18, #0
	ccmp	w12, #1, #0, eq
	ccmp	w15, #2, #2, eq
	ccmp	w17, #0, #0, lo
	ccmp	w1, #2, #2, eq
	cset	w16, lo
	b	.Lpasetone_BB4_27
.Lpasetone_BB4_24:
	sub	w16, w12, #1
	cmp	w15, #2
	ccmp	w16, #5, #2, lo
.Lpasetone_BB4_25:
	ccmp	w17, #0, #0, lo
.Lpasetone_BB4_26:
	cset	w16, eq
.Lpasetone_BB4_27:
	cmp	w14, #8
	ccmp	w14, #3, #4, ne
	ccmp	w15, #0, #4, eq
	csel	x12, xzr, x12, ne
	lsl	x14, x12, #3
	lsr	x13, x13, x14
	mov	x14, xzr
	cmp	x13, #0
	mov	x13, xzr
	ccmp	x12, #7, #2, ne
	mov	x12, xzr
	b.ls	.Lpasetone_BB4_32
	tbz	w16, #0, .Lpasetone_BB4_32
	subs	x11, x11, #1
	add	x10, x10, #16
	b.ne	.Lpasetone_BB4_7
	mov	w13, #1
	stp	x13, x9, [x0]
	str	x8, [x0, #16]
	ret
.Lpasetone_BB4_31:
	mov	x14, xzr
	mov	w13, #1
	mov	x12, x9
.Lpasetone_BB4_32:
	stp	x13, x12, [x0]
	str	x14, [x0, #16]
	ret
.Lpasetone_func_end4:
	.size	"transcript::read_section", .Lpasetone_func_end4-"transcript::read_section"
	.cfi_endproc

	.section	.rodata.cst16,"aM",@progbits,16
	.p2align	4, 0x0
.Lpasetone_CPI5_0:
	.word	1
	.word	0
	.word	0
	.word	0
	.section	".text.tuners::set_frequency","ax",@progbits
	.p2align	2
	.type	"tuners::set_frequency",@function
"tuners::set_frequency":
	.cfi_startproc
	str	d8, [sp, #-112]!
	.cfi_def_cfa_offset 112
	stp	x29, x30, [sp, #16]
	stp	x28, x27, [sp, #32]
	stp	x26, x25, [sp, #48]
	stp	x24, x23, [sp, #64]
	stp	x22, x21, [sp, #80]
	stp	x20, x19, [sp, #96]
	add	x29, sp, #16
	.cfi_def_cfa w29, 96
	.cfi_offset w19, -8
	.cfi_offset w20, -16
	.cfi_offset w21, -24
	.cfi_offset w22, -32
	.cfi_offset w23, -40
	.cfi_offset w24, -48
	.cfi_offset w25, -56
	.cfi_offset w26, -64
	.cfi_offset w27, -72
	.cfi_offset w28, -80
	.cfi_offset w30, -88
	.cfi_offset w29, -96
	.cfi_offset b8, -112
	.cfi_remember_state
	sub	sp, sp, #544
	mov	x19, x0
	add	x0, sp, #16
	mov	x25, x7
	mov	x23, x6
	mov	x26, x5
	mov	x24, x4
	mov	x22, x3
	add	x21, sp, #16
	bl	"records::decode_tuner"
	ldrb	w8, [sp, #16]
	cmp	w8, #1
	b.ne	.Lpasetone_BB5_3
	ldr	x9, [x29, #120]
	ldr	x27, [sp, #96]
	neg	x8, x22
	mov	w10, #2
	cmp	x9, #78
	mov	w9, #8
	csel	w9, w9, wzr, lo
	cmp	x27, x8
	csel	w9, w9, w10, lo
	cbz	w9, .Lpasetone_BB5_4
	movi	d0, #0000000000000000
	stp	w9, wzr, [x19, #16]
	str	xzr, [x19, #24]
	mov	v0.d[1], v0.d[0]
	str	q0, [x19]
	b	.Lpasetone_BB5_21
.Lpasetone_BB5_3:
	adrp	x8, .Lpasetone_CPI5_0
	stp	xzr, xzr, [x19]
	ldr	q0, [x8, :lo12:.Lpasetone_CPI5_0]
	str	q0, [x19, #16]
	b	.Lpasetone_BB5_21
.Lpasetone_BB5_4:
	ldp	w28, w20, [sp, #80]
	ldrb	w15, [sp, #24]
	ldrb	w17, [sp, #25]
	mov	w9, #1
	ldrb	w0, [sp, #88]
	ldr	s8, [sp, #92]
	add	x1, sp, #144
	cmp	w28, #0
	ldrb	w18, [sp, #104]
	ccmp	w20, #0, #4, ne
	cinc	w10, w9, ne
	b.eq	.Lpasetone_BB5_12
	cmp	x27, x8
	b.hs	.Lpasetone_BB5_12
	ldr	x8, [x29, #104]
	cmp	x8, #856
	b.hs	.Lpasetone_BB5_8
	mov	w10, #8
	b	.Lpasetone_BB5_12
.Lpasetone_BB5_8:
	cmp	x26, #53
	b.hs	.Lpasetone_BB5_10
	mov	w10, #9
	b	.Lpasetone_BB5_12
.Lpasetone_BB5_10:
	cmp	x25, #34
	b.hi	.Lpasetone_BB5_22
	mov	w10, #10
.Lpasetone_BB5_12:
	ldur	q0, [x21, #10]
	ldur	q1, [x21, #21]
	mov	x12, xzr
	ldur	q2, [x21, #37]
	mov	x9, xzr
	mov	w8, wzr
	str	q0, [sp, #144]
	ldur	q0, [x21, #48]
	mov	w11, wzr
	stur	q1, [x1, #11]
	mov	w13, #1
	str	q2, [sp, #112]
	stur	q0, [sp, #123]
	cbz	w13, .Lpasetone_BB5_14
.Lpasetone_BB5_13:
	cbz	x9, .Lpasetone_BB5_15
.Lpasetone_BB5_14:
	ldr	x14, [x29, #112]
	ldr	q0, [sp, #144]
	mov	w16, #2143289344
	ldur	q1, [x1, #11]
	stur	q0, [x14, #2]
	fmov	s0, s8
	strb	w15, [x14]
	fmov	w15, s8
	stur	q1, [x14, #13]
	ldur	q1, [sp, #123]
	strb	w17, [x14, #1]
	and	w17, w0, #0x1
	fcmp	s0, s0
	stur	w28, [x14, #29]
	ldr	q0, [sp, #112]
	stur	w20, [x14, #33]
	strb	w17, [x14, #37]
	csel	w15, w16, w15, vs
	stur	x27, [x14, #42]
	stur	w15, [x14, #38]
	and	w15, w18, #0x1
	strb	w15, [x14, #50]
	stur	q0, [x14, #51]
	stur	q1, [x14, #62]
.Lpasetone_BB5_15:
	cbz	w13, .Lpasetone_BB5_18
	cmp	w13, #2
	b.ne	.Lpasetone_BB5_19
	mov	x14, xzr
	mov	w10, #11
	b	.Lpasetone_BB5_20
.Lpasetone_BB5_18:
	mov	w10, w13
	mov	x14, x12
	mov	x12, x10
	mov	w10, w13
	b	.Lpasetone_BB5_20
.Lpasetone_BB5_19:
	mov	x14, xzr
	mov	x12, xzr
.Lpasetone_BB5_20:
	stp	x14, x12, [x19]
	stp	w10, w9, [x19, #16]
	stp	w8, w11, [x19, #24]
.Lpasetone_BB5_21:
	add	sp, sp, #544
	.cfi_def_cfa wsp, 112
	ldp	x20, x19, [sp, #96]
	ldp	x22, x21, [sp, #80]
	ldp	x24, x23, [sp, #64]
	ldp	x26, x25, [sp, #48]
	ldp	x28, x27, [sp, #32]
	ldp	x29, x30, [sp, #16]
	ldr	d8, [sp], #112
	.cfi_def_cfa_offset 0
	.cfi_restore w19
	.cfi_restore w20
	.cfi_restore w21
	.cfi_restore w22
	.cfi_restore w23
	.cfi_restore w24
	.cfi_restore w25
	.cfi_restore w26
	.cfi_restore w27
	.cfi_restore w28
	.cfi_restore w30
	.cfi_restore w29
	.cfi_restore b8
	ret
.Lpasetone_BB5_22:
	.cfi_restore_state
	ldr	x8, [x29, #96]
	stp	w0, w17, [sp]
	add	x0, sp, #176
	add	x2, x27, x22
	mov	w1, w15
	mov	w3, w20
	str	x8, [sp, #8]
	mov	w26, w15
	mov	w25, w18
	bl	"pll::plan_pll"
	add	x9, sp, #144
	ldrb	w8, [sp, #176]
	stp	w26, w25, [x29, #-8]
	ldur	q0, [x9, #40]
	ldur	q1, [x9, #56]
	sub	x0, x29, #184
	stp	xzr, x8, [x29, #-96]
	add	x1, sp, #288
	sub	x2, x29, #96
	stp	q0, q1, [x29, #-80]
	ldur	q0, [x21, #10]
	ldur	q1, [x21, #21]
	sturb	w25, [x29, #-95]
	mov	x25, x8
	ldr	x8, [sp, #216]
	stur	q0, [x9, #145]
	ldur	q0, [x21, #48]
	mov	x3, x24
	stur	q1, [x9, #156]
	movi	v1.2d, #0000000000000000
	mov	x4, x23
	stur	q0, [x9, #183]
	ldur	q0, [x21, #37]
	ldr	x21, [sp, #8]
	stp	x8, x22, [x29, #-48]
	ldr	w8, [sp, #4]
	mov	x5, x21
	sturb	w26, [x29, #-96]
	strb	w8, [sp, #288]
	stur	q0, [x9, #172]
	stur	q1, [x9, #199]
	stur	q1, [x9, #215]
	strb	wzr, [sp, #375]
	bl	"tuning::tune"
	ldurb	w11, [x29, #-100]
	ldurh	w8, [x29, #-102]
	tbz	w11, #0, .Lpasetone_BB5_24
	mov	w0, #1
	b	.Lpasetone_BB5_25
.Lpasetone_BB5_24:
	cmp	w8, #10
	ldr	w0, [sp]
	cset	w9, ne
	and	w0, w9, w0
.Lpasetone_BB5_25:
	ldur	x9, [x29, #-128]
	add	x1, sp, #144
	ldurb	w12, [x29, #-120]
	ldur	q0, [x1, #233]
	ldur	q1, [x1, #244]
	sub	x15, x29, #184
	lsl	x10, x9, #4
	tst	w25, #0xff
	orr	w17, w12, w25
	str	q0, [sp, #256]
	ldur	q0, [x15, #28]
	csel	x16, xzr, x22, eq
	stur	q1, [x1, #123]
	add	x13, x21, x10
	ldur	q1, [x15, #39]
	cset	w15, eq
	stp	w9, w10, [x13]
	tst	w17, #0xff
	mov	w13, #2
	str	q0, [sp, #224]
	ldur	q0, [x1, #123]
	stur	q1, [x1, #91]
	ldr	q1, [sp, #256]
	csel	w10, w13, wzr, eq
	cmp	w12, #0
	ldur	x14, [x29, #-112]
	stur	q0, [x1, #11]
	csel	w13, w15, w13, eq
	ldur	q0, [x1, #91]
	str	q1, [sp, #144]
	ldp	w15, w18, [x29, #-8]
	ldr	q1, [sp, #224]
	ldurb	w17, [x29, #-184]
	csel	x12, x16, x14, eq
	and	w11, w11, #0x1
	stur	q0, [sp, #123]
	str	q1, [sp, #112]
	cbnz	w13, .Lpasetone_BB5_13
	b	.Lpasetone_BB5_14
.Lpasetone_func_end5:
	.size	"tuners::set_frequency", .Lpasetone_func_end5-"tuners::set_frequency"
	.cfi_endproc

	.section	".text.pll::plan_pll","ax",@progbits
	.p2align	2
	.type	"pll::plan_pll",@function
"pll::plan_pll":
	.cfi_startproc
	cbz	w3, .Lpasetone_BB6_16
	mov	w8, #53759
	movk	w8, #27465, lsl #16
	cmp	x2, x8
	b.hi	.Lpasetone_BB6_16
	mov	w8, #1855
	movk	w8, #13504, lsl #16
	cmp	x2, x8
	b.ls	.Lpasetone_BB6_4
	mov	w8, wzr
	mov	w9, #2
	b	.Lpasetone_BB6_14
.Lpasetone_BB6_4:
	mov	w8, #927
	movk	w8, #6752, lsl #16
	cmp	x2, x8
	b.ls	.Lpasetone_BB6_6
	mov	w8, #1
	mov	w9, #4
	b	.Lpasetone_BB6_14
.Lpasetone_BB6_6:
	mov	w8, #463
	movk	w8, #3376, lsl #16
	cmp	x2, x8
	b.ls	.Lpasetone_BB6_8
	mov	w8, #2
	mov	w9, #8
	b	.Lpasetone_BB6_14
.Lpasetone_BB6_8:
	mov	w8, #231
	movk	w8, #1688, lsl #16
	cmp	x2, x8
	b.ls	.Lpasetone_BB6_10
	mov	w8, #3
	mov	w9, #16
	b	.Lpasetone_BB6_14
.Lpasetone_BB6_10:
	mov	w8, #115
	movk	w8, #844, lsl #16
	cmp	x2, x8
	b.ls	.Lpasetone_BB6_12
	mov	w8, #4
	mov	w9, #32
	b	.Lpasetone_BB6_14
.Lpasetone_BB6_12:
	mov	w8, #58
	movk	w8, #422, lsl #16
	cmp	x2, x8
	b.lo	.Lpasetone_BB6_16
	mov	w8, #5
	mov	w9, #64
.Lpasetone_BB6_14:
	mul	x11, x9, x2
	ubfiz	x12, x3, #1, #32
	udiv	x10, x11, x12
	cmp	x10, #13
	b.lo	.Lpasetone_BB6_16
	tst	w1, #0xff
	mov	w13, #127
	mov	w14, #63
	csel	x13, x14, x13, eq
	cmp	x13, x10
	b.hs	.Lpasetone_BB6_17
.Lpasetone_BB6_16:
	movi	v0.2d, #0000000000000000
	stp	q0, q0, [x0, #16]
	str	q0, [x0]
	ret
.Lpasetone_BB6_17:
	msub	x12, x10, x12, x11
	mov	x14, #63439
	mov	w13, #19923
	movk	x14, #58195, lsl #16
	movk	w13, #4194, lsl #16
	mov	w15, #-32768
	movk	x14, #39845, lsl #32
	umull	x13, w3, w13
	movk	x14, #8388, lsl #48
	lsr	x11, x12, #3
	lsr	x13, x13, #37
	umulh	x11, x11, x14
	and	w13, w13, #0xfffffe
	lsr	x14, x13, #1
	lsr	x11, x11, #4
	cmp	x11, x14
	csel	x14, x14, xzr, hi
	csel	w15, w15, wzr, hi
	cmp	x12, #2000
	sub	x14, x11, x14
	csel	w12, wzr, w15, lo
	csel	x14, x11, x14, lo
	cmp	x14, #2
	b.hs	.Lpasetone_BB6_19
.Lpasetone_BB6_18:
	lsl	w13, w10, #6
	strb	w8, [x0, #16]
	add	w8, w10, #1011
	strb	w10, [x0, #17]
	mov	w10, #1
	add	w8, w13, w8, lsr #2
	stur	wzr, [x0, #19]
	stp	x10, x9, [x0]
	sub	w8, w8, #64
	strb	wzr, [x0, #23]
	strb	w8, [x0, #18]
	str	x11, [x0, #24]
	strh	w12, [x0, #32]
	stur	wzr, [x0, #34]
	strh	wzr, [x0, #38]
	str	x14, [x0, #40]
	ret
.Lpasetone_BB6_19:
	lsr	x15, x13, #2
	subs	x15, x14, x15
	b.ls	.Lpasetone_BB6_21
	cmp	x15, #2
	orr	w12, w12, #0x4000
	mov	x14, x15
	b.lo	.Lpasetone_BB6_18
.Lpasetone_BB6_21:
	lsr	x15, x13, #3
	subs	x15, x14, x15
	b.ls	.Lpasetone_BB6_23
	cmp	x15, #2
	add	w12, w12, #2, lsl #12
	mov	x14, x15
	b.lo	.Lpasetone_BB6_18
.Lpasetone_BB6_23:
	lsr	x15, x13, #4
	subs	x15, x14, x15
	b.ls	.Lpasetone_BB6_25
	cmp	x15, #2
	add	w12, w12, #1, lsl #12
	mov	x14, x15
	b.lo	.Lpasetone_BB6_18
.Lpasetone_BB6_25:
	lsr	x15, x13, #5
	subs	x15, x14, x15
	b.ls	.Lpasetone_BB6_27
	cmp	x15, #2
	add	w12, w12, #2048
	mov	x14, x15
	b.lo	.Lpasetone_BB6_18
.Lpasetone_BB6_27:
	lsr	x15, x13, #6
	subs	x15, x14, x15
	b.ls	.Lpasetone_BB6_29
	cmp	x15, #2
	add	w12, w12, #1024
	mov	x14, x15
	b.lo	.Lpasetone_BB6_18
.Lpasetone_BB6_29:
	lsr	x15, x13, #7
	subs	x15, x14, x15
	b.ls	.Lpasetone_BB6_31
	cmp	x15, #2
	add	w12, w12, #512
	mov	x14, x15
	b.lo	.Lpasetone_BB6_18
.Lpasetone_BB6_31:
	lsr	x15, x13, #8
	subs	x15, x14, x15
	b.ls	.Lpasetone_BB6_33
	cmp	x15, #2
	add	w12, w12, #256
	mov	x14, x15
	b.lo	.Lpasetone_BB6_18
.Lpasetone_BB6_33:
	lsr	x15, x13, #9
	subs	x15, x14, x15
	b.ls	.Lpasetone_BB6_35
	cmp	x15, #2
	add	w12, w12, #128
	mov	x14, x15
	b.lo	.Lpasetone_BB6_18
.Lpasetone_BB6_35:
	lsr	x15, x13, #10
	subs	x15, x14, x15
	b.ls	.Lpasetone_BB6_37
	cmp	x15, #2
	add	w12, w12, #64
	mov	x14, x15
	b.lo	.Lpasetone_BB6_18
.Lpasetone_BB6_37:
	lsr	x15, x13, #11
	subs	x15, x14, x15
	b.ls	.Lpasetone_BB6_39
	cmp	x15, #2
	add	w12, w12, #32
	mov	x14, x15
	b.lo	.Lpasetone_BB6_18
.Lpasetone_BB6_39:
	lsr	x15, x13, #12
	subs	x15, x14, x15
	b.ls	.Lpasetone_BB6_41
	cmp	x15, #2
	add	w12, w12, #16
	mov	x14, x15
	b.lo	.Lpasetone_BB6_18
.Lpasetone_BB6_41:
	lsr	x15, x13, #13
	subs	x15, x14, x15
	b.ls	.Lpasetone_BB6_43
	cmp	x15, #2
	add	w12, w12, #8
	mov	x14, x15
	b.lo	.Lpasetone_BB6_18
.Lpasetone_BB6_43:
	lsr	x15, x13, #14
	subs	x15, x14, x15
	b.ls	.Lpasetone_BB6_45
	cmp	x15, #2
	add	w12, w12, #4
	mov	x14, x15
	b.lo	.Lpasetone_BB6_18
.Lpasetone_BB6_45:
	lsr	x15, x13, #15
	subs	x15, x14, x15
	b.ls	.Lpasetone_BB6_47
	add	w12, w12, #2
	mov	x14, x15
	b	.Lpasetone_BB6_18
.Lpasetone_BB6_47:
	lsr	x13, x13, #16
	subs	x13, x14, x13
	b.ls	.Lpasetone_BB6_18
	add	w12, w12, #1
	mov	x14, x13
	b	.Lpasetone_BB6_18
.Lpasetone_func_end6:
	.size	"pll::plan_pll", .Lpasetone_func_end6-"pll::plan_pll"
	.cfi_endproc

	.section	.rodata.cst16,"aM",@progbits,16
	.p2align	4, 0x0
.Lpasetone_CPI7_0:
	.xword	8589934601
	.xword	0
.Lpasetone_CPI7_1:
	.xword	4294967305
	.xword	0
	.section	".text.tuning::tune","ax",@progbits
	.p2align	2
	.type	"tuning::tune",@function
"tuning::tune":
	.cfi_startproc
	sub	sp, sp, #320
	.cfi_def_cfa_offset 320
	str	x30, [sp, #224]
	stp	x28, x27, [sp, #240]
	stp	x26, x25, [sp, #256]
	stp	x24, x23, [sp, #272]
	stp	x22, x21, [sp, #288]
	stp	x20, x19, [sp, #304]
	.cfi_offset w19, -8
	.cfi_offset w20, -16
	.cfi_offset w21, -24
	.cfi_offset w22, -32
	.cfi_offset w23, -40
	.cfi_offset w24, -48
	.cfi_offset w25, -56
	.cfi_offset w26, -64
	.cfi_offset w27, -72
	.cfi_offset w28, -80
	.cfi_offset w30, -96
	.cfi_remember_state
	ldurh	w8, [x1, #1]
	ldrb	w9, [x1, #3]
	mov	w11, #1
	ldur	w10, [x1, #6]
	ldp	x16, x13, [x1, #56]
	strh	w8, [sp, #236]
	movk	w11, #256, lsl #16
	ldrb	w8, [x1]
	strb	w9, [sp, #238]
	ldrb	w9, [x1, #4]
	ldrb	w19, [x1, #12]
	tst	x13, #0xff
	str	x8, [sp, #184]
	ldrh	w8, [x1, #10]
	str	x9, [sp, #160]
	ldrb	w9, [x1, #5]
	ldrb	w17, [x1, #13]
	strh	w8, [sp, #220]
	ldrb	w8, [x1, #14]
	ldrb	w25, [x1, #15]
	str	x9, [sp, #144]
	ldrb	w9, [x1, #26]
	ldrb	w24, [x1, #19]
	str	x8, [sp, #120]
	ldrb	w8, [x1, #16]
	ldrb	w20, [x1, #22]
	str	w10, [sp, #216]
	ldrb	w10, [x1, #31]
	ldrb	w15, [x1, #39]
	str	w8, [sp, #68]
	ldrb	w8, [x1, #17]
	ldrb	w12, [x1, #46]
	str	x9, [sp, #80]
	ldur	w9, [x1, #27]
	ldrb	w14, [x1, #49]
	str	w8, [sp, #24]
	ldrb	w8, [x1, #18]
	ldr	x21, [x1, #72]
	str	w9, [sp, #36]
	ldurh	w9, [x1, #37]
	ldrb	w22, [x1, #80]
	str	x8, [sp, #56]
	ldrh	w8, [x1, #20]
	ldrb	w7, [x1, #81]
	str	w10, [sp, #156]
	ldrb	w10, [x1, #32]
	ldrb	w18, [x1, #84]
	str	w8, [sp, #48]
	ldrb	w8, [x1, #23]
	ldrb	w6, [x2, #1]
	str	w10, [sp, #140]
	ldrb	w10, [x2]
	ldrb	w27, [x2, #8]
	str	x8, [sp, #176]
	ldrb	w8, [x1, #24]
	ldrb	w23, [x2, #24]
	strh	w9, [sp, #212]
	ldrb	w9, [x1, #85]
	ldrb	w28, [x2, #26]
	str	x8, [sp, #96]
	ldrb	w8, [x1, #25]
	ldr	x30, [x2, #32]
	ldrh	w26, [x2, #40]
	ldr	x2, [x2, #56]
	strb	wzr, [sp, #234]
	str	x8, [sp, #128]
	ldur	w8, [x1, #33]
	strh	wzr, [sp, #232]
	str	w8, [sp, #208]
	ldrb	w8, [x1, #40]
	str	wzr, [sp, #200]
	str	w8, [sp, #44]
	ldrb	w8, [x1, #41]
	strh	wzr, [sp, #204]
	str	x8, [sp, #112]
	ldrb	w8, [x1, #42]
	str	wzr, [sp, #192]
	str	w8, [sp, #40]
	ldrb	w8, [x1, #43]
	strh	wzr, [sp, #196]
	str	w8, [sp, #64]
	ldrb	w8, [x1, #44]
	str	w8, [sp, #20]
	ldrb	w8, [x1, #45]
	str	w8, [sp, #52]
	ldurh	w8, [x1, #47]
	str	w8, [sp, #32]
	ldrb	w8, [x1, #50]
	str	w8, [sp, #172]
	ldrb	w8, [x1, #51]
	str	w8, [sp, #92]
	ldrb	w8, [x1, #52]
	str	w8, [sp, #108]
	ldrb	w8, [x1, #53]
	str	w8, [sp, #76]
	ldrh	w8, [x1, #54]
	str	w8, [sp, #28]
	ldrh	w8, [x1, #82]
	ldrh	w1, [x1, #86]
	str	w8, [sp, #72]
	b.eq	.Lpasetone_BB7_4
	and	x8, x13, #0xffffffffffffff00
	tst	w13, #0xff
	b.eq	.Lpasetone_BB7_5
.Lpasetone_BB7_2:
	tbz	w22, #0, .Lpasetone_BB7_7
	ldrb	w8, [x3, x16]
	mov	w2, #1
	add	x10, x5, x16, lsl #4
	movk	w2, #256, lsl #16
	mov	w7, wzr
	mov	w9, wzr
	add	x11, x2, #256
	cmp	w8, #0
	mov	w1, wzr
	csel	x8, x2, x11, eq
	add	x16, x16, #1
	and	x4, x13, #0xff
	stp	x8, xzr, [x10]
	b	.Lpasetone_BB7_8
.Lpasetone_BB7_4:
	ldrb	w13, [x3, x16]
	add	x21, x5, x16, lsl #4
	add	x22, x11, #256
	mov	x8, xzr
	mov	w7, wzr
	mov	w9, wzr
	cmp	w13, #0
	mov	w1, wzr
	csel	x13, x11, x22, eq
	mov	w11, #1
	cset	w22, eq
	stp	x13, x11, [x21]
	cset	w13, ne
	csel	x21, xzr, x16, eq
	add	x16, x16, #1
	tst	w13, #0xff
	b.ne	.Lpasetone_BB7_2
.Lpasetone_BB7_5:
	mov	w8, #520
	mov	w11, #61568
	mov	w9, #8847360
	movk	w8, #88, lsl #16
	movk	w11, #762, lsl #16
	add	x1, x5, x16, lsl #4
	add	x12, x8, #1632, lsl #12
	orr	x9, x8, x9
	cmp	x2, x11
	mov	w11, #15296
	csel	x9, x9, x12, lo
	mov	w12, #34560
	movk	w11, #839, lsl #16
	add	x13, x8, #816, lsl #12
	movk	w12, #915, lsl #16
	cmp	x2, x11
	mov	w11, #2293760
	mov	w7, #2
	csel	x9, x9, x13, lo
	orr	x11, x8, x11
	cmp	x2, x12
	csel	x9, x9, x11, lo
	mov	w11, #53824
	add	x12, x8, #272, lsl #12
	movk	w11, #991, lsl #16
	mov	w13, #23
	movk	w7, #512, lsl #16
	cmp	x2, x11
	mov	w11, #7552
	movk	w11, #1068, lsl #16
	csel	x9, x9, x12, lo
	cmp	x2, x11
	mov	w11, #26816
	csel	x8, x9, x8, lo
	mov	w9, #512
	movk	w11, #1144, lsl #16
	movk	w9, #17, lsl #16
	cmp	x2, x11
	mov	w11, #19072
	add	x12, x9, #816, lsl #12
	movk	w11, #1373, lsl #16
	csel	x8, x8, x12, lo
	cmp	x2, x11
	mov	w11, #30592
	add	x12, x9, #560, lsl #12
	movk	w11, #1678, lsl #16
	csel	x8, x8, x12, lo
	cmp	x2, x11
	mov	w11, #15104
	add	x12, x9, #304, lsl #12
	movk	w11, #2136, lsl #16
	csel	x8, x8, x12, lo
	cmp	x2, x11
	mov	w11, #38144
	add	x12, x9, #48, lsl #12
	movk	w11, #2746, lsl #16
	csel	x8, x8, x12, lo
	cmp	x2, x11
	mov	w11, #45696
	orr	x12, x9, #0x20000
	movk	w11, #3814, lsl #16
	csel	x8, x8, x12, lo
	cmp	x2, x11
	mov	w11, #30208
	movk	w11, #4272, lsl #16
	csel	x8, x8, x9, lo
	mov	w9, #512
	cmp	x2, x11
	mov	w11, #11008
	mov	w12, #2
	csel	x8, x8, x9, lo
	mov	w9, #14720
	movk	w11, #8972, lsl #16
	movk	w9, #4730, lsl #16
	movk	w12, #512, lsl #16
	cmp	x2, x9
	mov	w9, #16640
	csel	x8, x8, x9, lo
	cmp	x2, x11
	mov	w9, #16384
	csel	x8, x8, x9, lo
	ldr	x9, [sp, #184]
	ldrb	w11, [x3, x16]
	add	x2, x16, #1
	bfi	x12, x9, #16, #8
	and	w9, w24, #0xffffffcf
	cmp	w11, #0
	orr	w24, w9, #0x20
	mov	w9, #256
	csel	x9, xzr, x9, eq
	orr	x13, x13, x24, lsl #8
	orr	x9, x9, x12
	stp	x9, x13, [x1]
	cbz	w11, .Lpasetone_BB7_9
	mov	w21, #1
	mov	w12, #1
	movk	w21, #256, lsl #16
	b	.Lpasetone_BB7_19
.Lpasetone_BB7_7:
	and	x10, x13, #0xff
	orr	x4, x8, x10
.Lpasetone_BB7_8:
	ldrh	w8, [sp, #236]
	ldrb	w10, [sp, #238]
	mov	w28, w18
	ldr	w11, [sp, #216]
	ldr	x6, [sp, #96]
	mov	x18, x20
	strh	w8, [sp, #232]
	ldrh	w8, [sp, #220]
	mov	x2, x16
	ldp	w26, w13, [sp, #44]
	ldp	w5, w27, [sp, #36]
	strb	w10, [sp, #234]
	ldr	w10, [sp, #208]
	ldr	x23, [sp, #144]
	strh	w8, [sp, #204]
	ldrh	w8, [sp, #212]
	ldr	x3, [sp, #176]
	str	w11, [sp, #200]
	ldr	x11, [sp, #160]
	ldr	x22, [sp, #128]
	ldr	w20, [sp, #72]
	str	w10, [sp, #192]
	strh	w8, [sp, #196]
	b	.Lpasetone_BB7_36
.Lpasetone_BB7_9:
	and	w9, w8, #0x8
	tst	w6, #0x1
	ldrb	w11, [x3, x2]
	and	w13, w24, #0xffffffe7
	csel	w9, wzr, w9, ne
	mov	w1, #23
	orr	w24, w9, w13
	mov	w9, #256
	cmp	w11, #0
	and	x13, x24, #0xff
	add	x6, x5, x2, lsl #4
	csel	x9, xzr, x9, eq
	orr	x13, x1, x13, lsl #8
	orr	x9, x9, x12
	mov	w21, #1
	movk	w21, #256, lsl #16
	stp	x9, x13, [x6]
	add	x9, x16, #2
	cbz	w11, .Lpasetone_BB7_11
	mov	w12, #1
	mov	x16, x2
	mov	x2, x9
	b	.Lpasetone_BB7_19
.Lpasetone_BB7_11:
	lsr	x11, x8, #8
	lsr	w13, w20, #2
	ldrb	w1, [x3, x9]
	add	x2, x5, x9, lsl #4
	mov	w6, w11
	cmp	w1, #0
	mov	w11, #256
	bfi	w6, w13, #2, #4
	mov	w13, #26
	csel	x11, xzr, x11, eq
	orr	x11, x11, x12
	bfi	x13, x6, #8, #8
	mov	x20, x6
	stp	x11, x13, [x2]
	add	x2, x16, #3
	cbz	w1, .Lpasetone_BB7_13
	mov	w12, wzr
	mov	w14, #1
	mov	x16, x9
	b	.Lpasetone_BB7_19
.Lpasetone_BB7_13:
	ldrb	w9, [x3, x2]
	lsr	x14, x8, #16
	mov	w8, #256
	mov	w11, #27
	add	x13, x5, x2, lsl #4
	cmp	w9, #0
	bfi	x11, x14, #8, #8
	str	x14, [sp, #176]
	csel	x8, xzr, x8, eq
	orr	x8, x8, x12
	stp	x8, x11, [x13]
	add	x8, x16, #4
	cbz	w9, .Lpasetone_BB7_16
	mov	w12, wzr
	mov	w14, wzr
	mov	w9, #1
	str	w9, [sp, #172]
.Lpasetone_BB7_15:
	mov	x16, x2
	mov	x2, x8
	b	.Lpasetone_BB7_19
.Lpasetone_BB7_16:
	ldrb	w9, [x3, x8]
	mov	w11, #11
	mov	x2, x19
	mov	w13, #16
	mov	w14, #256
	orr	w2, w2, w11
	cmp	w9, #0
	add	x1, x5, x8, lsl #4
	orr	x13, x13, x2, lsl #8
	csel	x11, xzr, x14, eq
	mov	x19, x2
	add	x2, x16, #5
	orr	x11, x11, x12
	stp	x11, x13, [x1]
	cbz	w9, .Lpasetone_BB7_47
	mov	w12, wzr
	mov	w14, wzr
	str	wzr, [sp, #172]
	mov	w15, #1
.Lpasetone_BB7_18:
	mov	x16, x8
.Lpasetone_BB7_19:
	mov	w28, w18
	tbz	w22, #0, .Lpasetone_BB7_21
	ldrb	w8, [x3, x2]
	add	x9, x5, x2, lsl #4
	add	x11, x21, #256
	add	x2, x16, #2
	cmp	w8, #0
	csel	x8, x21, x11, eq
	stp	x8, xzr, [x9]
.Lpasetone_BB7_21:
	mov	x18, x20
	ldr	w20, [sp, #72]
	cmp	w27, #1
	b.ne	.Lpasetone_BB7_32
	mov	w9, wzr
	lsl	w30, w23, #5
	mov	w22, wzr
.Lpasetone_BB7_23:
	ldrb	w8, [x4, #4]
	adrp	x27, .Lpasetone_static.0
	add	x27, x27, :lo12:.Lpasetone_static.0
	cmp	w10, #0
	mov	w10, #1
	ldrb	w8, [x27, x8]
	cinc	w10, w10, eq
	ubfx	w8, w8, #4, #2
	cmp	w10, w8
	b.hs	.Lpasetone_BB7_27
	cmp	w23, #0
	mov	w13, #1
	cset	w8, ne
	sub	w8, w23, w8
	lsl	w8, w8, #5
	cbnz	w9, .Lpasetone_BB7_28
.Lpasetone_BB7_25:
	tbz	w22, #0, .Lpasetone_BB7_32
	ldrb	w8, [x3, x2]
	add	x9, x5, x2, lsl #4
	add	x10, x21, #256
	add	x2, x2, #1
	b	.Lpasetone_BB7_31
.Lpasetone_BB7_27:
	cmp	w8, w10
	add	w8, w30, #32
	cset	w13, lo
	csel	w8, w8, wzr, lo
	cbz	w9, .Lpasetone_BB7_25
.Lpasetone_BB7_28:
	adrp	x10, .Lpasetone_CPI7_0
	ldrb	w9, [x4, #4]
	ldr	w1, [x4]
	ldr	q0, [x10, :lo12:.Lpasetone_CPI7_0]
	add	x16, x2, #1
	ldr	x10, [sp, #184]
	str	q0, [x5, x2, lsl #4]
	add	x6, x5, x16, lsl #4
	ldrb	w11, [x3, x16]
	lsl	x23, x10, #16
	mov	w10, #256
	cmp	w11, #0
	csel	x10, xzr, x10, eq
	orr	x10, x23, x10
	add	x10, x21, x10
	add	x10, x10, #1
	stp	x10, xzr, [x6]
	add	x10, x2, #2
	cbz	w11, .Lpasetone_BB7_37
	tbz	w22, #0, .Lpasetone_BB7_40
	ldrb	w8, [x3, x10]
	add	x9, x5, x10, lsl #4
	add	x10, x21, #256
	add	x2, x2, #3
.Lpasetone_BB7_31:
	cmp	w8, #0
	csel	x8, x21, x10, eq
	stp	x8, xzr, [x9]
.Lpasetone_BB7_32:
	mov	w4, #1
.Lpasetone_BB7_33:
	ldp	w26, w13, [sp, #44]
	ldr	x6, [sp, #96]
	ldr	x23, [sp, #144]
	ldr	w27, [sp, #40]
.Lpasetone_BB7_34:
	ldr	x11, [sp, #160]
	ldr	x3, [sp, #176]
	ldr	w5, [sp, #36]
.Lpasetone_BB7_35:
	ldr	x22, [sp, #128]
	ldrh	w8, [sp, #236]
	ldrb	w10, [sp, #238]
	mov	w7, wzr
	mov	w9, wzr
	mov	w1, wzr
	mov	x21, x16
	strh	w8, [sp, #232]
	ldr	w8, [sp, #216]
	strb	w10, [sp, #234]
	ldrh	w10, [sp, #220]
	str	w8, [sp, #200]
	ldr	w8, [sp, #208]
	strh	w10, [sp, #204]
	ldrh	w10, [sp, #212]
	str	w8, [sp, #192]
	strh	w10, [sp, #196]
.Lpasetone_BB7_36:
	ldr	x8, [sp, #184]
	ldrb	w10, [sp, #234]
	strb	w23, [x0, #5]
	strb	w19, [x0, #12]
	ldr	x30, [sp, #224]
	strb	w8, [x0]
	ldrh	w8, [sp, #232]
	strb	w10, [x0, #3]
	ldrh	w10, [sp, #204]
	sturh	w8, [x0, #1]
	ldr	w8, [sp, #200]
	strh	w10, [x0, #10]
	ldr	w10, [sp, #140]
	stur	w8, [x0, #6]
	ldr	x8, [sp, #120]
	strb	w25, [x0, #15]
	strb	w8, [x0, #14]
	ldr	w8, [sp, #68]
	strb	w24, [x0, #19]
	ldp	x24, x23, [sp, #272]
	strb	w8, [x0, #16]
	ldr	w8, [sp, #24]
	strb	w22, [x0, #25]
	strb	w8, [x0, #17]
	ldr	x8, [sp, #56]
	strb	w10, [x0, #32]
	ldrh	w10, [sp, #196]
	strb	w8, [x0, #18]
	ldr	x8, [sp, #80]
	strb	w26, [x0, #40]
	ldp	x26, x25, [sp, #256]
	strb	w8, [x0, #26]
	ldr	w8, [sp, #156]
	strb	w27, [x0, #42]
	strb	w8, [x0, #31]
	ldr	w8, [sp, #192]
	str	x21, [x0, #72]
	ldp	x22, x21, [sp, #288]
	stur	w8, [x0, #33]
	ldr	x8, [sp, #112]
	strh	w20, [x0, #82]
	ldp	x20, x19, [sp, #304]
	strb	w8, [x0, #41]
	ldr	w8, [sp, #64]
	strb	w28, [x0, #84]
	ldp	x28, x27, [sp, #240]
	strb	w8, [x0, #43]
	ldr	w8, [sp, #20]
	strb	w11, [x0, #4]
	strb	w8, [x0, #44]
	ldr	w8, [sp, #52]
	strb	w17, [x0, #13]
	strb	w8, [x0, #45]
	ldr	w8, [sp, #32]
	strh	w13, [x0, #20]
	sturh	w8, [x0, #47]
	ldr	w8, [sp, #172]
	strb	w18, [x0, #22]
	strb	w8, [x0, #50]
	ldr	w8, [sp, #92]
	strb	w3, [x0, #23]
	strb	w8, [x0, #51]
	ldr	w8, [sp, #108]
	strb	w6, [x0, #24]
	strb	w8, [x0, #52]
	ldr	w8, [sp, #76]
	stur	w5, [x0, #27]
	strb	w8, [x0, #53]
	ldr	w8, [sp, #28]
	sturh	w10, [x0, #37]
	strb	w15, [x0, #39]
	strb	w12, [x0, #46]
	strb	w14, [x0, #49]
	strh	w8, [x0, #54]
	stp	x2, x4, [x0, #56]
	strb	wzr, [x0, #80]
	strb	w7, [x0, #81]
	strb	w9, [x0, #85]
	strh	w1, [x0, #86]
	add	sp, sp, #320
	.cfi_def_cfa_offset 0
	.cfi_restore w19
	.cfi_restore w20
	.cfi_restore w21
	.cfi_restore w22
	.cfi_restore w23
	.cfi_restore w24
	.cfi_restore w25
	.cfi_restore w26
	.cfi_restore w27
	.cfi_restore w28
	.cfi_restore w30
	ret
.Lpasetone_BB7_37:
	.cfi_restore_state
	ldrb	w11, [x3, x10]
	orr	x9, x1, x9, lsl #32
	mov	w1, #3
	mov	w16, #256
	movk	w1, #1280, lsl #16
	add	x6, x5, x10, lsl #4
	cmp	w11, #0
	orr	x1, x23, x1
	csel	x16, xzr, x16, eq
	csel	x9, x9, xzr, eq
	orr	x16, x1, x16
	stp	x16, x9, [x6]
	add	x9, x2, #3
	cbz	w11, .Lpasetone_BB7_41
	tbz	w22, #0, .Lpasetone_BB7_45
	ldrb	w8, [x3, x9]
	add	x9, x5, x9, lsl #4
	add	x11, x21, #256
	add	x2, x2, #4
	b	.Lpasetone_BB7_53
.Lpasetone_BB7_40:
	mov	w4, #1
	mov	x2, x10
	b	.Lpasetone_BB7_33
.Lpasetone_BB7_41:
	cbz	w13, .Lpasetone_BB7_46
	ldrb	w11, [x3, x9]
	and	w10, w19, #0x1f
	mov	w13, #16
	mov	w1, #256
	orr	w19, w8, w10
	add	x16, x5, x9, lsl #4
	cmp	w11, #0
	orr	x6, x23, x7
	bfi	x13, x19, #8, #8
	csel	x10, xzr, x1, eq
	orr	x10, x6, x10
	stp	x10, x13, [x16]
	add	x10, x2, #4
	cbz	w11, .Lpasetone_BB7_49
	tbz	w22, #0, .Lpasetone_BB7_59
	ldrb	w8, [x3, x10]
	add	x10, x5, x10, lsl #4
	add	x11, x21, #256
	mov	w4, #1
	add	x2, x2, #5
	mov	x16, x9
	cmp	w8, #0
	mov	w15, w4
	csel	x8, x21, x11, eq
	stp	x8, xzr, [x10]
	b	.Lpasetone_BB7_33
.Lpasetone_BB7_45:
	mov	w4, #1
	mov	x16, x10
	mov	x2, x9
	b	.Lpasetone_BB7_33
.Lpasetone_BB7_46:
	mov	x10, x9
	b	.Lpasetone_BB7_50
.Lpasetone_BB7_47:
	ldr	x1, [sp, #160]
	ldrb	w9, [x3, x2]
	mov	w11, #256
	mov	w13, #8
	add	x14, x5, x2, lsl #4
	lsr	x8, x1, #6
	cmp	w9, #0
	and	w1, w1, #0xc0
	csel	x11, xzr, x11, eq
	str	x1, [sp, #160]
	bfi	x13, x8, #14, #2
	orr	x8, x11, x12
	stp	x8, x13, [x14]
	add	x8, x16, #6
	cbz	w9, .Lpasetone_BB7_65
	mov	w9, #1
	mov	w15, wzr
	mov	w12, wzr
	mov	w14, wzr
	str	wzr, [sp, #172]
	str	w9, [sp, #156]
	b	.Lpasetone_BB7_15
.Lpasetone_BB7_49:
	mov	w15, wzr
.Lpasetone_BB7_50:
	ldrb	w11, [x3, x10]
	mov	w8, #256
	ldrb	w9, [x4, #7]
	add	x16, x5, x10, lsl #4
	ldurh	w13, [x4, #5]
	add	x2, x10, #1
	cmp	w11, #0
	csel	x8, xzr, x8, eq
	orr	x8, x23, x8
	add	x8, x21, x8
	add	x1, x8, #1
	ldrb	w8, [x27, x9]
	stp	x1, xzr, [x16]
	cbz	w11, .Lpasetone_BB7_55
	tbz	w22, #0, .Lpasetone_BB7_54
	ldrb	w8, [x3, x2]
	add	x9, x5, x2, lsl #4
	add	x11, x21, #256
	add	x2, x10, #2
.Lpasetone_BB7_53:
	cmp	w8, #0
	csel	x8, x21, x11, eq
	stp	x8, xzr, [x9]
.Lpasetone_BB7_54:
	mov	w4, #1
	mov	x16, x10
	b	.Lpasetone_BB7_33
.Lpasetone_BB7_55:
	ldrb	w11, [x3, x2]
	mov	w26, #3
	orr	x9, x13, x9, lsl #16
	movk	w26, #768, lsl #16
	mov	w13, #256
	add	x16, x5, x2, lsl #4
	cmp	w11, #0
	orr	x1, x23, x26
	csel	x13, xzr, x13, eq
	orr	x13, x1, x13
	csel	x1, x9, xzr, eq
	stp	x13, x1, [x16]
	cbz	w11, .Lpasetone_BB7_60
	add	x8, x10, #2
	tbz	w22, #0, .Lpasetone_BB7_64
	ldp	w26, w13, [sp, #44]
	ldr	x6, [sp, #96]
	ldr	x23, [sp, #144]
	ldr	w27, [sp, #40]
.Lpasetone_BB7_58:
	ldrb	w9, [x3, x8]
	add	x8, x5, x8, lsl #4
	add	x11, x21, #256
	mov	x16, x2
	add	x2, x10, #3
	mov	w4, #1
	cmp	w9, #0
	csel	x9, x21, x11, eq
	stp	x9, xzr, [x8]
	b	.Lpasetone_BB7_34
.Lpasetone_BB7_59:
	mov	w15, #1
	mov	x16, x9
	mov	x2, x10
	b	.Lpasetone_BB7_32
.Lpasetone_BB7_60:
	lsr	x9, x9, #16
	add	w30, w20, #1
	add	x16, x10, #2
	ldrb	w9, [x27, x9]
	orr	w9, w28, w9, lsr #6
	and	w28, w9, #0x1
	tbnz	w8, #6, .Lpasetone_BB7_119
	ldrb	w8, [x3, x16]
	mov	w9, #256
	add	x11, x5, x16, lsl #4
	orr	x13, x23, x7
	add	x2, x10, #3
	cmp	w8, #0
	csel	x9, xzr, x9, eq
	orr	x9, x13, x9
	mov	w13, #1554
	stp	x9, x13, [x11]
	cbz	w8, .Lpasetone_BB7_69
	tbz	w22, #0, .Lpasetone_BB7_72
	ldrb	w8, [x3, x2]
	add	x9, x5, x2, lsl #4
	add	x11, x21, #256
	mov	w4, #1
	add	x2, x10, #4
	mov	w20, w30
	cmp	w8, #0
	csel	x8, x21, x11, eq
	stp	x8, xzr, [x9]
	mov	w8, #6
	str	x8, [sp, #120]
	mov	w8, w4
	str	x8, [sp, #112]
	b	.Lpasetone_BB7_33
.Lpasetone_BB7_64:
	mov	w4, #1
	mov	x16, x2
	mov	x2, x8
	b	.Lpasetone_BB7_33
.Lpasetone_BB7_65:
	ldr	x2, [sp, #144]
	ldrb	w9, [x3, x8]
	mov	w13, #256
	mov	w14, #9
	add	x1, x5, x8, lsl #4
	lsr	x11, x2, #6
	cmp	w9, #0
	and	w2, w2, #0xc0
	csel	x13, xzr, x13, eq
	str	x2, [sp, #144]
	add	x2, x16, #7
	bfi	x14, x11, #14, #2
	orr	x11, x13, x12
	stp	x11, x14, [x1]
	cbz	w9, .Lpasetone_BB7_67
	mov	w9, #1
	str	wzr, [sp, #156]
	mov	w15, wzr
	mov	w12, wzr
	mov	w14, wzr
	str	wzr, [sp, #172]
	str	w9, [sp, #140]
	b	.Lpasetone_BB7_18
.Lpasetone_BB7_67:
	ldr	x8, [sp, #128]
	ldrb	w9, [x3, x2]
	mov	w11, #29
	mov	w13, #256
	add	x14, x5, x2, lsl #4
	and	w8, w8, #0xffffffdf
	cmp	w9, #0
	orr	w1, w8, #0x18
	csel	x8, xzr, x13, eq
	orr	x11, x11, x1, lsl #8
	orr	x8, x8, x12
	str	x1, [sp, #128]
	stp	x8, x11, [x14]
	add	x8, x16, #8
	cbz	w9, .Lpasetone_BB7_73
	mov	w9, #1
	str	wzr, [sp, #156]
	mov	w15, wzr
	str	wzr, [sp, #140]
	mov	w12, wzr
	mov	w14, wzr
	str	wzr, [sp, #172]
	str	w9, [sp, #108]
	b	.Lpasetone_BB7_15
.Lpasetone_BB7_69:
	adrp	x8, .Lpasetone_CPI7_1
	add	x16, x10, #4
	mov	x7, x15
	ldr	q0, [x8, :lo12:.Lpasetone_CPI7_1]
	add	x8, x21, x23
	mov	w9, #256
	str	q0, [x5, x2, lsl #4]
	add	x15, x8, #1
	add	x2, x5, x16, lsl #4
	ldrb	w11, [x3, x16]
	ldrb	w1, [x4, #10]
	ldrh	w13, [x4, #8]
	cmp	w11, #0
	ubfx	x8, x1, #0, #48
	csel	x9, xzr, x9, eq
	orr	x9, x9, x15
	ldrb	w8, [x27, x8]
	stp	x9, xzr, [x2]
	add	x9, x10, #5
	cbz	w11, .Lpasetone_BB7_75
	ldp	w26, w13, [sp, #44]
	ldr	x6, [sp, #96]
	ldr	x23, [sp, #144]
	mov	w20, w30
	ldr	w27, [sp, #40]
	mov	x2, x9
	mov	x15, x7
	tbz	w22, #0, .Lpasetone_BB7_83
.Lpasetone_BB7_71:
	ldrb	w8, [x3, x2]
	add	x9, x5, x2, lsl #4
	add	x10, x21, #256
	str	xzr, [sp, #112]
	add	x2, x16, #2
	cmp	w8, #0
	csel	x8, x21, x10, eq
	stp	x8, xzr, [x9]
	b	.Lpasetone_BB7_84
.Lpasetone_BB7_72:
	mov	w8, #6
	mov	w20, w30
	str	x8, [sp, #120]
	mov	w8, #1
	str	x8, [sp, #112]
	b	.Lpasetone_BB7_32
.Lpasetone_BB7_73:
	ldrb	w9, [x3, x8]
	ldr	x1, [sp, #96]
	mov	w11, #256
	mov	w13, #28
	add	x14, x5, x8, lsl #4
	add	x2, x16, #9
	orr	w1, w1, #0x4
	cmp	w9, #0
	csel	x11, xzr, x11, eq
	orr	x13, x13, x1, lsl #8
	str	x1, [sp, #96]
	orr	x11, x11, x12
	stp	x11, x13, [x14]
	cbz	w9, .Lpasetone_BB7_78
	mov	w9, #1
	str	wzr, [sp, #156]
	mov	w15, wzr
	str	wzr, [sp, #140]
	mov	w12, wzr
	mov	w14, wzr
	str	wzr, [sp, #172]
	mov	x16, x8
	str	wzr, [sp, #108]
	str	w9, [sp, #92]
	b	.Lpasetone_BB7_19
.Lpasetone_BB7_75:
	ldrb	w11, [x3, x9]
	bfi	x13, x1, #16, #8
	mov	w1, #256
	add	x2, x5, x9, lsl #4
	orr	x6, x23, x26
	cmp	w11, #0
	csel	x1, xzr, x1, eq
	orr	x1, x6, x1
	csel	x6, x13, xzr, eq
	stp	x1, x6, [x2]
	cbz	w11, .Lpasetone_BB7_80
.Lpasetone_BB7_76:
	add	x2, x16, #2
	mov	w8, #6
	stp	xzr, x8, [sp, #112]
	tbz	w22, #0, .Lpasetone_BB7_85
	ldp	w26, w13, [sp, #44]
	ldr	x6, [sp, #96]
	ldr	x23, [sp, #144]
	mov	w21, #1
	ldr	w27, [sp, #40]
	add	x8, x16, #2
	mov	x2, x9
	mov	x10, x16
	mov	w20, w30
	mov	x15, x7
	movk	w21, #256, lsl #16
	b	.Lpasetone_BB7_58
.Lpasetone_BB7_78:
	ldr	x8, [sp, #80]
	ldrb	w9, [x3, x2]
	mov	w11, #256
	and	w8, w8, #0xe0
	cmp	w9, #0
	orr	w13, w8, #0xe
	add	x8, x5, x2, lsl #4
	csel	x11, xzr, x11, eq
	str	x13, [sp, #80]
	ubfiz	x13, x13, #8, #32
	orr	x11, x11, x12
	orr	x13, x13, #0x1e
	stp	x11, x13, [x8]
	add	x8, x16, #10
	cbz	w9, .Lpasetone_BB7_87
	mov	w9, #1
	str	wzr, [sp, #156]
	mov	w15, wzr
	str	wzr, [sp, #140]
	mov	w12, wzr
	mov	w14, wzr
	str	wzr, [sp, #172]
	mov	x16, x2
	mov	x2, x8
	str	wzr, [sp, #92]
	str	wzr, [sp, #108]
	str	w9, [sp, #76]
	b	.Lpasetone_BB7_89
.Lpasetone_BB7_80:
	lsr	x9, x13, #16
	add	w30, w20, #2
	add	x16, x10, #6
	ldrb	w9, [x27, x9]
	and	w9, w9, #0x40
	orr	w28, w28, w9, lsr #6
	tbnz	w8, #6, .Lpasetone_BB7_118
	str	q0, [x5, x16, lsl #4]
	add	x16, x10, #7
	mov	w8, #256
	ldrb	w11, [x3, x16]
	ldrb	w1, [x4, #13]
	add	x9, x5, x16, lsl #4
	ldurh	w13, [x4, #11]
	cmp	w11, #0
	ubfx	x2, x1, #0, #48
	csel	x8, xzr, x8, eq
	orr	x6, x8, x15
	ldrb	w8, [x27, x2]
	stp	x6, xzr, [x9]
	add	x9, x10, #8
	cbz	w11, .Lpasetone_BB7_93
.Lpasetone_BB7_82:
	ldp	w26, w13, [sp, #44]
	ldr	x6, [sp, #96]
	ldr	x23, [sp, #144]
	mov	w21, #1
	ldr	w27, [sp, #40]
	mov	w20, w30
	mov	x2, x9
	mov	x15, x7
	movk	w21, #256, lsl #16
	tbnz	w22, #0, .Lpasetone_BB7_71
.Lpasetone_BB7_83:
	str	xzr, [sp, #112]
.Lpasetone_BB7_84:
	mov	w8, #6
	mov	w4, #1
	str	x8, [sp, #120]
	b	.Lpasetone_BB7_34
.Lpasetone_BB7_85:
	mov	w4, #1
	mov	w20, w30
	mov	x16, x9
.Lpasetone_BB7_86:
	ldp	w26, w13, [sp, #44]
	ldp	w5, w27, [sp, #36]
	ldr	x6, [sp, #96]
	ldr	x23, [sp, #144]
	mov	x15, x7
	ldr	x11, [sp, #160]
	ldr	x3, [sp, #176]
	b	.Lpasetone_BB7_35
.Lpasetone_BB7_87:
	ldrb	w9, [x3, x8]
	and	w11, w20, #0xffffffcf
	mov	w13, #26
	orr	w20, w11, #0x20
	mov	w14, #256
	add	x11, x5, x8, lsl #4
	cmp	w9, #0
	and	x1, x20, #0xff
	add	x2, x16, #11
	csel	x14, xzr, x14, eq
	orr	x13, x13, x1, lsl #8
	orr	x14, x14, x12
	stp	x14, x13, [x11]
	cbz	w9, .Lpasetone_BB7_90
	mov	w15, wzr
	mov	w12, wzr
	mov	w14, #1
	mov	x16, x8
	str	wzr, [sp, #156]
	str	wzr, [sp, #140]
	str	wzr, [sp, #172]
	str	wzr, [sp, #92]
	str	wzr, [sp, #108]
	str	wzr, [sp, #76]
.Lpasetone_BB7_89:
	mov	w21, #1
	mov	w7, #2
	movk	w21, #256, lsl #16
	movk	w7, #512, lsl #16
	b	.Lpasetone_BB7_19
.Lpasetone_BB7_90:
	cmp	w27, #1
	b.ne	.Lpasetone_BB7_125
	ldrb	w11, [x3, x2]
	and	w19, w19, #0x1f
	cmp	x30, #0
	mov	w8, #8
	bfi	w19, w23, #5, #8
	mov	w13, #256
	csel	w8, w8, wzr, eq
	cmp	w11, #0
	mov	w14, #16
	add	x1, x5, x2, lsl #4
	csel	x13, x13, xzr, ne
	bfi	x14, x19, #8, #8
	lsl	w30, w23, #5
	orr	x13, x13, x12
	cset	w15, ne
	add	x9, x16, #12
	stp	x13, x14, [x1]
	cbz	w11, .Lpasetone_BB7_127
	mov	x16, x2
	mov	x1, x9
	b	.Lpasetone_BB7_135
.Lpasetone_BB7_93:
	ldrb	w11, [x3, x9]
	bfi	x13, x1, #16, #8
	mov	w1, #256
	add	x2, x5, x9, lsl #4
	orr	x6, x23, x26
	cmp	w11, #0
	csel	x1, xzr, x1, eq
	orr	x1, x6, x1
	csel	x6, x13, xzr, eq
	stp	x1, x6, [x2]
	ldr	w1, [sp, #72]
	cbnz	w11, .Lpasetone_BB7_76
	lsr	x9, x13, #16
	add	w30, w1, #3
	add	x16, x10, #9
	ldrb	w9, [x27, x9]
	and	w9, w9, #0x40
	orr	w28, w28, w9, lsr #6
	tbnz	w8, #6, .Lpasetone_BB7_118
	str	q0, [x5, x16, lsl #4]
	add	x16, x10, #10
	mov	w8, #256
	ldrb	w11, [x3, x16]
	ldrb	w1, [x4, #16]
	add	x9, x5, x16, lsl #4
	ldrh	w13, [x4, #14]
	cmp	w11, #0
	ubfx	x2, x1, #0, #48
	csel	x8, xzr, x8, eq
	orr	x6, x8, x15
	ldrb	w8, [x27, x2]
	stp	x6, xzr, [x9]
	add	x9, x10, #11
	cbnz	w11, .Lpasetone_BB7_82
	ldrb	w11, [x3, x9]
	bfi	x13, x1, #16, #8
	mov	w1, #256
	add	x2, x5, x9, lsl #4
	orr	x6, x23, x26
	cmp	w11, #0
	csel	x1, xzr, x1, eq
	orr	x1, x6, x1
	csel	x6, x13, xzr, eq
	stp	x1, x6, [x2]
	ldr	w1, [sp, #72]
	cbnz	w11, .Lpasetone_BB7_76
	lsr	x9, x13, #16
	add	w30, w1, #4
	add	x16, x10, #12
	ldrb	w9, [x27, x9]
	and	w9, w9, #0x40
	orr	w28, w28, w9, lsr #6
	tbnz	w8, #6, .Lpasetone_BB7_118
	str	q0, [x5, x16, lsl #4]
	add	x16, x10, #13
	mov	w8, #256
	ldrb	w11, [x3, x16]
	ldrb	w1, [x4, #19]
	add	x9, x5, x16, lsl #4
	ldurh	w13, [x4, #17]
	cmp	w11, #0
	ubfx	x2, x1, #0, #48
	csel	x8, xzr, x8, eq
	orr	x6, x8, x15
	ldrb	w8, [x27, x2]
	stp	x6, xzr, [x9]
	add	x9, x10, #14
	cbnz	w11, .Lpasetone_BB7_82
	ldrb	w11, [x3, x9]
	bfi	x13, x1, #16, #8
	mov	w1, #256
	add	x2, x5, x9, lsl #4
	orr	x6, x23, x26
	cmp	w11, #0
	csel	x1, xzr, x1, eq
	orr	x1, x6, x1
	csel	x6, x13, xzr, eq
	stp	x1, x6, [x2]
	ldr	w1, [sp, #72]
	cbnz	w11, .Lpasetone_BB7_76
	lsr	x9, x13, #16
	add	w30, w1, #5
	add	x16, x10, #15
	ldrb	w9, [x27, x9]
	and	w9, w9, #0x40
	orr	w28, w28, w9, lsr #6
	tbnz	w8, #6, .Lpasetone_BB7_118
	str	q0, [x5, x16, lsl #4]
	add	x16, x10, #16
	mov	w8, #256
	ldrb	w11, [x3, x16]
	ldrb	w1, [x4, #22]
	add	x9, x5, x16, lsl #4
	ldrh	w13, [x4, #20]
	cmp	w11, #0
	ubfx	x2, x1, #0, #48
	csel	x8, xzr, x8, eq
	orr	x6, x8, x15
	ldrb	w8, [x27, x2]
	stp	x6, xzr, [x9]
	add	x9, x10, #17
	cbnz	w11, .Lpasetone_BB7_82
	ldrb	w11, [x3, x9]
	bfi	x13, x1, #16, #8
	mov	w1, #256
	add	x2, x5, x9, lsl #4
	orr	x6, x23, x26
	cmp	w11, #0
	csel	x1, xzr, x1, eq
	orr	x1, x6, x1
	csel	x6, x13, xzr, eq
	stp	x1, x6, [x2]
	ldr	w1, [sp, #72]
	cbnz	w11, .Lpasetone_BB7_76
	lsr	x9, x13, #16
	add	w30, w1, #6
	add	x16, x10, #18
	ldrb	w9, [x27, x9]
	and	w9, w9, #0x40
	orr	w28, w28, w9, lsr #6
	tbnz	w8, #6, .Lpasetone_BB7_118
	str	q0, [x5, x16, lsl #4]
	add	x16, x10, #19
	mov	w8, #256
	ldrb	w11, [x3, x16]
	ldrb	w1, [x4, #25]
	add	x9, x5, x16, lsl #4
	ldurh	w13, [x4, #23]
	cmp	w11, #0
	ubfx	x2, x1, #0, #48
	csel	x8, xzr, x8, eq
	orr	x6, x8, x15
	ldrb	w8, [x27, x2]
	stp	x6, xzr, [x9]
	add	x9, x10, #20
	cbnz	w11, .Lpasetone_BB7_82
	ldrb	w11, [x3, x9]
	bfi	x13, x1, #16, #8
	mov	w1, #256
	add	x2, x5, x9, lsl #4
	orr	x6, x23, x26
	cmp	w11, #0
	csel	x1, xzr, x1, eq
	orr	x1, x6, x1
	csel	x6, x13, xzr, eq
	stp	x1, x6, [x2]
	ldr	w1, [sp, #72]
	cbnz	w11, .Lpasetone_BB7_76
	lsr	x9, x13, #16
	add	w30, w1, #7
	add	x16, x10, #21
	ldrb	w9, [x27, x9]
	and	w9, w9, #0x40
	orr	w28, w28, w9, lsr #6
	tbnz	w8, #6, .Lpasetone_BB7_118
	str	q0, [x5, x16, lsl #4]
	add	x16, x10, #22
	mov	w8, #256
	ldrb	w11, [x3, x16]
	ldrb	w1, [x4, #28]
	add	x9, x5, x16, lsl #4
	ldrh	w13, [x4, #26]
	cmp	w11, #0
	ubfx	x2, x1, #0, #48
	csel	x8, xzr, x8, eq
	orr	x6, x8, x15
	ldrb	w8, [x27, x2]
	stp	x6, xzr, [x9]
	add	x9, x10, #23
	cbnz	w11, .Lpasetone_BB7_82
	ldrb	w11, [x3, x9]
	bfi	x13, x1, #16, #8
	mov	w1, #256
	add	x2, x5, x9, lsl #4
	orr	x6, x23, x26
	cmp	w11, #0
	csel	x1, xzr, x1, eq
	orr	x1, x6, x1
	csel	x6, x13, xzr, eq
	stp	x1, x6, [x2]
	ldr	w1, [sp, #72]
	cbnz	w11, .Lpasetone_BB7_76
	lsr	x9, x13, #16
	add	w30, w1, #8
	add	x16, x10, #24
	ldrb	w9, [x27, x9]
	and	w9, w9, #0x40
	orr	w28, w28, w9, lsr #6
	tbnz	w8, #6, .Lpasetone_BB7_118
	str	q0, [x5, x16, lsl #4]
	add	x16, x10, #25
	mov	w8, #256
	ldrb	w11, [x3, x16]
	ldrb	w1, [x4, #31]
	add	x9, x5, x16, lsl #4
	ldurh	w13, [x4, #29]
	cmp	w11, #0
	ubfx	x2, x1, #0, #48
	csel	x8, xzr, x8, eq
	orr	x6, x8, x15
	ldrb	w8, [x27, x2]
	stp	x6, xzr, [x9]
	add	x9, x10, #26
	cbnz	w11, .Lpasetone_BB7_82
	ldrb	w11, [x3, x9]
	bfi	x13, x1, #16, #8
	mov	w1, #256
	add	x2, x5, x9, lsl #4
	orr	x6, x23, x26
	cmp	w11, #0
	csel	x1, xzr, x1, eq
	orr	x1, x6, x1
	csel	x6, x13, xzr, eq
	stp	x1, x6, [x2]
	ldr	w1, [sp, #72]
	cbnz	w11, .Lpasetone_BB7_76
	lsr	x9, x13, #16
	add	w30, w1, #9
	add	x16, x10, #27
	ldrb	w9, [x27, x9]
	and	w9, w9, #0x40
	orr	w28, w28, w9, lsr #6
	tbnz	w8, #6, .Lpasetone_BB7_118
	str	q0, [x5, x16, lsl #4]
	add	x16, x10, #28
	mov	w8, #256
	ldrb	w11, [x3, x16]
	ldrb	w1, [x4, #34]
	add	x9, x5, x16, lsl #4
	ldrh	w13, [x4, #32]
	cmp	w11, #0
	ubfx	x2, x1, #0, #48
	csel	x8, xzr, x8, eq
	orr	x15, x8, x15
	ldrb	w8, [x27, x2]
	stp	x15, xzr, [x9]
	add	x9, x10, #29
	cbnz	w11, .Lpasetone_BB7_82
	ldrb	w11, [x3, x9]
	bfi	x13, x1, #16, #8
	mov	w15, #256
	add	x1, x5, x9, lsl #4
	orr	x2, x23, x26
	cmp	w11, #0
	csel	x15, xzr, x15, eq
	orr	x15, x2, x15
	csel	x2, x13, xzr, eq
	stp	x15, x2, [x1]
	ldr	w15, [sp, #72]
	cbnz	w11, .Lpasetone_BB7_76
	lsr	x9, x13, #16
	add	w30, w15, #10
	add	x16, x10, #30
	ldrb	w9, [x27, x9]
	and	w9, w9, #0x40
	orr	w28, w28, w9, lsr #6
	tbnz	w8, #6, .Lpasetone_BB7_118
	add	x2, x10, #31
	mov	w8, #6
	str	q0, [x5, x16, lsl #4]
	stp	xzr, x8, [sp, #112]
	tbz	w22, #0, .Lpasetone_BB7_141
	ldp	w26, w13, [sp, #44]
	ldr	x6, [sp, #96]
	ldr	x23, [sp, #144]
	mov	w21, #1
	ldr	w27, [sp, #40]
	mov	w20, w30
	mov	x15, x7
	movk	w21, #256, lsl #16
	b	.Lpasetone_BB7_123
.Lpasetone_BB7_118:
	mov	x15, x7
	mov	w21, #1
	mov	w7, #2
	mov	w8, #6
	movk	w21, #256, lsl #16
	movk	w7, #512, lsl #16
	stp	xzr, x8, [sp, #112]
.Lpasetone_BB7_119:
	ldrb	w8, [x3, x16]
	mov	w10, #256
	orr	x13, x23, x7
	orr	w1, w18, #0x8
	mov	w9, #26
	add	x11, x5, x16, lsl #4
	cmp	w8, #0
	bfi	x9, x1, #8, #8
	ldr	x6, [sp, #96]
	csel	x10, xzr, x10, eq
	ldr	x23, [sp, #144]
	ldr	w27, [sp, #40]
	orr	x10, x13, x10
	mov	w18, w1
	add	x2, x16, #1
	ldp	w26, w13, [sp, #44]
	stp	x10, x9, [x11]
	cbz	w8, .Lpasetone_BB7_122
	tbz	w22, #0, .Lpasetone_BB7_124
	ldrb	w8, [x3, x2]
	add	x9, x5, x2, lsl #4
	add	x10, x21, #256
	mov	w4, #1
	add	x2, x16, #2
	mov	w20, w30
	cmp	w8, #0
	mov	w14, w4
	csel	x8, x21, x10, eq
	stp	x8, xzr, [x9]
	b	.Lpasetone_BB7_34
.Lpasetone_BB7_122:
	mov	w20, w30
	mov	w14, wzr
	tbz	w22, #0, .Lpasetone_BB7_126
.Lpasetone_BB7_123:
	ldrb	w8, [x3, x2]
	add	x9, x5, x2, lsl #4
	add	x10, x21, #256
	mov	x16, xzr
	mov	x4, xzr
	add	x2, x2, #1
	cmp	w8, #0
	csel	x8, x21, x10, eq
	stp	x8, xzr, [x9]
	b	.Lpasetone_BB7_34
.Lpasetone_BB7_124:
	mov	w14, #1
	mov	w20, w30
	mov	w4, #1
	b	.Lpasetone_BB7_34
.Lpasetone_BB7_125:
	ldp	w26, w13, [sp, #44]
	ldr	x6, [sp, #96]
	ldr	x23, [sp, #144]
	mov	w28, w18
	ldr	w27, [sp, #40]
	mov	x18, x20
	ldr	w20, [sp, #72]
	mov	w21, #1
	mov	w12, wzr
	mov	w15, wzr
	movk	w21, #256, lsl #16
	str	wzr, [sp, #76]
	str	wzr, [sp, #108]
	str	wzr, [sp, #92]
	str	wzr, [sp, #172]
	str	wzr, [sp, #140]
	str	wzr, [sp, #156]
	mov	w14, wzr
	tbnz	w22, #0, .Lpasetone_BB7_123
.Lpasetone_BB7_126:
	mov	x16, xzr
	mov	x4, xzr
	b	.Lpasetone_BB7_34
.Lpasetone_BB7_127:
	ldrb	w11, [x3, x9]
	mov	w13, #256
	mov	w14, #20
	add	x1, x5, x9, lsl #4
	orr	x14, x14, x28, lsl #8
	str	w28, [sp, #68]
	cmp	w11, #0
	csel	x13, xzr, x13, eq
	orr	x13, x13, x12
	stp	x13, x14, [x1]
	add	x1, x16, #13
	cbz	w11, .Lpasetone_BB7_129
	mov	w8, #1
	mov	x16, x9
	str	w8, [sp, #64]
	b	.Lpasetone_BB7_135
.Lpasetone_BB7_129:
	ldrb	w11, [x3, x1]
	mov	w9, #256
	add	x13, x5, x1, lsl #4
	and	x14, x26, #0xff00
	mov	w2, #22
	lsr	w6, w26, #8
	cmp	w11, #0
	orr	x14, x14, x2
	csel	x9, xzr, x9, eq
	str	x6, [sp, #56]
	orr	x9, x9, x12
	stp	x9, x14, [x13]
	add	x9, x16, #14
	cbz	w11, .Lpasetone_BB7_131
	mov	w8, #1
	str	wzr, [sp, #64]
	mov	x16, x1
	str	w8, [sp, #52]
	mov	x1, x9
	b	.Lpasetone_BB7_135
.Lpasetone_BB7_131:
	ldrb	w11, [x3, x9]
	mov	w13, #21
	mov	w14, #256
	orr	w13, w13, w26, lsl #8
	add	x1, x5, x9, lsl #4
	cmp	w11, #0
	csel	x14, xzr, x14, eq
	and	x13, x13, #0xffff
	orr	x14, x14, x12
	stp	x14, x13, [x1]
	add	x1, x16, #15
	cbz	w11, .Lpasetone_BB7_133
	mov	w8, #1
	str	wzr, [sp, #64]
	mov	x16, x9
	str	wzr, [sp, #52]
	stp	w8, w26, [sp, #20]
	b	.Lpasetone_BB7_135
.Lpasetone_BB7_133:
	ldr	x11, [sp, #120]
	ldrb	w9, [x3, x1]
	mov	w13, #18
	mov	w14, #256
	add	x2, x5, x1, lsl #4
	str	wzr, [sp, #156]
	and	w11, w11, #0xfffffff7
	cmp	w9, #0
	orr	w11, w8, w11
	csel	x8, xzr, x14, eq
	str	x11, [sp, #120]
	orr	x11, x13, x11, lsl #8
	orr	x8, x8, x12
	stp	x8, x11, [x2]
	add	x2, x16, #16
	mov	w8, #1
	str	x8, [sp, #112]
	cbz	w9, .Lpasetone_BB7_140
	ldr	w8, [sp, #156]
	mov	x16, x1
	mov	x1, x2
	str	w8, [sp, #64]
	stp	w8, w26, [sp, #20]
	str	w8, [sp, #52]
.Lpasetone_BB7_135:
	tbz	w22, #0, .Lpasetone_BB7_137
	ldrb	w8, [x3, x1]
	mov	w21, #1
	add	x11, x5, x1, lsl #4
	movk	w21, #256, lsl #16
	mov	w28, w18
	mov	x18, x20
	cmp	w8, #0
	add	x8, x21, #256
	ldr	w20, [sp, #72]
	mov	w12, wzr
	mov	w14, wzr
	mov	w9, wzr
	mov	w22, wzr
	csel	x8, x21, x8, eq
	add	x2, x16, #2
	str	wzr, [sp, #156]
	str	wzr, [sp, #140]
	str	wzr, [sp, #172]
	str	wzr, [sp, #92]
	str	wzr, [sp, #108]
	str	wzr, [sp, #76]
	stp	x8, xzr, [x11]
	b	.Lpasetone_BB7_139
.Lpasetone_BB7_137:
	mov	w12, wzr
	mov	w14, wzr
	mov	w9, wzr
	mov	w22, wzr
	mov	x2, x1
	str	wzr, [sp, #156]
	str	wzr, [sp, #140]
	str	wzr, [sp, #172]
	str	wzr, [sp, #92]
	str	wzr, [sp, #108]
	str	wzr, [sp, #76]
.Lpasetone_BB7_138:
	mov	w28, w18
	mov	x18, x20
	ldr	w20, [sp, #72]
	mov	w21, #1
	movk	w21, #256, lsl #16
.Lpasetone_BB7_139:
	mov	w7, #2
	movk	w7, #512, lsl #16
	b	.Lpasetone_BB7_23
.Lpasetone_BB7_140:
	ldr	w11, [sp, #156]
	mov	x16, xzr
	mov	w9, #1
	mov	w8, w11
	str	w11, [sp, #140]
	mov	w12, w11
	mov	w14, w11
	str	w11, [sp, #172]
	mov	w15, w11
	str	w11, [sp, #92]
	str	w11, [sp, #108]
	str	w11, [sp, #76]
	stp	w11, w26, [sp, #20]
	str	x8, [sp, #112]
	str	w11, [sp, #64]
	str	w11, [sp, #52]
	b	.Lpasetone_BB7_138
.Lpasetone_BB7_141:
	mov	x16, xzr
	mov	x4, xzr
	mov	w20, w30
	b	.Lpasetone_BB7_86
.Lpasetone_func_end7:
	.size	"tuning::tune", .Lpasetone_func_end7-"tuning::tune"
	.cfi_endproc

	.section	.rodata.cst8,"aM",@progbits,8
	.p2align	3, 0x0
.Lpasetone_CPI8_0:
	.word	1
	.word	0
	.section	".text.drivers::set_sample_rate","ax",@progbits
	.p2align	2
	.type	"drivers::set_sample_rate",@function
"drivers::set_sample_rate":
	.cfi_startproc
	str	d8, [sp, #-112]!
	.cfi_def_cfa_offset 112
	stp	x29, x30, [sp, #16]
	stp	x28, x27, [sp, #32]
	stp	x26, x25, [sp, #48]
	stp	x24, x23, [sp, #64]
	stp	x22, x21, [sp, #80]
	stp	x20, x19, [sp, #96]
	add	x29, sp, #16
	.cfi_def_cfa w29, 96
	.cfi_offset w19, -8
	.cfi_offset w20, -16
	.cfi_offset w21, -24
	.cfi_offset w22, -32
	.cfi_offset w23, -40
	.cfi_offset w24, -48
	.cfi_offset w25, -56
	.cfi_offset w26, -64
	.cfi_offset w27, -72
	.cfi_offset w28, -80
	.cfi_offset w30, -88
	.cfi_offset w29, -96
	.cfi_offset b8, -112
	.cfi_remember_state
	sub	sp, sp, #512
	mov	x11, #13531
	mov	w20, w7
	mov	x23, x5
	movk	x11, #55222, lsl #16
	cmp	x2, #29
	add	x25, sp, #224
	movk	x11, #56962, lsl #32
	str	x6, [sp, #64]
	movk	x11, #17179, lsl #48
	stur	x0, [x29, #-8]
	stp	xzr, xzr, [sp, #200]
	str	xzr, [sp, #216]
	str	wzr, [sp, #192]
	strb	wzr, [sp, #196]
	stp	xzr, xzr, [sp, #168]
	str	xzr, [sp, #160]
	strb	wzr, [sp, #184]
	str	xzr, [sp, #144]
	stur	xzr, [sp, #149]
	str	wzr, [sp, #136]
	strb	wzr, [sp, #140]
	stp	xzr, xzr, [sp, #104]
	str	xzr, [sp, #96]
	strb	wzr, [sp, #120]
	stur	xzr, [sp, #85]
	str	xzr, [sp, #80]
	b.ne	.Lpasetone_BB8_4
	ldur	w8, [x1, #1]
	ldursw	x9, [x1, #5]
	mov	x22, x11
	mov	x19, xzr
	mov	w26, wzr
	mul	x10, x9, x8
	smulh	x10, x10, x11
	asr	x11, x10, #18
	add	x11, x11, x10, lsr #63
	ldrb	w10, [x1]
	add	x12, x11, x8
	mov	x11, #4294967296
	cmp	x12, x11
	csel	x11, x12, x11, lo
	cmp	w10, #1
	b.hi	.Lpasetone_BB8_26
	mov	x13, #-4294967296
	mov	w11, w11
	mov	w24, w26
	add	x12, x12, x13
	mov	x13, #-4294967295
	mov	w27, w26
	cmp	x12, x13
	mov	w21, w26
	mov	w28, w26
	ccmp	x11, #0, #4, hs
	mov	x11, x19
	b.eq	.Lpasetone_BB8_5
	ldur	x11, [x1, #21]
	cmp	w10, #1
	ldur	w28, [x1, #17]
	ldur	x19, [x1, #9]
	cset	w24, eq
	mov	w26, #1
	mov	w27, w8
	mov	w21, w9
	b	.Lpasetone_BB8_5
.Lpasetone_BB8_4:
	mov	x22, x11
	mov	w26, wzr
	mov	w24, wzr
	mov	w27, wzr
	mov	w21, wzr
	mov	x19, xzr
	mov	w28, wzr
	mov	x11, xzr
.Lpasetone_BB8_5:
	add	x0, sp, #224
	mov	x1, x3
	mov	x2, x4
	str	x11, [sp, #72]
	bl	"records::decode_tuner"
	ldrb	w8, [sp, #224]
	stur	wzr, [x29, #-72]
	sturb	wzr, [x29, #-68]
	stp	xzr, xzr, [x29, #-56]
	stur	xzr, [x29, #-64]
	sturb	wzr, [x29, #-40]
	stur	xzr, [x29, #-88]
	stur	xzr, [x25, #221]
	stur	wzr, [x29, #-96]
	sturb	wzr, [x29, #-92]
	stp	xzr, xzr, [x29, #-120]
	stur	xzr, [x29, #-128]
	sturb	wzr, [x29, #-104]
	stur	xzr, [x25, #165]
	stur	xzr, [x29, #-144]
	cbz	w26, .Lpasetone_BB8_8
	cmp	w8, #1
	cset	w8, eq
	b.ne	.Lpasetone_BB8_9
	ldur	w9, [x25, #10]
	ldrb	w10, [sp, #238]
	mov	x3, x19
	ldur	q0, [x25, #17]
	ldur	x11, [x25, #49]
	ldrb	w12, [sp, #232]
	stur	w9, [x29, #-96]
	ldrb	w9, [sp, #287]
	ldrb	w13, [sp, #233]
	sturb	w10, [x29, #-92]
	ldurh	w10, [x25, #61]
	ldrb	w18, [sp, #239]
	ldrb	w14, [sp, #240]
	stur	q0, [x29, #-128]
	ldur	q0, [x25, #26]
	orr	w9, w10, w9, lsl #16
	ldur	w10, [x25, #57]
	ldrb	w1, [sp, #266]
	ldrb	w0, [sp, #267]
	stur	x11, [x25, #165]
	ldur	x11, [x25, #44]
	orr	x2, x10, x9, lsl #32
	ldrb	w9, [sp, #296]
	ldrb	w10, [sp, #312]
	ldr	w15, [sp, #288]
	ldr	w16, [sp, #292]
	ldr	s8, [sp, #300]
	and	w17, w9, #0x1
	and	w9, w10, #0x1
	ldr	x26, [sp, #304]
	mov	w19, w9
	stur	q0, [x25, #185]
	stur	x11, [x29, #-144]
	b	.Lpasetone_BB8_10
.Lpasetone_BB8_8:
	mov	w12, wzr
	mov	w13, wzr
	mov	w18, wzr
	mov	w14, wzr
	mov	w1, wzr
	mov	w0, wzr
	mov	x2, xzr
	mov	w15, wzr
	mov	w16, wzr
	mov	w17, wzr
	mov	x26, xzr
	mov	w19, wzr
	mov	w24, wzr
	mov	w27, wzr
	mov	w21, wzr
	mov	x3, xzr
	mov	w28, wzr
	str	xzr, [sp, #72]
	movi	d8, #0000000000000000
	mov	w8, wzr
	b	.Lpasetone_BB8_11
.Lpasetone_BB8_9:
	mov	w12, wzr
	mov	w13, wzr
	mov	w18, wzr
	mov	w14, wzr
	mov	w1, wzr
	mov	w0, wzr
	mov	x2, xzr
	mov	w15, wzr
	mov	w16, wzr
	mov	w17, wzr
	mov	x26, xzr
	mov	w19, wzr
	mov	w24, wzr
	mov	w27, wzr
	mov	w21, wzr
	mov	x3, xzr
	mov	w28, wzr
	movi	d8, #0000000000000000
	str	xzr, [sp, #72]
.Lpasetone_BB8_10:
	ldur	w9, [x29, #-96]
	ldurb	w10, [x29, #-92]
	ldur	q0, [x29, #-128]
	ldur	q1, [x25, #185]
	stur	w9, [x29, #-72]
	ldur	x9, [x29, #-144]
	sturb	w10, [x29, #-68]
	ldur	x10, [x25, #165]
	stur	q0, [x29, #-64]
	stur	q1, [x25, #249]
	stur	x9, [x29, #-88]
	stur	x10, [x25, #221]
.Lpasetone_BB8_11:
	ldur	q0, [x29, #-64]
	ldur	x11, [x29, #-88]
	ldurb	w10, [x29, #-68]
	ldur	w9, [x29, #-72]
	stur	q0, [x29, #-192]
	ldur	q0, [x25, #249]
	stur	x11, [x29, #-208]
	ldur	x11, [x25, #221]
	stur	q0, [x25, #121]
	stur	x11, [x25, #101]
	ldur	q0, [x25, #121]
	ldur	q1, [x29, #-192]
	sturb	w10, [x29, #-148]
	strb	w10, [sp, #140]
	ldur	x10, [x29, #-208]
	stur	w9, [x29, #-152]
	str	w9, [sp, #136]
	stur	q0, [sp, #105]
	str	q1, [sp, #96]
	stur	x11, [sp, #85]
	str	x10, [sp, #80]
	cbz	w8, .Lpasetone_BB8_14
	str	x2, [sp]
	ldr	x2, [sp, #64]
	stp	x14, x1, [sp, #24]
	mov	x1, x23
	mov	w23, w15
	stp	w12, w0, [sp, #16]
	add	x0, sp, #200
	stp	x13, x18, [sp, #40]
	str	w17, [sp, #12]
	str	w16, [sp, #60]
	str	x3, [sp, #64]
	bl	"bands::plan_by_table"
	sxtw	x8, w21
	mov	w9, w27
	mov	w11, #-1
	mov	w3, w23
	mul	x8, x8, x9
	smulh	x8, x8, x22
	asr	x10, x8, #18
	add	x8, x10, x8, lsr #63
	add	x8, x8, x9
	mov	x9, #4294967296
	cmp	x8, x9
	sub	x10, x8, #1
	csel	x8, x8, x9, lo
	cmp	x10, x11
	mov	w11, #3
	csel	w9, w8, wzr, lo
	mov	w8, #4
	cmp	w9, #0
	csel	w10, w8, wzr, eq
	cmp	w20, #0
	ldrb	w8, [sp, #200]
	csel	w11, w11, w10, eq
	mov	w10, w11
	cbz	w11, .Lpasetone_BB8_15
	cmp	w8, #19
	csel	w10, w8, w10, eq
	cbnz	w10, .Lpasetone_BB8_24
	b	.Lpasetone_BB8_17
.Lpasetone_BB8_14:
	movi	d0, #0000000000000000
	adrp	x8, .Lpasetone_CPI8_0
	ldr	d1, [x8, :lo12:.Lpasetone_CPI8_0]
	ldur	x8, [x29, #-8]
	str	d1, [x8, #16]
	mov	v0.d[1], v0.d[0]
	str	q0, [x8]
	b	.Lpasetone_BB8_25
.Lpasetone_BB8_15:
	cbz	w20, .Lpasetone_BB8_87
	ubfiz	x10, x9, #22, #32
	mov	w12, w20
	udiv	x10, x10, x12
	lsr	w12, w10, #27
	eor	w12, w12, w10, lsr #28
	sub	x10, x10, #4
	tst	x12, #0x1
	mov	w12, #536870908
	ccmp	x10, x12, #2, eq
	mov	w10, #13
	csel	w10, wzr, w10, lo
	cmp	w8, #19
	csel	w10, w8, w10, eq
	cbnz	w10, .Lpasetone_BB8_24
.Lpasetone_BB8_17:
	ldr	x10, [x29, #136]
	cmp	x10, #29
	mov	w10, #8
	b.lo	.Lpasetone_BB8_24
	ldr	x12, [x29, #152]
	cmp	x12, #78
	b.lo	.Lpasetone_BB8_24
	ldr	w10, [sp, #60]
	cmp	w3, #0
	ldr	x5, [sp, #64]
	ccmp	w10, #0, #4, ne
	ldrb	w10, [sp, #216]
	ccmp	w9, #0, #4, ne
	cset	w12, ne
	cbz	w11, .Lpasetone_BB8_27
	cbz	w12, .Lpasetone_BB8_29
.Lpasetone_BB8_21:
	cmp	w8, #19
	csel	w12, w8, w11, eq
	cbnz	w12, .Lpasetone_BB8_30
	ldr	x8, [x29, #120]
	cmp	x8, #280
	b.hs	.Lpasetone_BB8_39
	mov	w12, #8
	b	.Lpasetone_BB8_30
.Lpasetone_BB8_24:
	ldur	x8, [x29, #-8]
	stp	xzr, xzr, [x8]
	stp	w10, wzr, [x8, #16]
.Lpasetone_BB8_25:
	add	sp, sp, #512
	.cfi_def_cfa wsp, 112
	ldp	x20, x19, [sp, #96]
	ldp	x22, x21, [sp, #80]
	ldp	x24, x23, [sp, #64]
	ldp	x26, x25, [sp, #48]
	ldp	x28, x27, [sp, #32]
	ldp	x29, x30, [sp, #16]
	ldr	d8, [sp], #112
	.cfi_def_cfa_offset 0
	.cfi_restore w19
	.cfi_restore w20
	.cfi_restore w21
	.cfi_restore w22
	.cfi_restore w23
	.cfi_restore w24
	.cfi_restore w25
	.cfi_restore w26
	.cfi_restore w27
	.cfi_restore w28
	.cfi_restore w30
	.cfi_restore w29
	.cfi_restore b8
	ret
.Lpasetone_BB8_26:
	.cfi_restore_state
	mov	w24, w26
	mov	w27, w26
	mov	w21, w26
	mov	w28, w26
	mov	x11, x19
	b	.Lpasetone_BB8_5
.Lpasetone_BB8_27:
	cbz	w20, .Lpasetone_BB8_87
	ubfiz	x11, x9, #22, #32
	mov	w13, w20
	udiv	x11, x11, x13
	lsr	w13, w11, #27
	eor	w13, w13, w11, lsr #28
	sub	x11, x11, #4
	tst	x13, #0x1
	mov	w13, #536870908
	ccmp	x11, x13, #2, eq
	mov	w11, #13
	csel	w11, wzr, w11, lo
	cbnz	w12, .Lpasetone_BB8_21
.Lpasetone_BB8_29:
	mov	w12, #1
.Lpasetone_BB8_30:
	ldr	w8, [sp, #136]
	ldrb	w11, [sp, #140]
	mov	x9, xzr
	ldr	q0, [sp, #96]
	ldur	q1, [sp, #105]
	mov	x10, xzr
	str	w8, [sp, #192]
	ldr	x8, [sp, #80]
	ldur	x13, [sp, #85]
	ldur	x18, [x29, #-8]
	strb	w11, [sp, #196]
	mov	w11, #1
	str	q0, [sp, #160]
	stur	q1, [sp, #169]
	str	x8, [sp, #144]
	stur	x13, [sp, #149]
	cbz	w11, .Lpasetone_BB8_32
.Lpasetone_BB8_31:
	cbz	x10, .Lpasetone_BB8_33
.Lpasetone_BB8_32:
	ldr	x13, [x29, #128]
	ldr	x14, [sp, #72]
	mov	w15, #2143289344
	ldr	x8, [x29, #144]
	ldr	q0, [sp, #160]
	ldr	w16, [sp, #60]
	strb	w24, [x13]
	stur	w27, [x13, #1]
	stur	w21, [x13, #5]
	stur	x5, [x13, #9]
	stur	w28, [x13, #17]
	stur	x14, [x13, #21]
	ldr	w13, [sp, #16]
	ldr	x14, [sp, #40]
	stur	q0, [x8, #9]
	fmov	s0, s8
	strb	w13, [x8]
	ldr	w13, [sp, #192]
	strb	w14, [x8, #1]
	ldrb	w14, [sp, #196]
	stur	w13, [x8, #2]
	ldr	x13, [sp, #48]
	strb	w14, [x8, #6]
	ldr	x14, [sp, #24]
	fcmp	s0, s0
	strb	w13, [x8, #7]
	strb	w14, [x8, #8]
	ldp	w13, w14, [sp, #176]
	stur	w3, [x8, #29]
	stur	w16, [x8, #33]
	stur	w13, [x8, #25]
	fmov	w13, s8
	stur	w14, [x8, #51]
	ldr	w14, [sp, #20]
	stur	x26, [x8, #42]
	csel	w13, w15, w13, vs
	ldr	w15, [sp, #12]
	strb	w14, [x8, #57]
	stur	w13, [x8, #38]
	ldrb	w13, [sp, #184]
	ldur	x14, [sp, #149]
	strb	w15, [x8, #37]
	ldr	x15, [sp]
	strb	w13, [x8, #55]
	ldr	x13, [sp, #32]
	strb	w19, [x8, #50]
	strb	w13, [x8, #56]
	ldr	x13, [sp, #144]
	stur	w15, [x8, #71]
	stur	x13, [x8, #58]
	lsr	x13, x15, #48
	stur	x14, [x8, #63]
	lsr	x14, x15, #32
	strb	w13, [x8, #77]
	sturh	w14, [x8, #75]
.Lpasetone_BB8_33:
	cbz	w11, .Lpasetone_BB8_36
	cmp	w11, #2
	b.ne	.Lpasetone_BB8_37
	mov	x8, xzr
	mov	w11, #11
	b	.Lpasetone_BB8_38
.Lpasetone_BB8_36:
	mov	w12, w11
	mov	x8, x9
	mov	x9, x12
	b	.Lpasetone_BB8_38
.Lpasetone_BB8_37:
	mov	x8, xzr
	mov	x9, xzr
	mov	w11, w12
.Lpasetone_BB8_38:
	stp	x8, x9, [x18]
	stp	w11, w10, [x18, #16]
	b	.Lpasetone_BB8_25
.Lpasetone_BB8_39:
	ldr	x8, [x29, #104]
	cmp	x8, #16
	b.hi	.Lpasetone_BB8_41
	mov	w12, #9
	b	.Lpasetone_BB8_30
.Lpasetone_BB8_41:
	ldr	x8, [x29, #112]
	ldr	x11, [x29, #96]
	cbz	x26, .Lpasetone_BB8_44
	mov	w12, #9631
	movk	w12, #38, lsl #16
	cmp	w20, w12
	b.ls	.Lpasetone_BB8_45
	mov	w12, #31056
	movk	w12, #54, lsl #16
	b	.Lpasetone_BB8_46
.Lpasetone_BB8_44:
	mov	w12, wzr
	b	.Lpasetone_BB8_46
.Lpasetone_BB8_45:
	mov	w12, #16959
	movk	w12, #15, lsl #16
	cmp	w20, w12
	mov	w12, #6240
	movk	w12, #35, lsl #16
	csel	w12, w12, wzr, hi
.Lpasetone_BB8_46:
	ldr	w13, [sp, #136]
	ldrb	w16, [sp, #140]
	mov	w15, #26591
	ldr	q0, [sp, #96]
	mov	w14, #1
	movk	w15, #53, lsl #16
	stur	w13, [x29, #-88]
	ldr	x13, [sp, #80]
	ldrb	w17, [x11]
	movk	w14, #256, lsl #16
	cmp	w12, w15
	sturb	w16, [x29, #-84]
	mov	w16, #-128
	mov	w18, #107
	stur	x13, [x29, #-128]
	ldur	x13, [sp, #85]
	str	q0, [sp, #224]
	ldur	q0, [sp, #105]
	csel	w16, w18, w16, hi
	orr	x18, x14, #0x100
	cmp	w17, #0
	stur	x13, [x25, #181]
	csel	x18, x14, x18, eq
	mov	w13, #1
	stur	q0, [x25, #9]
	stp	x18, x13, [x8]
	cbz	w17, .Lpasetone_BB8_48
	mov	x16, xzr
	b	.Lpasetone_BB8_54
.Lpasetone_BB8_48:
	ldrb	w18, [x11, #1]
	ldp	x2, x0, [sp, #40]
	cmp	w12, w15
	mov	w13, #16
	mov	w15, #256
	csel	w17, w13, wzr, hi
	cmp	w18, #0
	mov	w1, #10
	mov	w13, w2
	csel	x15, xzr, x15, eq
	and	w0, w0, #0xffffff8f
	bfi	x15, x13, #16, #8
	mov	w13, #2
	orr	w17, w17, w0
	movk	w13, #512, lsl #16
	str	x17, [sp, #48]
	orr	x17, x1, x17, lsl #8
	orr	x15, x15, x13
	stp	x15, x17, [x8, #16]
	ldrb	w17, [x11, #2]
	cbz	w18, .Lpasetone_BB8_50
	add	x13, x14, #256
	cmp	w17, #0
	mov	w16, #1
	csel	x13, x14, x13, eq
	stp	x13, xzr, [x8, #32]
	mov	w13, #1
	str	x13, [sp, #32]
	mov	w13, #3
	b	.Lpasetone_BB8_54
.Lpasetone_BB8_50:
	ldr	x18, [sp, #24]
	ubfiz	x15, x2, #16, #32
	mov	w0, #11
	cmp	w17, #0
	mov	w1, #256
	and	w18, w18, #0x10
	orr	w2, w16, w18
	csel	x16, xzr, x1, eq
	orr	x18, x15, x13
	bfi	x0, x2, #8, #8
	orr	x16, x18, x16
	str	x2, [sp, #24]
	stp	x16, x0, [x8, #32]
	add	x16, x14, #256
	ldrb	w18, [x11, #3]
	cmp	w18, #0
	csel	x18, x14, x16, eq
	stp	x18, xzr, [x8, #48]
	cbz	w17, .Lpasetone_BB8_52
	mov	w13, #1
	str	xzr, [sp, #32]
	mov	w16, #2
	str	w13, [sp, #20]
	mov	w13, #4
	b	.Lpasetone_BB8_54
.Lpasetone_BB8_52:
	ldrb	w17, [x11, #4]
	mov	w18, #1
	cmp	w17, #0
	csel	x16, x14, x16, eq
	stp	x16, x18, [x8, #64]
	cbz	w17, .Lpasetone_BB8_69
	mov	w16, #4
	mov	w13, #5
	str	wzr, [sp, #20]
	str	xzr, [sp, #32]
.Lpasetone_BB8_54:
	ldur	w15, [x29, #-88]
	ldurb	w17, [x29, #-84]
	mov	w14, wzr
	ldr	q0, [sp, #224]
	ldur	q1, [x25, #9]
	stur	w15, [x29, #-144]
	ldur	x15, [x29, #-128]
	sturb	w17, [x29, #-140]
	ldur	x17, [x25, #181]
	stur	q0, [x29, #-64]
	stur	q1, [x25, #249]
	stur	x15, [x29, #-192]
	stur	x17, [x25, #117]
.Lpasetone_BB8_55:
	cbz	w20, .Lpasetone_BB8_87
	cbz	w14, .Lpasetone_BB8_59
	ubfiz	x14, x9, #22, #32
	mov	w15, w20
	ldrb	w0, [x11, x13]
	add	x1, x8, x13, lsl #4
	udiv	x15, x14, x15
	cmp	w0, #0
	lsr	x16, x15, #27
	and	x18, x15, #0xf000000
	lsr	x17, x15, #8
	bfi	x18, x16, #28, #1
	mov	x16, #5
	and	x17, x17, #0xff00
	movk	x16, #513, lsl #16
	movk	x16, #159, lsl #32
	orr	x17, x17, x18, lsr #24
	orr	x2, x16, #0x100
	csel	x16, x16, x2, eq
	stp	x16, x17, [x1]
	add	x16, x13, #1
	cbz	w0, .Lpasetone_BB8_63
	add	x17, x13, #1
	mov	x16, x13
	b	.Lpasetone_BB8_60
.Lpasetone_BB8_59:
	mov	x17, x13
.Lpasetone_BB8_60:
	mov	w26, w12
	mov	x9, x17
	mov	x17, x16
.Lpasetone_BB8_61:
	ldur	w10, [x29, #-144]
	ldurb	w11, [x29, #-140]
	ldur	q0, [x29, #-64]
	ldur	q1, [x25, #249]
	ldur	x12, [x25, #117]
	ldur	x18, [x29, #-8]
	stur	w10, [x29, #-88]
	ldur	x10, [x29, #-192]
	sturb	w11, [x29, #-84]
	mov	w11, #2
	str	q0, [sp, #224]
	stur	q1, [x25, #9]
	stur	x10, [x29, #-128]
	mov	x10, x9
	mov	x9, x17
	stur	x12, [x25, #181]
.Lpasetone_BB8_62:
	lsl	x13, x10, #4
	ldr	q0, [sp, #224]
	ldur	w14, [x29, #-88]
	mov	w12, wzr
	add	x8, x8, x13
	str	q0, [sp, #160]
	ldur	q0, [x25, #9]
	stp	w10, w13, [x8]
	ldurb	w8, [x29, #-84]
	ldur	x13, [x25, #181]
	str	w14, [sp, #192]
	strb	w8, [sp, #196]
	ldur	x8, [x29, #-128]
	stur	q0, [sp, #169]
	str	x8, [sp, #144]
	stur	x13, [sp, #149]
	cbnz	w11, .Lpasetone_BB8_31
	b	.Lpasetone_BB8_32
.Lpasetone_BB8_63:
	mov	x18, #5
	ldrb	w17, [x11, x16]
	add	x0, x8, x16, lsl #4
	movk	x18, #513, lsl #16
	and	w2, w15, #0xfffc
	movk	x18, #161, lsl #32
	cmp	w17, #0
	orr	x1, x18, #0x100
	csel	x18, x18, x1, eq
	rev16	w1, w2
	stp	x18, x1, [x0]
	add	x18, x13, #2
	cbz	w17, .Lpasetone_BB8_65
	mov	x17, x18
	b	.Lpasetone_BB8_60
.Lpasetone_BB8_65:
	mov	x17, #4
	ldrb	w16, [x11, x18]
	add	x0, x8, x18, lsl #4
	movk	x17, #257, lsl #16
	movk	x17, #63, lsl #32
	cmp	w16, #0
	orr	x1, x17, #0x100
	csel	x17, x17, x1, eq
	stp	x17, xzr, [x0]
	add	x17, x13, #3
	cbz	w16, .Lpasetone_BB8_67
	mov	x16, x18
	b	.Lpasetone_BB8_60
.Lpasetone_BB8_67:
	mov	x16, #4
	ldrb	w18, [x11, x17]
	add	x0, x8, x17, lsl #4
	movk	x16, #257, lsl #16
	mov	w26, w12
	movk	x16, #62, lsl #32
	cmp	w18, #0
	orr	x1, x16, #0x100
	csel	x16, x16, x1, eq
	stp	x16, xzr, [x0]
	add	x16, x13, #4
	cbz	w18, .Lpasetone_BB8_71
	mov	x9, x16
	b	.Lpasetone_BB8_61
.Lpasetone_BB8_69:
	mov	w16, #53185
	mov	w18, #36225
	mov	w17, #6
	movk	w16, #106, lsl #16
	movk	w18, #91, lsl #16
	ldr	x0, [sp, #48]
	cmp	w20, w16
	mov	w16, #8
	orr	x13, x15, x13
	csel	w17, w17, wzr, lo
	cmp	w20, w18
	mov	w18, #-112
	and	w18, w0, w18
	ldrb	w0, [x11, #5]
	csel	w16, w16, w17, lo
	orr	w16, w18, w16
	mov	w17, #10
	mov	w18, #256
	cmp	w0, #0
	and	x15, x16, #0xfe
	ldr	q0, [sp, #96]
	csel	x18, xzr, x18, eq
	orr	x15, x17, x15, lsl #8
	ldr	w17, [sp, #136]
	orr	x13, x13, x18
	stur	q0, [x29, #-64]
	ldur	q0, [sp, #105]
	stp	x13, x15, [x8, #80]
	ldrb	w13, [sp, #140]
	ldrb	w15, [x11, #6]
	stur	w17, [x29, #-144]
	ldur	x17, [sp, #85]
	sturb	w13, [x29, #-140]
	add	x13, x14, #256
	cmp	w15, #0
	stur	q0, [x25, #249]
	csel	x13, x14, x13, eq
	ldr	x14, [sp, #80]
	stur	x17, [x25, #117]
	stp	x13, xzr, [x8, #96]
	str	x16, [sp, #48]
	stur	x14, [x29, #-192]
	cbz	w0, .Lpasetone_BB8_73
	mov	w13, #1
	str	wzr, [sp, #20]
	mov	w14, wzr
	str	x13, [sp, #32]
	mov	w16, #5
	mov	w13, #7
	b	.Lpasetone_BB8_55
.Lpasetone_BB8_71:
	ubfiz	x12, x12, #22, #32
	mov	x17, #4
	add	x18, x8, x16, lsl #4
	movk	x17, #257, lsl #16
	udiv	x9, x12, x9
	ldrb	w12, [x11, x16]
	movk	x17, #25, lsl #32
	orr	x0, x17, #0x100
	cmp	w12, #0
	csel	x17, x17, x0, eq
	neg	w9, w9
	ubfx	w1, w9, #16, #6
	stp	x17, x1, [x18]
	add	x17, x13, #5
	cbz	w12, .Lpasetone_BB8_75
	mov	x9, x17
	mov	x17, x16
	b	.Lpasetone_BB8_81
.Lpasetone_BB8_73:
	mov	x13, #4
	ldrb	w14, [x11, #7]
	mov	w16, #20
	movk	x13, #257, lsl #16
	movk	x13, #1, lsl #32
	cmp	w14, #0
	orr	x15, x13, #0x100
	csel	x15, x13, x15, eq
	stp	x15, x16, [x8, #112]
	cbz	w14, .Lpasetone_BB8_77
	str	xzr, [sp, #32]
	mov	w14, wzr
	mov	w16, #7
	str	wzr, [sp, #20]
	mov	w13, #8
	b	.Lpasetone_BB8_78
.Lpasetone_BB8_75:
	mov	x12, #4
	ldrb	w16, [x11, x17]
	add	x18, x8, x17, lsl #4
	movk	x12, #257, lsl #16
	ubfx	w1, w9, #8, #8
	movk	x12, #26, lsl #32
	cmp	w16, #0
	orr	x0, x12, #0x100
	csel	x12, x12, x0, eq
	stp	x12, x1, [x18]
	add	x12, x13, #6
	cbz	w16, .Lpasetone_BB8_79
	mov	x9, x12
	b	.Lpasetone_BB8_81
.Lpasetone_BB8_77:
	ldrb	w14, [x11, #8]
	add	x15, x13, #256
	mov	w16, #8
	str	xzr, [sp, #32]
	cmp	w14, #0
	str	wzr, [sp, #20]
	csel	x13, x13, x15, eq
	mov	w15, #16
	cset	w14, eq
	stp	x13, x15, [x8, #128]
	csel	x16, xzr, x16, eq
	mov	w13, #9
.Lpasetone_BB8_78:
	ldr	x5, [sp, #64]
	mov	w3, w23
	b	.Lpasetone_BB8_55
.Lpasetone_BB8_79:
	mov	x17, #4
	ldrb	w16, [x11, x12]
	add	x18, x8, x12, lsl #4
	movk	x17, #257, lsl #16
	and	w9, w9, #0xff
	movk	x17, #27, lsl #32
	cmp	w16, #0
	orr	x0, x17, #0x100
	csel	x17, x17, x0, eq
	stp	x17, x9, [x18]
	add	x9, x13, #7
	cbz	w16, .Lpasetone_BB8_82
	mov	x17, x12
.Lpasetone_BB8_81:
	ldr	x5, [sp, #64]
	mov	w3, w23
	b	.Lpasetone_BB8_61
.Lpasetone_BB8_82:
	mov	x16, #4
	ldrb	w11, [x11, x9]
	tst	w10, #0x1
	movk	x16, #257, lsl #16
	mov	w10, #5
	add	x12, x8, x9, lsl #4
	movk	x16, #21, lsl #32
	csinc	x10, x10, xzr, ne
	cmp	w11, #0
	orr	x18, x16, #0x100
	ldur	q0, [x29, #-64]
	ldur	w17, [x29, #-144]
	csel	x16, x16, x18, eq
	stp	x16, x10, [x12]
	ldur	x10, [x29, #-192]
	ldurb	w16, [x29, #-140]
	str	q0, [sp, #224]
	ldur	q0, [x25, #249]
	ldur	x12, [x25, #117]
	stur	x10, [x29, #-128]
	add	x10, x13, #8
	stur	w17, [x29, #-88]
	sturb	w16, [x29, #-84]
	stur	q0, [x25, #9]
	stur	x12, [x25, #181]
	cbz	w11, .Lpasetone_BB8_84
	mov	w11, #2
	b	.Lpasetone_BB8_86
.Lpasetone_BB8_84:
	lsr	w9, w15, #27
	and	w12, w15, #0xffffffc
	bfi	w12, w9, #28, #1
	cbz	w12, .Lpasetone_BB8_87
	udiv	x12, x14, x12
	mov	x9, xzr
	mov	w11, wzr
	mov	w28, w20
	str	x12, [sp, #72]
.Lpasetone_BB8_86:
	ldr	x5, [sp, #64]
	ldur	x18, [x29, #-8]
	mov	w3, w23
	b	.Lpasetone_BB8_62
.Lpasetone_BB8_87:
	brk	#0x1
.Lpasetone_func_end8:
	.size	"drivers::set_sample_rate", .Lpasetone_func_end8-"drivers::set_sample_rate"
	.cfi_endproc

	.section	.rodata.cst16,"aM",@progbits,16
	.p2align	4, 0x0
.Lpasetone_CPI9_0:
	.word	218
	.word	241
	.word	267
	.word	288
.Lpasetone_CPI9_1:
	.word	57
	.word	82
	.word	106
	.word	134
.Lpasetone_CPI9_2:
	.word	379
	.word	394
	.word	411
	.word	427
.Lpasetone_CPI9_3:
	.word	4
	.word	11
	.word	20
	.word	32
.Lpasetone_CPI9_4:
	.word	312
	.word	333
	.word	351
	.word	368
.Lpasetone_CPI9_5:
	.word	150
	.word	161
	.word	181
	.word	202
.Lpasetone_CPI9_6:
	.word	436
	.word	442
	.word	462
	.word	488
	.section	".text.tuners::set_gain","ax",@progbits
	.p2align	2
	.type	"tuners::set_gain",@function
"tuners::set_gain":
	.cfi_startproc
	sub	sp, sp, #368
	.cfi_def_cfa_offset 368
	str	d8, [sp, #272]
	stp	x29, x30, [sp, #280]
	str	x28, [sp, #296]
	stp	x26, x25, [sp, #304]
	stp	x24, x23, [sp, #320]
	stp	x22, x21, [sp, #336]
	stp	x20, x19, [sp, #352]
	add	x29, sp, #280
	.cfi_def_cfa w29, 88
	.cfi_offset w19, -8
	.cfi_offset w20, -16
	.cfi_offset w21, -24
	.cfi_offset w22, -32
	.cfi_offset w23, -40
	.cfi_offset w24, -48
	.cfi_offset w25, -56
	.cfi_offset w26, -64
	.cfi_offset w28, -72
	.cfi_offset w30, -80
	.cfi_offset w29, -88
	.cfi_offset b8, -96
	.cfi_remember_state
	mov	x19, x0
	mov	x0, sp
	mov	x20, x7
	mov	x21, x6
	mov	x22, x5
	mov	x23, x4
	mov	x24, x3
	fmov	s8, s0
	mov	x26, sp
	bl	"records::decode_tuner"
	ldrb	w8, [sp]
	cmp	w8, #1
	b.ne	.Lpasetone_BB9_5
	ldr	x8, [x29, #88]
	cmp	x8, #78
	b.lo	.Lpasetone_BB9_6
	fmov	s0, #10.00000000
	add	x25, sp, #128
	fmul	s0, s8, s0
	fmov	s1, s0
	fcmp	s1, s1
	b.vs	.Lpasetone_BB9_4
	fmov	w8, s0
	ubfx	w9, w8, #23, #8
	cmp	w9, #127
	b.hs	.Lpasetone_BB9_7
.Lpasetone_BB9_4:
	mov	w9, wzr
	b	.Lpasetone_BB9_13
.Lpasetone_BB9_5:
	mov	x11, xzr
	mov	x9, xzr
	mov	w8, wzr
	mov	w10, #1
	b	.Lpasetone_BB9_22
.Lpasetone_BB9_6:
	mov	x11, xzr
	mov	x9, xzr
	mov	w8, wzr
	mov	w10, #8
	b	.Lpasetone_BB9_22
.Lpasetone_BB9_7:
	mov	w10, #8388608
	subs	w11, w9, #150
	bfxil	w10, w8, #0, #23
	b.hi	.Lpasetone_BB9_9
	mov	w11, #150
	sub	w9, w11, w9
	lsr	w9, w10, w9
	tbz	w8, #31, .Lpasetone_BB9_13
	b	.Lpasetone_BB9_23
.Lpasetone_BB9_9:
	cmp	w9, #157
	b.hi	.Lpasetone_BB9_11
	lsl	w9, w10, w11
	tbz	w8, #31, .Lpasetone_BB9_13
	b	.Lpasetone_BB9_23
.Lpasetone_BB9_11:
	tbnz	w8, #31, .Lpasetone_BB9_23
	mov	w9, #2147483647
.Lpasetone_BB9_13:
	adrp	x8, .Lpasetone_CPI9_1
	dup	v0.4s, w9
	adrp	x9, .Lpasetone_CPI9_4
	ldr	q1, [x8, :lo12:.Lpasetone_CPI9_1]
	adrp	x8, .Lpasetone_CPI9_5
	ldr	q2, [x9, :lo12:.Lpasetone_CPI9_4]
	ldr	q3, [x8, :lo12:.Lpasetone_CPI9_5]
	adrp	x8, .Lpasetone_CPI9_6
	adrp	x9, .Lpasetone_CPI9_2
	ldr	q4, [x8, :lo12:.Lpasetone_CPI9_6]
	adrp	x8, .Lpasetone_CPI9_3
	ldr	q5, [x9, :lo12:.Lpasetone_CPI9_2]
	ldr	q6, [x8, :lo12:.Lpasetone_CPI9_3]
	adrp	x8, .Lpasetone_CPI9_0
	cmhi	v3.4s, v0.4s, v3.4s
	cmhi	v4.4s, v0.4s, v4.4s
	cmhi	v2.4s, v0.4s, v2.4s
	cmhi	v5.4s, v0.4s, v5.4s
	cmhi	v6.4s, v0.4s, v6.4s
	cmhi	v1.4s, v0.4s, v1.4s
	ldr	q7, [x8, :lo12:.Lpasetone_CPI9_0]
	add	v3.4s, v3.4s, v4.4s
	cmhi	v0.4s, v0.4s, v7.4s
	add	v2.4s, v6.4s, v2.4s
	add	v1.4s, v1.4s, v5.4s
	add	v2.4s, v2.4s, v3.4s
	add	v0.4s, v1.4s, v0.4s
	add	v0.4s, v2.4s, v0.4s
	addv	s0, v0.4s
	fmov	w8, s0
	neg	w2, w8
.Lpasetone_BB9_14:
	sub	x0, x29, #120
	add	x1, x26, #8
	mov	x3, x24
	mov	x4, x23
	mov	x5, x22
	mov	x6, x21
	bl	"r82xx::Tuner::set_gain_by_index"
	ldur	q0, [x25, #34]
	ldur	q1, [x25, #45]
	ldur	q2, [x25, #61]
	ldp	x9, x8, [x29, #-24]
	ldurb	w15, [x29, #-120]
	str	q0, [sp, #128]
	ldurb	w12, [x29, #-119]
	ldur	d0, [x29, #-64]
	stur	q1, [x25, #11]
	ldurb	w13, [x29, #-56]
	ldur	s1, [x29, #-52]
	str	q2, [sp, #96]
	ldur	q2, [x25, #72]
	ldur	x11, [x29, #-48]
	ldurb	w10, [x29, #-32]
	ldurb	w14, [x29, #-40]
	stur	q2, [sp, #107]
	cbz	w10, .Lpasetone_BB9_19
	cbnz	x8, .Lpasetone_BB9_19
	cbz	w10, .Lpasetone_BB9_20
.Lpasetone_BB9_17:
	cmp	w10, #2
	b.ne	.Lpasetone_BB9_21
	mov	x11, xzr
	mov	w10, #11
	b	.Lpasetone_BB9_22
.Lpasetone_BB9_19:
	fmov	s3, s1
	strb	w12, [x20, #1]
	fmov	w12, s1
	ldr	q2, [sp, #128]
	strb	w15, [x20]
	mov	w15, #2143289344
	stur	d0, [x20, #29]
	ldr	q0, [sp, #96]
	ldur	q1, [sp, #107]
	stur	q2, [x20, #2]
	ldur	q2, [x25, #11]
	and	w13, w13, #0x1
	fcmp	s3, s3
	strb	w13, [x20, #37]
	stur	q2, [x20, #13]
	stur	x11, [x20, #42]
	csel	w12, w15, w12, vs
	stur	q0, [x20, #51]
	stur	w12, [x20, #38]
	and	w12, w14, #0x1
	strb	w12, [x20, #50]
	stur	q1, [x20, #62]
	cbnz	w10, .Lpasetone_BB9_17
.Lpasetone_BB9_20:
	mov	x11, x9
	mov	x9, x10
	b	.Lpasetone_BB9_22
.Lpasetone_BB9_21:
	ldurb	w10, [x29, #-31]
	mov	x11, xzr
	mov	x9, xzr
.Lpasetone_BB9_22:
	stp	x11, x9, [x19]
	stp	w10, w8, [x19, #16]
	.cfi_def_cfa wsp, 368
	ldp	x20, x19, [sp, #352]
	ldr	x28, [sp, #296]
	ldp	x22, x21, [sp, #336]
	ldr	d8, [sp, #272]
	ldp	x24, x23, [sp, #320]
	ldp	x26, x25, [sp, #304]
	ldp	x29, x30, [sp, #280]
	add	sp, sp, #368
	.cfi_def_cfa_offset 0
	.cfi_restore w19
	.cfi_restore w20
	.cfi_restore w21
	.cfi_restore w22
	.cfi_restore w23
	.cfi_restore w24
	.cfi_restore w25
	.cfi_restore w26
	.cfi_restore w28
	.cfi_restore w30
	.cfi_restore w29
	.cfi_restore b8
	ret
.Lpasetone_BB9_23:
	.cfi_restore_state
	mov	x2, xzr
	b	.Lpasetone_BB9_14
.Lpasetone_func_end9:
	.size	"tuners::set_gain", .Lpasetone_func_end9-"tuners::set_gain"
	.cfi_endproc

	.section	.rodata.cst16,"aM",@progbits,16
	.p2align	4, 0x0
.Lpasetone_CPI10_0:
	.byte	1
	.byte	0
	.byte	2
	.byte	2
	.byte	0
	.byte	2
	.byte	3
	.byte	0
	.byte	2
	.byte	4
	.byte	1
	.byte	3
	.byte	5
	.byte	1
	.byte	3
	.byte	6
.Lpasetone_CPI10_1:
	.byte	2
	.byte	4
	.byte	7
	.byte	2
	.byte	4
	.byte	8
	.byte	3
	.byte	5
	.byte	9
	.byte	3
	.byte	5
	.byte	10
	.byte	4
	.byte	6
	.byte	11
	.byte	4
.Lpasetone_CPI10_2:
	.byte	6
	.byte	12
	.byte	5
	.byte	7
	.byte	13
	.byte	5
	.byte	7
	.byte	14
	.byte	6
	.byte	8
	.byte	15
	.byte	6
	.byte	8
	.byte	15
	.byte	7
	.byte	9
.Lpasetone_CPI10_3:
	.byte	15
	.byte	7
	.byte	9
	.byte	15
	.byte	8
	.byte	10
	.byte	15
	.byte	8
	.byte	10
	.byte	15
	.byte	9
	.byte	11
	.byte	15
	.byte	9
	.byte	11
	.byte	15
.Lpasetone_CPI10_4:
	.byte	10
	.byte	12
	.byte	15
	.byte	10
	.byte	12
	.byte	15
	.byte	11
	.byte	13
	.byte	15
	.byte	11
	.byte	13
	.byte	15
	.byte	12
	.byte	14
	.byte	15
	.byte	12
	.section	.rodata.cst8,"aM",@progbits,8
	.p2align	3, 0x0
.Lpasetone_CPI10_5:
	.byte	14
	.byte	15
	.byte	13
	.byte	15
	.zero	1
	.zero	1
	.zero	1
	.zero	1
	.section	".text.r82xx::Tuner::set_gain_by_index","ax",@progbits
	.p2align	2
	.type	"r82xx::Tuner::set_gain_by_index",@function
"r82xx::Tuner::set_gain_by_index":
	.cfi_startproc
	sub	sp, sp, #448
	.cfi_def_cfa_offset 448
	str	x30, [sp, #352]
	stp	x28, x27, [sp, #368]
	stp	x26, x25, [sp, #384]
	stp	x24, x23, [sp, #400]
	stp	x22, x21, [sp, #416]
	stp	x20, x19, [sp, #432]
	.cfi_offset w19, -8
	.cfi_offset w20, -16
	.cfi_offset w21, -24
	.cfi_offset w22, -32
	.cfi_offset w23, -40
	.cfi_offset w24, -48
	.cfi_offset w25, -56
	.cfi_offset w26, -64
	.cfi_offset w27, -72
	.cfi_offset w28, -80
	.cfi_offset w30, -96
	.cfi_remember_state
	cmp	x2, #28
	mov	w8, #28
	ldrb	w7, [x1]
	ldp	w12, w10, [x1, #56]
	ldrb	w18, [x1, #1]
	ldrb	w20, [x1, #2]
	ldrb	w17, [x1, #3]
	ldrb	w21, [x1, #4]
	ldur	w16, [x1, #5]
	csel	x24, x2, x8, lo
	ldrb	w15, [x1, #9]
	ldrb	w23, [x1, #29]
	mov	w2, #1
	ldrb	w14, [x1, #30]
	ldrb	w22, [x1, #31]
	mov	w25, #1
	ldr	w13, [x1, #32]
	ldrb	w19, [x1, #36]
	ldrb	w11, [x1, #64]
	ldr	s0, [x1, #68]
	ldr	x9, [x1, #72]
	ldrb	w8, [x1, #80]
	stp	xzr, xzr, [sp, #112]
	stur	wzr, [sp, #127]
	stp	xzr, xzr, [sp, #80]
	stur	wzr, [sp, #95]
	strh	wzr, [sp, #76]
	strb	wzr, [sp, #78]
	str	wzr, [sp, #68]
	stur	wzr, [sp, #71]
	stp	xzr, xzr, [sp, #48]
	stur	wzr, [sp, #63]
	stp	xzr, xzr, [sp, #16]
	stur	wzr, [sp, #31]
	cbz	w12, .Lpasetone_BB10_6
	cbz	w10, .Lpasetone_BB10_6
	cmp	x6, #120
	b.hs	.Lpasetone_BB10_4
	mov	w25, #8
	b	.Lpasetone_BB10_6
.Lpasetone_BB10_4:
	cmp	x4, #6
	b.hi	.Lpasetone_BB10_8
	mov	w25, #9
.Lpasetone_BB10_6:
	ldur	q1, [x1, #10]
	ldur	w3, [x1, #25]
	ldur	w4, [x1, #52]
	str	q1, [sp, #112]
	ldur	q1, [x1, #37]
	stur	w3, [sp, #127]
	ldurh	w3, [x1, #65]
	str	q1, [sp, #80]
	ldr	q1, [sp, #112]
	stur	w4, [sp, #95]
	ldurb	w4, [x1, #67]
	strh	w3, [sp, #76]
	ldur	w3, [x1, #81]
	ldur	w1, [x1, #84]
	stur	w16, [x0, #5]
	ldur	w16, [sp, #127]
	strb	w4, [sp, #78]
	str	w3, [sp, #68]
	stur	w1, [sp, #71]
	stur	w16, [x0, #25]
	stur	q1, [x0, #10]
	ldr	q1, [sp, #80]
	str	w13, [x0, #32]
	ldur	w13, [sp, #95]
	str	w10, [x0, #60]
	and	w10, w4, #0xff
	strb	w11, [x0, #64]
	ldrh	w11, [sp, #76]
	str	x9, [x0, #72]
	strb	w8, [x0, #80]
	ldr	w8, [sp, #68]
	strb	w7, [x0]
	strb	w18, [x0, #1]
	strb	w20, [x0, #2]
	strb	w17, [x0, #3]
	strb	w21, [x0, #4]
	strb	w15, [x0, #9]
	strb	w23, [x0, #29]
	strb	w14, [x0, #30]
	strb	w22, [x0, #31]
	strb	w19, [x0, #36]
	stp	w13, w12, [x0, #52]
	stur	q1, [x0, #37]
	strb	w10, [x0, #67]
	sturh	w11, [x0, #65]
	str	s0, [x0, #68]
	str	w1, [x0, #84]
	stur	w8, [x0, #81]
	strb	w2, [x0, #88]
	strb	w25, [x0, #89]
	stur	xzr, [x0, #98]
	stur	xzr, [x0, #90]
	str	xzr, [x0, #104]
.Lpasetone_BB10_7:
	ldp	x20, x19, [sp, #432]
	ldr	x30, [sp, #352]
	ldp	x22, x21, [sp, #416]
	ldp	x24, x23, [sp, #400]
	ldp	x26, x25, [sp, #384]
	ldp	x28, x27, [sp, #368]
	add	sp, sp, #448
	.cfi_def_cfa_offset 0
	.cfi_restore w19
	.cfi_restore w20
	.cfi_restore w21
	.cfi_restore w22
	.cfi_restore w23
	.cfi_restore w24
	.cfi_restore w25
	.cfi_restore w26
	.cfi_restore w27
	.cfi_restore w28
	.cfi_restore w30
	ret
.Lpasetone_BB10_8:
	.cfi_restore_state
	adrp	x2, .Lpasetone_static.5
	add	x2, x2, :lo12:.Lpasetone_static.5
	fmov	s2, #10.00000000
	ldr	h1, [x2, x24, lsl #1]
	ldur	w4, [x1, #25]
	add	x2, sp, #144
	ldrb	w25, [x3]
	mov	w6, #1
	ucvtf	s1, s1
	movk	w6, #256, lsl #16
	orr	x26, x6, #0x100
	cmp	w25, #0
	fdiv	s1, s1, s2
	ldur	q2, [x1, #10]
	str	q2, [sp, #240]
	ldur	q2, [x1, #37]
	stur	w4, [x2, #111]
	ldur	w4, [x1, #52]
	str	q2, [sp, #208]
	stur	w4, [x2, #79]
	csel	x4, x6, x26, eq
	mov	w26, #1
	stp	x4, x26, [x5]
	fmov	w1, s1
	cbz	w25, .Lpasetone_BB10_10
	ldur	w6, [x2, #111]
	ldr	q1, [sp, #240]
	mov	x3, xzr
	ldr	q2, [sp, #208]
	mov	w4, wzr
	stur	w6, [x2, #47]
	ldur	w6, [x2, #79]
	str	q1, [sp, #176]
	str	q2, [sp, #144]
	ldr	q1, [sp, #176]
	stur	w6, [x2, #15]
	ldur	w6, [x2, #47]
	ldur	w2, [x2, #15]
	str	q1, [sp, #48]
	ldr	q1, [sp, #144]
	stur	w6, [sp, #63]
	mov	w6, #1
	b	.Lpasetone_BB10_20
.Lpasetone_BB10_10:
	adrp	x4, .Lpasetone_CPI10_0
	ldrb	w26, [x3, #1]
	adrp	x23, .Lpasetone_CPI10_1
	ldr	q2, [x4, :lo12:.Lpasetone_CPI10_0]
	adrp	x4, .Lpasetone_CPI10_2
	ldr	q3, [x23, :lo12:.Lpasetone_CPI10_1]
	cmp	w26, #0
	adrp	x23, .Lpasetone_CPI10_3
	mov	w25, #2
	stur	q2, [x2, #123]
	ldr	q2, [x4, :lo12:.Lpasetone_CPI10_2]
	adrp	x4, .Lpasetone_CPI10_4
	stur	q3, [x2, #139]
	ldr	q3, [x23, :lo12:.Lpasetone_CPI10_3]
	add	x23, x24, x24, lsl #1
	stur	q2, [x2, #155]
	ldr	q2, [x4, :lo12:.Lpasetone_CPI10_4]
	adrp	x4, .Lpasetone_CPI10_5
	orr	w20, w20, #0x10
	mov	w24, #5
	movk	w25, #512, lsl #16
	stur	q2, [x2, #187]
	ldr	d2, [x4, :lo12:.Lpasetone_CPI10_5]
	mov	w4, #256
	csel	x4, xzr, x4, eq
	orr	x24, x24, x20, lsl #8
	add	x27, sp, #264
	bfi	x4, x18, #16, #8
	stur	q3, [x2, #171]
	add	x27, x27, x23
	strb	wzr, [sp, #266]
	orr	x4, x4, x25
	strh	wzr, [sp, #264]
	stur	s2, [x2, #203]
	stp	x4, x24, [x5, #16]
	ldrb	w23, [x27]
	ldrb	w4, [x27, #1]
	ldrb	w24, [x27, #2]
	ldrb	w28, [x3, #2]
	cbz	w26, .Lpasetone_BB10_12
	add	x3, x6, #256
	cmp	w28, #0
	mov	w4, wzr
	csel	x3, x6, x3, eq
	mov	w6, #3
	mov	w23, #1
	stp	x3, xzr, [x5, #32]
	mov	w3, #1
	b	.Lpasetone_BB10_19
.Lpasetone_BB10_12:
	lsl	x26, x18, #16
	cmp	w28, #0
	mov	w22, #256
	lsl	w27, w21, #8
	csel	x22, xzr, x22, eq
	mov	w30, #61184
	orr	x22, x26, x22
	and	x27, x27, x30
	orr	x22, x22, x25
	orr	x27, x27, #0x7
	stp	x22, x27, [x5, #32]
	and	w27, w21, #0xffffffef
	ldrb	w22, [x3, #3]
	cbz	w28, .Lpasetone_BB10_14
	add	x3, x6, #256
	cmp	w22, #0
	mov	w23, wzr
	csel	x3, x6, x3, eq
	mov	w4, wzr
	mov	w22, #1
	stp	x3, xzr, [x5, #48]
	mov	w6, #4
	mov	w3, #2
	mov	w21, w27
	b	.Lpasetone_BB10_19
.Lpasetone_BB10_14:
	and	w20, w20, #0xf0
	cmp	w22, #0
	mov	w28, #256
	bfxil	w20, w23, #0, #4
	csel	x23, xzr, x28, eq
	mov	w28, #5
	orr	x23, x26, x23
	orr	x28, x28, x20, lsl #8
	orr	x23, x23, x25
	stp	x23, x28, [x5, #48]
	ldrb	w23, [x3, #4]
	cbz	w22, .Lpasetone_BB10_16
	add	x3, x6, #256
	cmp	w23, #0
	mov	w22, wzr
	csel	x3, x6, x3, eq
	mov	w4, wzr
	mov	w23, #1
	stp	x3, xzr, [x5, #64]
	mov	w6, #5
	mov	w3, #3
	mov	w21, w27
	b	.Lpasetone_BB10_19
.Lpasetone_BB10_16:
	and	w21, w21, #0xe0
	cmp	w23, #0
	bfxil	w21, w4, #0, #4
	mov	w4, #256
	csel	x4, xzr, x4, eq
	ubfiz	x22, x21, #8, #32
	orr	x4, x26, x4
	orr	x4, x4, x25
	orr	x22, x22, #0x7
	stp	x4, x22, [x5, #64]
	ldrb	w22, [x3, #5]
	cmp	w22, #0
	cset	w4, eq
	cbz	w23, .Lpasetone_BB10_18
	add	x3, x6, #256
	cmp	w22, #0
	mov	w23, wzr
	csel	x3, x6, x3, eq
	mov	w4, wzr
	mov	w22, #1
	stp	x3, xzr, [x5, #80]
	mov	w6, #6
	mov	w3, #4
	b	.Lpasetone_BB10_19
.Lpasetone_BB10_18:
	and	w15, w15, #0xf0
	mov	w19, #256
	mov	w22, wzr
	bfxil	w15, w24, #0, #4
	csel	x19, xzr, x19, eq
	mov	w24, #12
	orr	x19, x26, x19
	orr	x24, x24, x15, lsl #8
	orr	x19, x19, x25
	add	x25, x6, #256
	stp	x19, x24, [x5, #80]
	cset	w19, ne
	ldrb	w24, [x3, #6]
	mov	w3, #5
	csel	x3, xzr, x3, eq
	cmp	w24, #0
	csel	x6, x6, x25, eq
	stp	x6, xzr, [x5, #96]
	mov	w6, #7
.Lpasetone_BB10_19:
	ldur	w24, [x2, #111]
	ldr	q2, [sp, #240]
	cmp	w4, #0
	ldr	q3, [sp, #208]
	fcsel	s0, s1, s0, ne
	stur	w24, [x2, #47]
	ldur	w24, [x2, #79]
	str	q2, [sp, #176]
	str	q3, [sp, #144]
	ldr	q2, [sp, #176]
	stur	w24, [x2, #15]
	ldur	w24, [x2, #47]
	ldur	w2, [x2, #15]
	ldr	q1, [sp, #144]
	str	q2, [sp, #48]
	stur	w24, [sp, #63]
.Lpasetone_BB10_20:
	stur	w2, [sp, #31]
	lsl	x2, x6, #4
	str	q1, [sp, #16]
	ldr	q1, [sp, #48]
	and	w8, w8, #0x1
	cmp	w4, #0
	and	w11, w11, #0x1
	add	x5, x5, x2
	stp	w6, w2, [x5]
	strb	w8, [x0, #80]
	mov	w8, #2
	strb	w15, [x0, #9]
	ldur	w15, [sp, #63]
	csel	w8, wzr, w8, ne
	stur	q1, [x0, #10]
	ldr	q1, [sp, #16]
	str	w13, [x0, #32]
	ldur	w13, [sp, #31]
	strb	w8, [x0, #88]
	csel	x8, x1, x3, ne
	strb	w7, [x0]
	strb	w18, [x0, #1]
	strb	w20, [x0, #2]
	strb	w17, [x0, #3]
	strb	w21, [x0, #4]
	stur	w16, [x0, #5]
	stur	w15, [x0, #25]
	strb	w23, [x0, #29]
	strb	w14, [x0, #30]
	strb	w22, [x0, #31]
	strb	w19, [x0, #36]
	stp	w13, w12, [x0, #52]
	stur	q1, [x0, #37]
	str	w10, [x0, #60]
	strb	w11, [x0, #64]
	strb	wzr, [x0, #67]
	sturh	wzr, [x0, #65]
	str	s0, [x0, #68]
	str	x9, [x0, #72]
	str	wzr, [x0, #84]
	stur	wzr, [x0, #81]
	str	wzr, [x0, #92]
	stur	wzr, [x0, #89]
	stp	x8, x6, [x0, #96]
	b	.Lpasetone_BB10_7
.Lpasetone_func_end10:
	.size	"r82xx::Tuner::set_gain_by_index", .Lpasetone_func_end10-"r82xx::Tuner::set_gain_by_index"
	.cfi_endproc

	.section	".text.tuners::set_gain_by_index","ax",@progbits
	.p2align	2
	.type	"tuners::set_gain_by_index",@function
"tuners::set_gain_by_index":
	.cfi_startproc
	sub	sp, sp, #352
	.cfi_def_cfa_offset 352
	stp	x29, x30, [sp, #272]
	stp	x28, x25, [sp, #288]
	stp	x24, x23, [sp, #304]
	stp	x22, x21, [sp, #320]
	stp	x20, x19, [sp, #336]
	add	x29, sp, #272
	.cfi_def_cfa w29, 80
	.cfi_offset w19, -8
	.cfi_offset w20, -16
	.cfi_offset w21, -24
	.cfi_offset w22, -32
	.cfi_offset w23, -40
	.cfi_offset w24, -48
	.cfi_offset w25, -56
	.cfi_offset w28, -64
	.cfi_offset w30, -72
	.cfi_offset w29, -80
	mov	x19, x0
	mov	x0, sp
	mov	x20, x7
	mov	x21, x6
	mov	x22, x5
	mov	x23, x4
	mov	x24, x3
	bl	"records::decode_tuner"
	ldrb	w8, [sp]
	cmp	w8, #1
	b.ne	.Lpasetone_BB11_7
	ldr	x8, [x29, #88]
	cmp	x8, #78
	b.lo	.Lpasetone_BB11_8
	mov	x8, sp
	sub	x0, x29, #112
	mov	x2, x24
	add	x1, x8, #8
	mov	x3, x23
	mov	x4, x22
	mov	x5, x21
	mov	x6, x20
	add	x25, sp, #128
	bl	"r82xx::Tuner::set_gain_by_index"
	ldur	q0, [x25, #34]
	ldur	q1, [x25, #45]
	ldur	q2, [x25, #61]
	ldp	x9, x8, [x29, #-16]
	ldurb	w15, [x29, #-112]
	str	q0, [sp, #128]
	ldurb	w12, [x29, #-111]
	ldur	d0, [x29, #-56]
	stur	q1, [x25, #11]
	ldurb	w13, [x29, #-48]
	ldur	s1, [x29, #-44]
	str	q2, [sp, #96]
	ldur	q2, [x25, #72]
	ldur	x11, [x29, #-40]
	ldurb	w10, [x29, #-24]
	ldurb	w14, [x29, #-32]
	stur	q2, [sp, #107]
	cbz	w10, .Lpasetone_BB11_9
	cbnz	x8, .Lpasetone_BB11_9
	cbz	w10, .Lpasetone_BB11_10
.Lpasetone_BB11_5:
	cmp	w10, #2
	b.ne	.Lpasetone_BB11_11
	mov	x11, xzr
	mov	w10, #11
	b	.Lpasetone_BB11_12
.Lpasetone_BB11_7:
	mov	x11, xzr
	mov	x9, xzr
	mov	w8, wzr
	mov	w10, #1
	b	.Lpasetone_BB11_12
.Lpasetone_BB11_8:
	mov	x11, xzr
	mov	x9, xzr
	mov	w8, wzr
	mov	w10, #8
	b	.Lpasetone_BB11_12
.Lpasetone_BB11_9:
	ldr	x16, [x29, #80]
	ldr	q2, [sp, #128]
	and	w13, w13, #0x1
	ldur	q3, [x25, #11]
	stur	q2, [x16, #2]
	fmov	s2, s1
	strb	w12, [x16, #1]
	fmov	w12, s1
	ldur	q1, [sp, #107]
	strb	w15, [x16]
	mov	w15, #2143289344
	stur	d0, [x16, #29]
	ldr	q0, [sp, #96]
	fcmp	s2, s2
	stur	q3, [x16, #13]
	strb	w13, [x16, #37]
	stur	x11, [x16, #42]
	csel	w12, w15, w12, vs
	stur	q0, [x16, #51]
	stur	w12, [x16, #38]
	and	w12, w14, #0x1
	strb	w12, [x16, #50]
	stur	q1, [x16, #62]
	cbnz	w10, .Lpasetone_BB11_5
.Lpasetone_BB11_10:
	mov	x11, x9
	mov	x9, x10
	b	.Lpasetone_BB11_12
.Lpasetone_BB11_11:
	ldurb	w10, [x29, #-23]
	mov	x11, xzr
	mov	x9, xzr
.Lpasetone_BB11_12:
	stp	x11, x9, [x19]
	stp	w10, w8, [x19, #16]
	.cfi_def_cfa wsp, 352
	ldp	x20, x19, [sp, #336]
	ldp	x22, x21, [sp, #320]
	ldp	x24, x23, [sp, #304]
	ldp	x28, x25, [sp, #288]
	ldp	x29, x30, [sp, #272]
	add	sp, sp, #352
	.cfi_def_cfa_offset 0
	.cfi_restore w19
	.cfi_restore w20
	.cfi_restore w21
	.cfi_restore w22
	.cfi_restore w23
	.cfi_restore w24
	.cfi_restore w25
	.cfi_restore w28
	.cfi_restore w30
	.cfi_restore w29
	ret
.Lpasetone_func_end11:
	.size	"tuners::set_gain_by_index", .Lpasetone_func_end11-"tuners::set_gain_by_index"
	.cfi_endproc

	.section	".text.tuners::set_bandwidth","ax",@progbits
	.p2align	2
	.type	"tuners::set_bandwidth",@function
"tuners::set_bandwidth":
	.cfi_startproc
	str	d8, [sp, #-112]!
	.cfi_def_cfa_offset 112
	stp	x29, x30, [sp, #16]
	stp	x28, x27, [sp, #32]
	stp	x26, x25, [sp, #48]
	stp	x24, x23, [sp, #64]
	stp	x22, x21, [sp, #80]
	stp	x20, x19, [sp, #96]
	add	x29, sp, #16
	.cfi_def_cfa w29, 96
	.cfi_offset w19, -8
	.cfi_offset w20, -16
	.cfi_offset w21, -24
	.cfi_offset w22, -32
	.cfi_offset w23, -40
	.cfi_offset w24, -48
	.cfi_offset w25, -56
	.cfi_offset w26, -64
	.cfi_offset w27, -72
	.cfi_offset w28, -80
	.cfi_offset w30, -88
	.cfi_offset w29, -96
	.cfi_offset b8, -112
	.cfi_remember_state
	sub	sp, sp, #496
	mov	x19, x0
	mov	x0, sp
	mov	x23, x7
	mov	x20, x6
	mov	x22, x5
	mov	x21, x4
	mov	w24, w3
	mov	x28, sp
	bl	"records::decode_tuner"
	ldrb	w8, [sp]
	cmp	w8, #1
	b.ne	.Lpasetone_BB12_6
	ldr	x8, [x29, #104]
	cmp	x8, #78
	mov	w8, #8
	b.lo	.Lpasetone_BB12_7
	mov	w9, #53185
	mov	w10, #36225
	movi	v0.2d, #0000000000000000
	movk	w9, #106, lsl #16
	movk	w10, #91, lsl #16
	ldrb	w14, [sp, #8]
	cmp	w24, w9
	mov	w9, #6
	ldrb	w11, [sp, #9]
	csel	w9, w9, wzr, lo
	cmp	w24, w10
	ldrb	w15, [sp, #72]
	ldp	w27, w24, [sp, #64]
	csel	w8, w8, w9, lo
	ldr	s8, [sp, #76]
	ldr	x16, [sp, #80]
	ldrb	w17, [sp, #88]
	add	x25, sp, #128
	mov	w10, #10
	mov	w9, #15
	strb	w8, [sp, #221]
	sub	x26, x29, #128
	mov	w8, #1
	stp	xzr, xzr, [sp, #128]
	str	xzr, [sp, #144]
	stur	wzr, [x25, #23]
	stp	xzr, xzr, [sp, #104]
	str	xzr, [sp, #96]
	stur	wzr, [sp, #119]
	stp	xzr, xzr, [sp, #200]
	str	xzr, [sp, #192]
	stur	wzr, [x25, #87]
	stp	xzr, xzr, [sp, #168]
	str	xzr, [sp, #160]
	stur	wzr, [x25, #55]
	strb	w10, [sp, #220]
	strb	w9, [sp, #222]
	stur	xzr, [x29, #-144]
	stp	q0, q0, [x29, #-208]
	stp	q0, q0, [x29, #-176]
	stur	q0, [x29, #-224]
	cbz	w27, .Lpasetone_BB12_10
	cbz	w24, .Lpasetone_BB12_10
	cmp	x23, #56
	b.hs	.Lpasetone_BB12_8
	mov	w8, #8
	b	.Lpasetone_BB12_10
.Lpasetone_BB12_6:
	mov	x11, xzr
	mov	x10, xzr
	mov	w9, wzr
	mov	w8, #1
	b	.Lpasetone_BB12_19
.Lpasetone_BB12_7:
	mov	x11, xzr
	mov	x10, xzr
	mov	w9, wzr
	b	.Lpasetone_BB12_19
.Lpasetone_BB12_8:
	cmp	x22, #2
	b.hi	.Lpasetone_BB12_20
	mov	w8, #9
.Lpasetone_BB12_10:
	ldur	q0, [x28, #10]
	ldur	q1, [x28, #21]
	mov	x10, xzr
	ldur	q2, [x28, #37]
	mov	x9, xzr
	mov	w12, #1
	str	q0, [sp, #256]
	ldur	q0, [x28, #48]
	stur	q1, [x25, #139]
	str	q2, [sp, #224]
.Lpasetone_BB12_11:
	stur	q0, [x25, #107]
	ldur	q0, [x25, #139]
	ldr	q1, [sp, #256]
	stur	q0, [x25, #75]
	ldr	q0, [sp, #224]
	str	q1, [sp, #192]
	ldur	q1, [x25, #107]
	str	q0, [sp, #160]
	ldur	q0, [x25, #75]
	stur	q1, [x25, #43]
	ldr	q1, [sp, #192]
	stur	q0, [x25, #11]
	ldur	q0, [x25, #43]
	str	q1, [sp, #128]
	ldr	q1, [sp, #160]
	stur	q0, [sp, #107]
	ldur	q0, [x25, #11]
	str	q1, [sp, #96]
	ldr	q1, [sp, #128]
	stur	q0, [x26, #11]
	ldur	q0, [sp, #107]
	stur	q1, [x29, #-128]
	ldr	q1, [sp, #96]
	stur	q0, [x25, #171]
	stur	q1, [x29, #-224]
	cbz	w12, .Lpasetone_BB12_16
	cbnz	x9, .Lpasetone_BB12_16
	cbz	w12, .Lpasetone_BB12_17
.Lpasetone_BB12_14:
	cmp	w12, #2
	b.ne	.Lpasetone_BB12_18
	mov	x11, xzr
	mov	w8, #11
	b	.Lpasetone_BB12_19
.Lpasetone_BB12_16:
	ldr	x13, [x29, #96]
	ldur	q0, [x29, #-128]
	and	w15, w15, #0x1
	ldur	q1, [x26, #11]
	stur	q0, [x13, #2]
	fmov	s0, s8
	strb	w11, [x13, #1]
	fmov	w11, s8
	strb	w14, [x13]
	mov	w14, #2143289344
	stur	q1, [x13, #13]
	ldur	q1, [x25, #171]
	fcmp	s0, s0
	stur	w27, [x13, #29]
	ldur	q0, [x29, #-224]
	stur	w24, [x13, #33]
	strb	w15, [x13, #37]
	csel	w11, w14, w11, vs
	stur	x16, [x13, #42]
	stur	w11, [x13, #38]
	and	w11, w17, #0x1
	strb	w11, [x13, #50]
	stur	q0, [x13, #51]
	stur	q1, [x13, #62]
	cbnz	w12, .Lpasetone_BB12_14
.Lpasetone_BB12_17:
	mov	w8, w12
	mov	x11, x10
	mov	x10, x8
	mov	w8, w12
	b	.Lpasetone_BB12_19
.Lpasetone_BB12_18:
	mov	x11, xzr
	mov	x10, xzr
.Lpasetone_BB12_19:
	stp	x11, x10, [x19]
	stp	w8, w9, [x19, #16]
	add	sp, sp, #496
	.cfi_def_cfa wsp, 112
	ldp	x20, x19, [sp, #96]
	ldp	x22, x21, [sp, #80]
	ldp	x24, x23, [sp, #64]
	ldp	x26, x25, [sp, #48]
	ldp	x28, x27, [sp, #32]
	ldp	x29, x30, [sp, #16]
	ldr	d8, [sp], #112
	.cfi_def_cfa_offset 0
	.cfi_restore w19
	.cfi_restore w20
	.cfi_restore w21
	.cfi_restore w22
	.cfi_restore w23
	.cfi_restore w24
	.cfi_restore w25
	.cfi_restore w26
	.cfi_restore w27
	.cfi_restore w28
	.cfi_restore w30
	.cfi_restore w29
	.cfi_restore b8
	ret
.Lpasetone_BB12_20:
	.cfi_restore_state
	ldur	q0, [x28, #10]
	movi	v3.2d, #0000000000000000
	ldur	q1, [x28, #21]
	ldur	q2, [x28, #37]
	sub	x0, x29, #224
	sub	x1, x29, #128
	stur	q0, [x26, #1]
	ldur	q0, [x28, #48]
	add	x2, sp, #220
	mov	w3, #1
	mov	x4, x21
	mov	x5, x20
	sturb	w11, [x29, #-128]
	mov	x21, x16
	mov	w22, w17
	stur	q1, [x26, #12]
	mov	w23, w15
	mov	w28, w14
	stur	q2, [x26, #28]
	stur	q0, [x26, #39]
	stur	q3, [x26, #55]
	stur	q3, [x26, #71]
	sturb	wzr, [x29, #-41]
	bl	"chip::with_repeater"
	ldur	x9, [x29, #-168]
	ldur	q0, [x25, #161]
	mov	w13, #2
	ldurb	w12, [x29, #-160]
	ldur	q1, [x25, #172]
	mov	w14, w28
	lsl	x10, x9, #4
	str	q0, [sp, #256]
	ldur	q0, [x25, #188]
	cmp	w12, #0
	mov	w15, w23
	mov	w17, w22
	add	x11, x20, x10
	str	q0, [sp, #224]
	ldur	q0, [x25, #199]
	stp	w9, w10, [x11]
	ldur	x10, [x29, #-152]
	ldurb	w11, [x29, #-224]
	mov	x16, x21
	mov	w8, wzr
	csel	w12, wzr, w13, eq
	csel	x10, xzr, x10, eq
	stur	q1, [x25, #139]
	b	.Lpasetone_BB12_11
.Lpasetone_func_end12:
	.size	"tuners::set_bandwidth", .Lpasetone_func_end12-"tuners::set_bandwidth"
	.cfi_endproc

	.section	.rodata.cst8,"aM",@progbits,8
	.p2align	3, 0x0
.Lpasetone_CPI13_0:
	.word	1
	.word	0
	.section	".text.drivers::set_ppm","ax",@progbits
	.p2align	2
	.type	"drivers::set_ppm",@function
"drivers::set_ppm":
	.cfi_startproc
	sub	sp, sp, #496
	.cfi_def_cfa_offset 496
	stp	x29, x30, [sp, #400]
	stp	x28, x27, [sp, #416]
	stp	x26, x25, [sp, #432]
	stp	x24, x23, [sp, #448]
	stp	x22, x21, [sp, #464]
	stp	x20, x19, [sp, #480]
	add	x29, sp, #400
	.cfi_def_cfa w29, 96
	.cfi_offset w19, -8
	.cfi_offset w20, -16
	.cfi_offset w21, -24
	.cfi_offset w22, -32
	.cfi_offset w23, -40
	.cfi_offset w24, -48
	.cfi_offset w25, -56
	.cfi_offset w26, -64
	.cfi_offset w27, -72
	.cfi_offset w28, -80
	.cfi_offset w30, -88
	.cfi_offset w29, -96
	.cfi_remember_state
	mov	x25, #13531
	mov	x21, x3
	cmp	x4, #29
	movk	x25, #55222, lsl #16
	add	x22, sp, #192
	stp	x5, x0, [sp, #16]
	movk	x25, #56962, lsl #32
	movk	x25, #17179, lsl #48
	b.ne	.Lpasetone_BB13_4
	ldur	w8, [x21, #1]
	ldursw	x9, [x21, #5]
	mov	x26, xzr
	mov	w24, wzr
	mul	x10, x9, x8
	smulh	x10, x10, x25
	asr	x11, x10, #18
	add	x11, x11, x10, lsr #63
	ldrb	w10, [x21]
	add	x12, x11, x8
	mov	x11, #4294967296
	cmp	x12, x11
	csel	x11, x12, x11, lo
	cmp	w10, #1
	b.hi	.Lpasetone_BB13_22
	mov	x13, #-4294967296
	mov	w11, w11
	mov	w27, w24
	add	x12, x12, x13
	mov	x13, #-4294967295
	mov	w19, w24
	cmp	x12, x13
	mov	w20, w24
	mov	w23, w24
	ccmp	x11, #0, #4, hs
	mov	x28, x26
	b.eq	.Lpasetone_BB13_5
	ldur	x28, [x21, #21]
	cmp	w10, #1
	ldur	w23, [x21, #17]
	ldur	x26, [x21, #9]
	cset	w27, eq
	mov	w24, #1
	mov	w19, w8
	mov	w20, w9
	b	.Lpasetone_BB13_5
.Lpasetone_BB13_4:
	mov	w24, wzr
	mov	w27, wzr
	mov	w19, wzr
	mov	w20, wzr
	mov	x26, xzr
	mov	w23, wzr
	mov	x28, xzr
.Lpasetone_BB13_5:
	add	x0, sp, #96
	str	x1, [sp, #8]
	bl	"records::decode_tuner"
	ldrb	w8, [sp, #96]
	stp	xzr, xzr, [x29, #-40]
	stur	xzr, [x29, #-48]
	stur	wzr, [x22, #183]
	stp	xzr, xzr, [x29, #-72]
	stur	xzr, [x29, #-80]
	stur	wzr, [x22, #151]
	stp	xzr, xzr, [x29, #-104]
	stur	xzr, [x29, #-112]
	stur	wzr, [x22, #119]
	stp	xzr, xzr, [x29, #-144]
	stur	xzr, [x29, #-128]
	stur	wzr, [x22, #87]
	cbz	w24, .Lpasetone_BB13_8
	cmp	w8, #1
	cset	w15, eq
	b.ne	.Lpasetone_BB13_9
	ldur	q0, [sp, #106]
	ldur	q1, [sp, #117]
	mov	w5, w23
	ldrb	w8, [sp, #168]
	ldrb	w16, [sp, #184]
	mov	w7, w19
	stur	q0, [x29, #-112]
	ldur	q0, [sp, #133]
	ldrb	w10, [sp, #104]
	ldp	w14, w13, [sp, #160]
	stur	q1, [x22, #107]
	and	w12, w8, #0x1
	and	w8, w16, #0x1
	ldrb	w11, [sp, #105]
	stur	q0, [x29, #-144]
	ldr	q1, [sp, #144]
	ldr	s0, [sp, #172]
	ldr	x9, [sp, #176]
	stur	q1, [x22, #75]
	b	.Lpasetone_BB13_10
.Lpasetone_BB13_8:
	mov	w8, wzr
	mov	x9, xzr
	mov	w12, wzr
	mov	w10, wzr
	mov	w11, wzr
	mov	w14, wzr
	mov	w13, wzr
	mov	w27, wzr
	mov	w7, wzr
	mov	w20, wzr
	mov	x26, xzr
	mov	w5, wzr
	mov	x28, xzr
	movi	d0, #0000000000000000
	mov	w15, wzr
	b	.Lpasetone_BB13_11
.Lpasetone_BB13_9:
	mov	w8, wzr
	mov	x9, xzr
	mov	w12, wzr
	mov	w10, wzr
	mov	w11, wzr
	mov	w14, wzr
	mov	w13, wzr
	mov	w27, wzr
	mov	w7, wzr
	mov	w20, wzr
	mov	x26, xzr
	mov	w5, wzr
	movi	d0, #0000000000000000
	mov	x28, xzr
.Lpasetone_BB13_10:
	ldur	q1, [x29, #-112]
	ldur	q2, [x22, #107]
	ldur	q3, [x29, #-144]
	stur	q1, [x29, #-48]
	ldur	q1, [x22, #75]
	stur	q2, [x22, #171]
	stur	q3, [x29, #-80]
	stur	q1, [x22, #139]
.Lpasetone_BB13_11:
	ldur	q1, [x22, #171]
	ldur	q2, [x29, #-48]
	stur	q1, [x22, #43]
	ldur	q1, [x29, #-80]
	stur	q2, [x29, #-176]
	ldur	q2, [x22, #139]
	str	q1, [sp, #192]
	ldur	q1, [x22, #43]
	stur	q2, [x22, #11]
	ldur	q2, [x29, #-176]
	stur	q1, [sp, #75]
	ldur	q1, [x22, #11]
	str	q2, [sp, #64]
	ldr	q2, [sp, #192]
	stur	q1, [sp, #43]
	str	q2, [sp, #32]
	cbz	w15, .Lpasetone_BB13_20
	sxtw	x15, w20
	mov	w17, w7
	mov	w16, wzr
	mul	x15, x15, x17
	smulh	x15, x15, x25
	asr	x18, x15, #18
	add	x15, x18, x15, lsr #63
	add	x0, x15, x17
	mov	x15, #4294967296
	cmp	x0, x15
	csel	x18, x0, x15, lo
	mov	w15, #1
	cbz	w14, .Lpasetone_BB13_17
	cbz	w13, .Lpasetone_BB13_17
	sub	x0, x0, #1
	mov	w1, #-2
	cmp	x0, x1
	b.hi	.Lpasetone_BB13_17
	mov	w18, w18
	cbz	x18, .Lpasetone_BB13_17
	ldr	x3, [sp, #16]
	mov	w16, w14
	mov	w2, #-1
	sxtw	x15, w3
	mul	x18, x16, x15
	mul	x15, x17, x15
	smulh	x18, x18, x25
	smulh	x15, x15, x25
	asr	x0, x18, #18
	add	x18, x0, x18, lsr #63
	asr	x1, x15, #18
	mov	x0, #4294967296
	add	x16, x18, x16
	add	x15, x1, x15, lsr #63
	cmp	x16, x0
	sub	x18, x16, #1
	csel	x1, x16, x0, lo
	cmp	x18, x2
	add	x15, x15, x17
	ccmp	w1, #0, #4, lo
	sub	x17, x15, #1
	cset	w16, ne
	cmp	x15, x0
	csel	x15, x15, x0, lo
	cmp	x17, x2
	ccmp	w15, #0, #4, lo
	cset	w15, ne
	ands	w16, w16, w15
	mov	w15, #4
	csel	w13, w1, w13, ne
	csel	w20, w3, w20, ne
	csel	w15, wzr, w15, ne
.Lpasetone_BB13_17:
	tbz	w16, #0, .Lpasetone_BB13_19
	fmov	s2, s0
	ldr	q1, [sp, #64]
	ldr	x16, [sp, #8]
	strb	w27, [x21]
	mov	w15, wzr
	stur	w7, [x21, #1]
	stur	w20, [x21, #5]
	stur	x26, [x21, #9]
	fcmp	s2, s2
	stur	w5, [x21, #17]
	stur	x28, [x21, #21]
	strb	w10, [x16]
	fmov	w10, s0
	ldr	q0, [sp, #32]
	stur	q1, [x16, #2]
	ldur	q1, [sp, #75]
	strb	w11, [x16, #1]
	mov	w11, #2143289344
	stur	q1, [x16, #13]
	ldur	q1, [sp, #43]
	csel	w10, w11, w10, vs
	stur	w14, [x16, #29]
	stur	w13, [x16, #33]
	strb	w12, [x16, #37]
	stur	w10, [x16, #38]
	stur	x9, [x16, #42]
	strb	w8, [x16, #50]
	stur	q0, [x16, #51]
	stur	q1, [x16, #62]
.Lpasetone_BB13_19:
	ldr	x8, [sp, #24]
	stp	xzr, xzr, [x8]
	stp	w15, wzr, [x8, #16]
	b	.Lpasetone_BB13_21
.Lpasetone_BB13_20:
	movi	d0, #0000000000000000
	adrp	x8, .Lpasetone_CPI13_0
	ldr	d1, [x8, :lo12:.Lpasetone_CPI13_0]
	ldr	x8, [sp, #24]
	str	d1, [x8, #16]
	mov	v0.d[1], v0.d[0]
	str	q0, [x8]
.Lpasetone_BB13_21:
	.cfi_def_cfa wsp, 496
	ldp	x20, x19, [sp, #480]
	ldp	x22, x21, [sp, #464]
	ldp	x24, x23, [sp, #448]
	ldp	x26, x25, [sp, #432]
	ldp	x28, x27, [sp, #416]
	ldp	x29, x30, [sp, #400]
	add	sp, sp, #496
	.cfi_def_cfa_offset 0
	.cfi_restore w19
	.cfi_restore w20
	.cfi_restore w21
	.cfi_restore w22
	.cfi_restore w23
	.cfi_restore w24
	.cfi_restore w25
	.cfi_restore w26
	.cfi_restore w27
	.cfi_restore w28
	.cfi_restore w30
	.cfi_restore w29
	ret
.Lpasetone_BB13_22:
	.cfi_restore_state
	mov	w27, w24
	mov	w19, w24
	mov	w20, w24
	mov	w23, w24
	mov	x28, x26
	b	.Lpasetone_BB13_5
.Lpasetone_func_end13:
	.size	"drivers::set_ppm", .Lpasetone_func_end13-"drivers::set_ppm"
	.cfi_endproc

	.section	".text.tuners::reload","ax",@progbits
	.p2align	2
	.type	"tuners::reload",@function
"tuners::reload":
	.cfi_startproc
	sub	sp, sp, #464
	.cfi_def_cfa_offset 464
	str	d8, [sp, #352]
	stp	x29, x30, [sp, #368]
	stp	x28, x27, [sp, #384]
	stp	x26, x25, [sp, #400]
	stp	x24, x23, [sp, #416]
	stp	x22, x21, [sp, #432]
	stp	x20, x19, [sp, #448]
	add	x29, sp, #368
	.cfi_def_cfa w29, 96
	.cfi_offset w19, -8
	.cfi_offset w20, -16
	.cfi_offset w21, -24
	.cfi_offset w22, -32
	.cfi_offset w23, -40
	.cfi_offset w24, -48
	.cfi_offset w25, -56
	.cfi_offset w26, -64
	.cfi_offset w27, -72
	.cfi_offset w28, -80
	.cfi_offset w30, -88
	.cfi_offset w29, -96
	.cfi_offset b8, -112
	mov	x19, x0
	mov	x0, sp
	mov	x20, x7
	mov	x24, x6
	mov	x21, x5
	mov	x23, x4
	mov	x22, x3
	mov	x27, sp
	bl	"records::decode_tuner"
	ldrb	w8, [sp]
	cmp	w8, #1
	b.ne	.Lpasetone_BB14_6
	ldr	x8, [x29, #96]
	cmp	x8, #78
	b.lo	.Lpasetone_BB14_7
	ldp	w28, w26, [sp, #64]
	ldrb	w13, [sp, #8]
	ldrb	w11, [sp, #9]
	add	x25, sp, #128
	ldrb	w14, [sp, #72]
	ldr	s8, [sp, #76]
	mov	w8, #1
	ldr	x15, [sp, #80]
	ldrb	w16, [sp, #88]
	cbz	w28, .Lpasetone_BB14_10
	cbz	w26, .Lpasetone_BB14_10
	cmp	x24, #152
	b.hs	.Lpasetone_BB14_8
	mov	w8, #8
	b	.Lpasetone_BB14_10
.Lpasetone_BB14_6:
	mov	x11, xzr
	mov	x10, xzr
	mov	w9, wzr
	mov	w8, #1
	b	.Lpasetone_BB14_19
.Lpasetone_BB14_7:
	mov	x11, xzr
	mov	x10, xzr
	mov	w9, wzr
	mov	w8, #8
	b	.Lpasetone_BB14_19
.Lpasetone_BB14_8:
	cmp	x23, #8
	b.hi	.Lpasetone_BB14_16
	mov	w8, #9
.Lpasetone_BB14_10:
	ldur	q0, [x27, #10]
	ldur	q1, [x27, #21]
	mov	x10, xzr
	ldur	q2, [x27, #37]
	mov	x9, xzr
	mov	w12, #1
	str	q0, [sp, #128]
	ldur	q0, [x27, #48]
	stur	q1, [x25, #11]
	str	q2, [sp, #96]
	stur	q0, [sp, #107]
	cbz	w12, .Lpasetone_BB14_17
.Lpasetone_BB14_11:
	cbnz	x9, .Lpasetone_BB14_17
	cbz	w12, .Lpasetone_BB14_18
.Lpasetone_BB14_13:
	cmp	w12, #2
	b.ne	.Lpasetone_BB14_15
	mov	x11, xzr
	mov	w8, #11
	b	.Lpasetone_BB14_19
.Lpasetone_BB14_15:
	mov	x11, xzr
	mov	x10, xzr
	b	.Lpasetone_BB14_19
.Lpasetone_BB14_16:
	ldur	q0, [x27, #10]
	movi	v3.2d, #0000000000000000
	ldur	q1, [x27, #21]
	ldur	q2, [x27, #37]
	sub	x0, x29, #120
	add	x1, sp, #160
	stur	q0, [x25, #33]
	ldur	q0, [x27, #48]
	add	x2, x27, #10
	mov	x3, x22
	mov	x4, x21
	strb	w11, [sp, #160]
	stur	q1, [x25, #44]
	mov	x22, x15
	mov	w23, w16
	stur	q2, [x25, #60]
	mov	w24, w14
	mov	w27, w13
	stur	q0, [x25, #71]
	stur	q3, [x25, #87]
	stur	q3, [x25, #103]
	strb	wzr, [sp, #247]
	bl	"writes::send_all"
	ldur	x9, [x29, #-64]
	ldur	q0, [x25, #121]
	mov	w13, #2
	ldurb	w12, [x29, #-56]
	ldur	q1, [x25, #132]
	mov	w14, w24
	lsl	x10, x9, #4
	str	q0, [sp, #128]
	ldur	q0, [x25, #148]
	cmp	w12, #0
	mov	w16, w23
	mov	x15, x22
	add	x11, x21, x10
	str	q0, [sp, #96]
	ldur	q0, [x25, #159]
	stp	w9, w10, [x11]
	ldur	x10, [x29, #-48]
	ldurb	w11, [x29, #-120]
	mov	w8, wzr
	csel	w12, wzr, w13, eq
	mov	w13, w27
	csel	x10, xzr, x10, eq
	stur	q1, [x25, #11]
	stur	q0, [sp, #107]
	cbnz	w12, .Lpasetone_BB14_11
.Lpasetone_BB14_17:
	ldr	q0, [sp, #128]
	strb	w11, [x20, #1]
	fmov	w11, s8
	ldur	q1, [x25, #11]
	strb	w13, [x20]
	mov	w13, #2143289344
	stur	q0, [x20, #2]
	fmov	s0, s8
	and	w14, w14, #0x1
	stur	q1, [x20, #13]
	ldur	q1, [sp, #107]
	stur	w28, [x20, #29]
	stur	w26, [x20, #33]
	fcmp	s0, s0
	strb	w14, [x20, #37]
	ldr	q0, [sp, #96]
	stur	x15, [x20, #42]
	csel	w11, w13, w11, vs
	stur	q0, [x20, #51]
	stur	w11, [x20, #38]
	and	w11, w16, #0x1
	strb	w11, [x20, #50]
	stur	q1, [x20, #62]
	cbnz	w12, .Lpasetone_BB14_13
.Lpasetone_BB14_18:
	mov	w8, w12
	mov	x11, x10
	mov	x10, x8
	mov	w8, w12
.Lpasetone_BB14_19:
	stp	x11, x10, [x19]
	stp	w8, w9, [x19, #16]
	.cfi_def_cfa wsp, 464
	ldp	x20, x19, [sp, #448]
	ldr	d8, [sp, #352]
	ldp	x22, x21, [sp, #432]
	ldp	x24, x23, [sp, #416]
	ldp	x26, x25, [sp, #400]
	ldp	x28, x27, [sp, #384]
	ldp	x29, x30, [sp, #368]
	add	sp, sp, #464
	.cfi_def_cfa_offset 0
	.cfi_restore w19
	.cfi_restore w20
	.cfi_restore w21
	.cfi_restore w22
	.cfi_restore w23
	.cfi_restore w24
	.cfi_restore w25
	.cfi_restore w26
	.cfi_restore w27
	.cfi_restore w28
	.cfi_restore w30
	.cfi_restore w29
	.cfi_restore b8
	ret
.Lpasetone_func_end14:
	.size	"tuners::reload", .Lpasetone_func_end14-"tuners::reload"
	.cfi_endproc

	.section	".text.writes::send_all","ax",@progbits
	.p2align	2
	.type	"writes::send_all",@function
"writes::send_all":
	.cfi_startproc
	sub	sp, sp, #240
	.cfi_def_cfa_offset 240
	str	x30, [sp, #144]
	stp	x28, x27, [sp, #160]
	stp	x26, x25, [sp, #176]
	stp	x24, x23, [sp, #192]
	stp	x22, x21, [sp, #208]
	stp	x20, x19, [sp, #224]
	.cfi_offset w19, -8
	.cfi_offset w20, -16
	.cfi_offset w21, -24
	.cfi_offset w22, -32
	.cfi_offset w23, -40
	.cfi_offset w24, -48
	.cfi_offset w25, -56
	.cfi_offset w26, -64
	.cfi_offset w27, -72
	.cfi_offset w28, -80
	.cfi_offset w30, -96
	.cfi_remember_state
	ldrb	w8, [x1, #14]
	ldrh	w9, [x1, #12]
	mov	w28, #1
	ldr	w10, [x1, #24]
	ldr	w12, [x1, #8]
	movk	w28, #256, lsl #16
	orr	w8, w9, w8, lsl #16
	ldur	w9, [x1, #35]
	ldur	w15, [x1, #31]
	str	w10, [sp, #44]
	ldr	w10, [x1, #28]
	ldrb	w11, [x1]
	orr	x13, x12, x8, lsl #32
	ldur	w8, [x1, #38]
	ldrh	w12, [x2, #14]
	str	w10, [sp, #128]
	ldurh	w10, [x1, #21]
	ldrb	w17, [x1, #7]
	str	w9, [sp, #152]
	ldr	w9, [x1, #44]
	ldurh	w21, [x1, #5]
	stur	w8, [sp, #155]
	ldur	w8, [x1, #47]
	ldur	w30, [x1, #1]
	str	x12, [sp]
	ldrb	w12, [x2, #22]
	ldurh	w5, [x1, #15]
	str	w10, [sp, #28]
	ldur	w10, [x1, #17]
	ldrb	w18, [x1, #23]
	str	w9, [sp, #120]
	ldrh	w6, [x1, #42]
	ldrb	w14, [x1, #55]
	stur	w8, [sp, #123]
	ldur	w8, [x1, #51]
	ldr	x27, [x1, #72]
	str	w12, [sp, #12]
	ldrh	w12, [x2, #20]
	ldrb	w26, [x1, #80]
	stur	w15, [sp, #131]
	ldrb	w23, [x1, #81]
	ldrh	w15, [x1, #82]
	str	x10, [sp, #32]
	ldrb	w16, [x1, #84]
	ldrb	w24, [x1, #85]
	str	w8, [sp, #40]
	ldrh	w25, [x1, #86]
	ldrb	w9, [x2, #6]
	ldrh	w10, [x2, #4]
	ldr	w8, [x2]
	ldrb	w7, [x2, #13]
	ldurh	w19, [x2, #11]
	str	w12, [sp, #8]
	ldr	w12, [x2, #16]
	stur	xzr, [sp, #86]
	ldp	x22, x20, [x1, #56]
	ldur	w1, [x2, #7]
	ldur	w2, [x2, #23]
	str	xzr, [sp, #80]
	str	wzr, [sp, #72]
	tst	x20, #0xff
	stur	wzr, [sp, #75]
	str	xzr, [sp, #56]
	stur	xzr, [sp, #62]
	str	x12, [sp, #16]
	str	wzr, [sp, #48]
	stur	wzr, [sp, #51]
	b.eq	.Lpasetone_BB15_4
	and	x12, x20, #0xffffffffffffff00
	tst	w20, #0xff
	b.eq	.Lpasetone_BB15_5
.Lpasetone_BB15_2:
	orr	w8, w21, w17, lsl #16
	orr	x17, x30, x8, lsl #32
	tbz	w26, #0, .Lpasetone_BB15_11
	ldrb	w8, [x3, x22]
	add	x9, x4, x22, lsl #4
	add	x10, x28, #256
	mov	w23, wzr
	mov	w24, wzr
	mov	w25, wzr
	cmp	w8, #0
	add	x22, x22, #1
	and	x26, x20, #0xff
	csel	x8, x28, x10, eq
	stp	x8, xzr, [x9]
	b	.Lpasetone_BB15_12
.Lpasetone_BB15_4:
	ldrb	w20, [x3, x22]
	add	x27, x4, x22, lsl #4
	add	x26, x28, #256
	mov	x12, xzr
	mov	w23, wzr
	mov	w24, wzr
	cmp	w20, #0
	mov	w25, wzr
	csel	x20, x28, x26, eq
	mov	w28, #1
	cset	w26, eq
	stp	x20, x28, [x27]
	mov	w28, #1
	cset	w20, ne
	movk	w28, #256, lsl #16
	csel	x27, xzr, x22, eq
	add	x22, x22, #1
	tst	w20, #0xff
	b.ne	.Lpasetone_BB15_2
.Lpasetone_BB15_5:
	ldrb	w12, [x3, x22]
	orr	w9, w10, w9, lsl #16
	mov	w10, #256
	mov	w20, w14
	add	x14, x4, x22, lsl #4
	add	x21, x22, #1
	cmp	w12, #0
	orr	x17, x8, x9, lsl #32
	mov	w8, #2
	csel	x10, x10, xzr, ne
	mov	w9, #5
	movk	w8, #2048, lsl #16
	bfi	x10, x11, #16, #8
	orr	x9, x9, x17, lsl #8
	cset	w27, ne
	orr	x10, x10, x8
	stp	x10, x9, [x14]
	cbz	w12, .Lpasetone_BB15_19
	tbz	w26, #0, .Lpasetone_BB15_8
	ldrb	w8, [x3, x21]
	add	x9, x4, x21, lsl #4
	add	x10, x28, #256
	add	x21, x22, #2
	cmp	w8, #0
	csel	x8, x28, x10, eq
	stp	x8, xzr, [x9]
.Lpasetone_BB15_8:
	mov	w26, #1
.Lpasetone_BB15_9:
	mov	w14, w20
	mov	w7, w5
	mov	w19, w6
.Lpasetone_BB15_10:
	ldr	w8, [sp, #152]
	mov	w9, #16843009
	ldur	w10, [sp, #155]
	mul	w9, w27, w9
	mov	w23, wzr
	mov	w24, wzr
	str	w8, [sp, #104]
	ldr	w8, [sp, #120]
	mov	w25, wzr
	mov	x27, x22
	stur	w10, [sp, #107]
	str	w8, [sp, #96]
	ldur	w8, [sp, #123]
	stur	w9, [sp, #115]
	str	w9, [sp, #112]
	b	.Lpasetone_BB15_13
.Lpasetone_BB15_11:
	and	x8, x20, #0xff
	orr	x26, x12, x8
.Lpasetone_BB15_12:
	ldr	w8, [sp, #128]
	ldur	w9, [sp, #131]
	mov	w7, w5
	ldr	w10, [sp, #152]
	mov	w19, w6
	mov	x21, x22
	str	w8, [sp, #112]
	ldur	w8, [sp, #155]
	stur	w9, [sp, #115]
	ldr	w9, [sp, #120]
	str	w10, [sp, #104]
	stur	w8, [sp, #107]
	ldur	w8, [sp, #123]
	str	w9, [sp, #96]
.Lpasetone_BB15_13:
	stur	w8, [sp, #99]
	ldr	w8, [sp, #112]
	ldur	w9, [sp, #115]
	tst	x26, #0xff
	ldr	w10, [sp, #104]
	str	w8, [sp, #56]
	ldur	w8, [sp, #107]
	stur	w9, [sp, #59]
	ldr	w9, [sp, #96]
	stur	w10, [sp, #63]
	stur	w8, [sp, #66]
	ldur	w8, [sp, #99]
	str	w9, [sp, #48]
	stur	w8, [sp, #51]
	b.eq	.Lpasetone_BB15_15
	mov	x22, x21
	mov	x21, x27
	b	.Lpasetone_BB15_17
.Lpasetone_BB15_15:
	ldrb	w8, [x3, x21]
	add	x9, x4, x21, lsl #4
	add	x10, x28, #256
	mov	w26, #1
	add	x22, x21, #1
	cmp	w8, #0
	csel	x10, x28, x10, eq
	stp	x10, x26, [x9]
	cbz	w8, .Lpasetone_BB15_22
	mov	w23, wzr
	mov	w24, wzr
	mov	w25, wzr
.Lpasetone_BB15_17:
	ldr	x8, [sp, #56]
	ldur	x9, [sp, #62]
	ldr	w10, [sp, #28]
	ldp	w1, w12, [sp, #44]
	orr	w10, w10, w18, lsl #16
	str	x8, [sp, #128]
	ldur	w8, [sp, #51]
	stur	x9, [sp, #134]
	ldr	x9, [sp, #32]
	ldr	w3, [sp, #40]
	str	w12, [sp, #152]
	orr	x18, x9, x10, lsl #32
.Lpasetone_BB15_18:
	stur	w8, [sp, #155]
	ldur	x8, [sp, #134]
	ldr	x9, [sp, #128]
	strh	w19, [x0, #42]
	stp	x22, x26, [x0, #56]
	ldr	x30, [sp, #144]
	stur	x8, [sp, #86]
	ldr	w8, [sp, #152]
	str	x9, [sp, #80]
	ldur	w9, [sp, #155]
	str	w8, [sp, #72]
	lsr	x8, x17, #48
	stur	w9, [sp, #75]
	lsr	x9, x17, #32
	strb	w8, [x0, #7]
	lsr	x8, x13, #48
	sturh	w9, [x0, #5]
	lsr	x9, x13, #32
	strb	w8, [x0, #14]
	lsr	x8, x18, #48
	strh	w9, [x0, #12]
	lsr	x9, x18, #32
	strb	w8, [x0, #23]
	ldr	x8, [sp, #80]
	sturh	w9, [x0, #21]
	ldur	x9, [sp, #86]
	stur	x8, [x0, #28]
	ldr	w8, [sp, #72]
	stur	x9, [x0, #34]
	ldur	w9, [sp, #75]
	str	x21, [x0, #72]
	ldp	x20, x19, [sp, #224]
	strb	w23, [x0, #81]
	ldp	x22, x21, [sp, #208]
	strb	w24, [x0, #85]
	ldp	x24, x23, [sp, #192]
	strh	w25, [x0, #86]
	ldp	x26, x25, [sp, #176]
	ldp	x28, x27, [sp, #160]
	strb	w11, [x0]
	stur	w17, [x0, #1]
	str	w13, [x0, #8]
	sturh	w7, [x0, #15]
	stur	w18, [x0, #17]
	str	w1, [x0, #24]
	str	w8, [x0, #44]
	stur	w9, [x0, #47]
	stur	w3, [x0, #51]
	strb	w14, [x0, #55]
	strb	wzr, [x0, #80]
	strh	w15, [x0, #82]
	strb	w16, [x0, #84]
	add	sp, sp, #240
	.cfi_def_cfa_offset 0
	.cfi_restore w19
	.cfi_restore w20
	.cfi_restore w21
	.cfi_restore w22
	.cfi_restore w23
	.cfi_restore w24
	.cfi_restore w25
	.cfi_restore w26
	.cfi_restore w27
	.cfi_restore w28
	.cfi_restore w30
	ret
.Lpasetone_BB15_19:
	.cfi_restore_state
	ldrb	w10, [x3, x21]
	orr	w13, w19, w7, lsl #16
	mov	w9, #16843009
	mov	w14, #12
	add	x7, x4, x21, lsl #4
	cmp	w10, #0
	orr	x13, x1, x13, lsl #32
	mov	w1, #256
	cset	w12, ne
	csel	x1, x1, xzr, ne
	mul	w12, w12, w9
	lsl	x9, x11, #16
	orr	x14, x14, x13, lsl #8
	orr	x8, x9, x8
	orr	x8, x8, x1
	str	w12, [sp, #152]
	stp	x8, x14, [x7]
	add	x8, x22, #2
	stur	w12, [sp, #155]
	cbz	w10, .Lpasetone_BB15_24
	tbz	w26, #0, .Lpasetone_BB15_30
	ldrb	w9, [x3, x8]
	add	x8, x4, x8, lsl #4
	add	x10, x28, #256
	mov	w26, #1
	cmp	w9, #0
	csel	x9, x28, x10, eq
	stp	x9, xzr, [x8]
	add	x9, x22, #3
	mov	x22, x21
	mov	x21, x9
	b	.Lpasetone_BB15_9
.Lpasetone_BB15_22:
	ldp	w12, w9, [sp, #8]
	ldrb	w10, [x3, x22]
	mov	w8, #256
	mov	w5, w14
	cmp	w10, #0
	orr	w9, w12, w9, lsl #16
	ldr	x12, [sp, #16]
	csel	x8, x8, xzr, ne
	bfi	x8, x11, #16, #8
	orr	x18, x12, x9, lsl #32
	mov	w9, #21
	add	x12, x4, x22, lsl #4
	orr	x8, x8, #0x2
	orr	x9, x9, x18, lsl #8
	orr	x8, x8, #0x8000000
	stp	x8, x9, [x12]
	cset	w8, ne
	add	x9, x21, #2
	cbz	w10, .Lpasetone_BB15_28
	ldrb	w10, [x3, x9]
	add	x9, x4, x9, lsl #4
	add	x12, x28, #256
	ldp	w3, w1, [sp, #40]
	cmp	w10, #0
	mov	w26, #1
	csel	x10, x28, x12, eq
	stp	x10, xzr, [x9]
	add	x9, x21, #3
	b	.Lpasetone_BB15_29
.Lpasetone_BB15_24:
	ldrb	w10, [x3, x8]
	ldr	x5, [sp]
	mov	w12, #19
	mov	w14, #256
	orr	x9, x9, #0x2
	mov	w1, w16
	cmp	w10, #0
	add	x16, x4, x8, lsl #4
	orr	x9, x9, #0x3000000
	csel	x14, xzr, x14, eq
	orr	x12, x12, x5, lsl #8
	mov	w7, w5
	orr	x9, x9, x14
	add	x21, x22, #3
	mov	w14, w20
	stp	x9, x12, [x16]
	cbz	w10, .Lpasetone_BB15_31
	tbz	w26, #0, .Lpasetone_BB15_27
	ldrb	w9, [x3, x21]
	add	x10, x4, x21, lsl #4
	add	x12, x28, #256
	add	x21, x22, #4
	cmp	w9, #0
	csel	x9, x28, x12, eq
	stp	x9, xzr, [x10]
.Lpasetone_BB15_27:
	mov	w19, #257
	mov	w26, #1
	mov	x22, x8
	b	.Lpasetone_BB15_34
.Lpasetone_BB15_28:
	ldrb	w10, [x3, x9]
	lsl	x12, x11, #16
	mov	w1, #2
	mov	w14, #28
	mov	w6, w15
	mov	w15, #256
	movk	w1, #1280, lsl #16
	cmp	w10, #0
	add	x10, x4, x9, lsl #4
	orr	x12, x12, x1
	csel	x15, x15, xzr, ne
	orr	x14, x14, x2, lsl #8
	orr	x12, x12, x15
	mov	w15, #16843009
	cset	w26, ne
	stp	x12, x14, [x10]
	add	x12, x21, #3
	add	x10, x28, #256
	ldrb	w14, [x3, x12]
	add	x12, x4, x12, lsl #4
	csel	x22, x9, xzr, ne
	csel	w3, w15, wzr, ne
	mov	w15, w6
	mov	w1, w2
	cmp	w14, #0
	csel	x9, x28, x10, eq
	stp	x9, xzr, [x12]
	add	x9, x21, #4
.Lpasetone_BB15_29:
	mov	w12, #16843009
	ldr	x10, [sp, #56]
	ldur	x14, [sp, #62]
	mul	w8, w8, w12
	mov	w23, wzr
	mov	w24, wzr
	mov	w25, wzr
	str	x10, [sp, #128]
	mov	x21, x22
	stur	x14, [sp, #134]
	mov	x22, x9
	mov	w14, w5
	str	w8, [sp, #152]
	b	.Lpasetone_BB15_18
.Lpasetone_BB15_30:
	mov	w26, #1
	mov	x22, x21
	mov	x21, x8
	b	.Lpasetone_BB15_9
.Lpasetone_BB15_31:
	mov	w19, wzr
	tbz	w26, #0, .Lpasetone_BB15_33
	ldrb	w8, [x3, x21]
	add	x9, x4, x21, lsl #4
	add	x10, x28, #256
	mov	x26, xzr
	add	x21, x22, #4
	mov	x22, xzr
	cmp	w8, #0
	csel	x8, x28, x10, eq
	stp	x8, xzr, [x9]
	b	.Lpasetone_BB15_34
.Lpasetone_BB15_33:
	mov	x22, xzr
	mov	x26, xzr
.Lpasetone_BB15_34:
	mov	w16, w1
	b	.Lpasetone_BB15_10
.Lpasetone_func_end15:
	.size	"writes::send_all", .Lpasetone_func_end15-"writes::send_all"
	.cfi_endproc

	.section	.rodata.cst16,"aM",@progbits,16
	.p2align	4, 0x0
.Lpasetone_CPI16_0:
	.xword	429496729609
	.xword	0
.Lpasetone_CPI16_1:
	.byte	202
	.byte	220
	.byte	215
	.byte	216
	.byte	224
	.byte	242
	.byte	14
	.byte	53
	.byte	6
	.byte	80
	.byte	156
	.byte	13
	.byte	113
	.byte	17
	.byte	20
	.byte	113
	.section	.rodata.cst8,"aM",@progbits,8
	.p2align	3, 0x0
.Lpasetone_CPI16_2:
	.byte	116
	.byte	25
	.byte	65
	.byte	165
	.zero	1
	.zero	1
	.zero	1
	.zero	1
	.section	".text.demod::init_baseband","ax",@progbits
	.p2align	2
	.type	"demod::init_baseband",@function
"demod::init_baseband":
	.cfi_startproc
	cmp	x4, #728
	b.hs	.Lpasetone_BB16_2
	mov	w8, #8
	mov	w9, #1
	strb	w8, [x0, #1]
	strb	w9, [x0]
	stp	xzr, xzr, [x0, #8]
	ret
.Lpasetone_BB16_2:
	cmp	x2, #44
	b.hi	.Lpasetone_BB16_4
	mov	w8, #9
	mov	w9, #1
	strb	w8, [x0, #1]
	strb	w9, [x0]
	stp	xzr, xzr, [x0, #8]
	ret
.Lpasetone_BB16_4:
	mov	x9, #6
	ldrb	w8, [x1]
	movk	x9, #257, lsl #16
	movk	x9, #8192, lsl #32
	cmp	w8, #0
	orr	x10, x9, #0x100
	csel	x9, x9, x10, eq
	mov	w10, #9
	stp	x9, x10, [x3]
	cbz	w8, .Lpasetone_BB16_6
	mov	x8, xzr
	mov	w9, #1
	mov	w10, #1
	b	.Lpasetone_BB16_33
.Lpasetone_BB16_6:
	mov	x9, #7
	ldrb	w8, [x1, #1]
	movk	x9, #513, lsl #16
	movk	x9, #8536, lsl #32
	cmp	w8, #0
	orr	x10, x9, #0x100
	csel	x9, x9, x10, eq
	mov	w10, #512
	stp	x9, x10, [x3, #16]
	cbz	w8, .Lpasetone_BB16_8
	mov	w10, #1
	mov	w9, #2
	mov	w8, #1
	b	.Lpasetone_BB16_33
.Lpasetone_BB16_8:
	mov	x9, #7
	ldrb	w8, [x1, #2]
	movk	x9, #513, lsl #16
	movk	x9, #8520, lsl #32
	cmp	w8, #0
	orr	x10, x9, #0x100
	csel	x9, x9, x10, eq
	mov	w10, #528
	stp	x9, x10, [x3, #32]
	cbz	w8, .Lpasetone_BB16_10
	mov	w8, #2
	mov	w10, #1
	mov	w9, #3
	b	.Lpasetone_BB16_33
.Lpasetone_BB16_10:
	mov	x9, #6
	ldrb	w8, [x1, #3]
	movk	x9, #258, lsl #16
	movk	x9, #12299, lsl #32
	cmp	w8, #0
	orr	x10, x9, #0x100
	csel	x9, x9, x10, eq
	mov	w10, #34
	stp	x9, x10, [x3, #48]
	cbz	w8, .Lpasetone_BB16_12
	mov	w8, #3
	mov	w10, #1
	mov	w9, #4
	b	.Lpasetone_BB16_33
.Lpasetone_BB16_12:
	mov	x9, #6
	ldrb	w8, [x1, #4]
	movk	x9, #258, lsl #16
	movk	x9, #12288, lsl #32
	cmp	w8, #0
	orr	x10, x9, #0x100
	csel	x9, x9, x10, eq
	mov	w10, #232
	stp	x9, x10, [x3, #64]
	cbz	w8, .Lpasetone_BB16_14
	mov	w8, #4
	mov	w10, #1
	mov	w9, #5
	b	.Lpasetone_BB16_33
.Lpasetone_BB16_14:
	adrp	x8, .Lpasetone_CPI16_0
	mov	w11, #20
	ldr	q0, [x8, :lo12:.Lpasetone_CPI16_0]
	mov	x8, #4
	movk	x8, #257, lsl #16
	str	q0, [x3, #80]
	movk	x8, #1, lsl #32
	ldrb	w9, [x1, #6]
	orr	x10, x8, #0x100
	cmp	w9, #0
	csel	x10, x8, x10, eq
	stp	x10, x11, [x3, #96]
	cbz	w9, .Lpasetone_BB16_16
	mov	w8, #6
	mov	w10, #1
	mov	w9, #7
	b	.Lpasetone_BB16_33
.Lpasetone_BB16_16:
	ldrb	w9, [x1, #7]
	add	x10, x8, #256
	cmp	w9, #0
	csel	x8, x8, x10, eq
	mov	w10, #16
	stp	x8, x10, [x3, #112]
	cbz	w9, .Lpasetone_BB16_18
	mov	w8, #7
	mov	w10, #1
	mov	w9, #8
	b	.Lpasetone_BB16_33
.Lpasetone_BB16_18:
	mov	x9, #4
	ldrb	w8, [x1, #8]
	movk	x9, #257, lsl #16
	movk	x9, #21, lsl #32
	cmp	w8, #0
	orr	x10, x9, #0x100
	csel	x9, x9, x10, eq
	stp	x9, xzr, [x3, #128]
	cbz	w8, .Lpasetone_BB16_20
	mov	w8, #8
	mov	w10, #1
	mov	w9, #9
	b	.Lpasetone_BB16_33
.Lpasetone_BB16_20:
	mov	x9, #5
	ldrb	w8, [x1, #9]
	movk	x9, #513, lsl #16
	movk	x9, #22, lsl #32
	cmp	w8, #0
	orr	x10, x9, #0x100
	csel	x9, x9, x10, eq
	stp	x9, xzr, [x3, #144]
	cbz	w8, .Lpasetone_BB16_22
	mov	w8, #9
	mov	w10, #1
	mov	w9, #10
	b	.Lpasetone_BB16_33
.Lpasetone_BB16_22:
	mov	x9, #4
	ldrb	w8, [x1, #10]
	movk	x9, #257, lsl #16
	movk	x9, #22, lsl #32
	cmp	w8, #0
	orr	x10, x9, #0x100
	csel	x9, x9, x10, eq
	stp	x9, xzr, [x3, #160]
	cbz	w8, .Lpasetone_BB16_24
	mov	w8, #10
	mov	w10, #1
	mov	w9, #11
	b	.Lpasetone_BB16_33
.Lpasetone_BB16_24:
	mov	x9, #4
	ldrb	w8, [x1, #11]
	movk	x9, #257, lsl #16
	movk	x9, #23, lsl #32
	cmp	w8, #0
	orr	x10, x9, #0x100
	csel	x9, x9, x10, eq
	stp	x9, xzr, [x3, #176]
	cbz	w8, .Lpasetone_BB16_26
	mov	w8, #11
	mov	w10, #1
	mov	w9, #12
	b	.Lpasetone_BB16_33
.Lpasetone_BB16_26:
	mov	x9, #4
	ldrb	w8, [x1, #12]
	movk	x9, #257, lsl #16
	movk	x9, #24, lsl #32
	cmp	w8, #0
	orr	x10, x9, #0x100
	csel	x9, x9, x10, eq
	stp	x9, xzr, [x3, #192]
	cbz	w8, .Lpasetone_BB16_28
	mov	w8, #12
	mov	w10, #1
	mov	w9, #13
	b	.Lpasetone_BB16_33
.Lpasetone_BB16_28:
	mov	x9, #4
	ldrb	w8, [x1, #13]
	mov	x10, #260
	movk	x9, #256, lsl #16
	movk	x10, #257, lsl #16
	movk	x9, #25, lsl #32
	movk	x10, #25, lsl #32
	cmp	w8, #0
	orr	x9, x9, #0x10000
	csel	x9, x9, x10, eq
	stp	x9, xzr, [x3, #208]
	cbz	w8, .Lpasetone_BB16_30
	mov	w8, #13
	mov	w10, #1
	mov	w9, #14
	b	.Lpasetone_BB16_33
.Lpasetone_BB16_30:
	mov	x9, #4
	ldrb	w8, [x1, #14]
	movk	x9, #257, lsl #16
	movk	x9, #26, lsl #32
	cmp	w8, #0
	orr	x10, x9, #0x100
	csel	x9, x9, x10, eq
	stp	x9, xzr, [x3, #224]
	cbz	w8, .Lpasetone_BB16_32
	mov	w8, #14
	mov	w10, #1
	mov	w9, #15
	b	.Lpasetone_BB16_33
.Lpasetone_BB16_32:
	mov	x9, #4
	ldrb	w8, [x1, #15]
	movk	x9, #257, lsl #16
	movk	x9, #27, lsl #32
	cmp	w8, #0
	orr	x10, x9, #0x100
	csel	x8, x10, x9, ne
	mov	w9, #15
	cset	w10, ne
	stp	x8, xzr, [x3, #240]
	csel	x8, x9, xzr, ne
	mov	w9, #16
.Lpasetone_BB16_33:
	adrp	x12, .Lpasetone_CPI16_1
	adrp	x13, .Lpasetone_CPI16_2
	mov	x11, xzr
	ldr	q0, [x12, :lo12:.Lpasetone_CPI16_1]
	ldr	d1, [x13, :lo12:.Lpasetone_CPI16_2]
	str	q0, [sp, #-32]!
	.cfi_def_cfa_offset 32
	mov	x12, #4
	str	s1, [sp, #16]
	movk	x12, #257, lsl #16
	movk	x12, #28, lsl #32
	b	.Lpasetone_BB16_35
.Lpasetone_BB16_34:
	add	x11, x11, #1
	mov	x13, #4294967296
	cmp	x11, #20
	add	x12, x12, x13
	b.eq	.Lpasetone_BB16_37
.Lpasetone_BB16_35:
	cbnz	x10, .Lpasetone_BB16_34
	ldrb	w8, [x1, x9]
	mov	w10, #256
	add	x13, x3, x9, lsl #4
	cmp	w8, #0
	mov	x8, sp
	csel	x10, x10, xzr, ne
	ldrb	w14, [x8, x11]
	add	x8, x10, x12
	cset	w10, ne
	stp	x8, x14, [x13]
	csel	x8, x9, xzr, ne
	add	x9, x9, #1
	b	.Lpasetone_BB16_34
.Lpasetone_BB16_37:
	add	sp, sp, #32
	.cfi_def_cfa_offset 0
	cbz	x10, .Lpasetone_BB16_39
	mov	x10, x9
	b	.Lpasetone_BB16_45
.Lpasetone_BB16_39:
	mov	x8, #4
	ldrb	w10, [x1, x9]
	add	x11, x3, x9, lsl #4
	movk	x8, #256, lsl #16
	movk	x8, #25, lsl #32
	cmp	w10, #0
	orr	x12, x8, #0x100
	csel	x8, x8, x12, eq
	mov	w12, #5
	stp	x8, x12, [x11]
	add	x8, x9, #1
	cbz	w10, .Lpasetone_BB16_41
	add	x10, x9, #1
	mov	x8, x9
	b	.Lpasetone_BB16_45
.Lpasetone_BB16_41:
	mov	x11, #4
	ldrb	w10, [x1, x8]
	add	x12, x3, x8, lsl #4
	movk	x11, #257, lsl #16
	movk	x11, #147, lsl #32
	cmp	w10, #0
	orr	x13, x11, #0x100
	csel	x11, x11, x13, eq
	mov	w13, #240
	stp	x11, x13, [x12]
	add	x11, x9, #2
	cbz	w10, .Lpasetone_BB16_43
.Lpasetone_BB16_42:
	mov	x10, x11
	b	.Lpasetone_BB16_45
.Lpasetone_BB16_43:
	mov	x8, #4
	ldrb	w10, [x1, x11]
	add	x12, x3, x11, lsl #4
	movk	x8, #257, lsl #16
	movk	x8, #148, lsl #32
	cmp	w10, #0
	orr	x13, x8, #0x100
	csel	x8, x8, x13, eq
	mov	w13, #15
	stp	x8, x13, [x12]
	add	x8, x9, #3
	cbz	w10, .Lpasetone_BB16_46
.Lpasetone_BB16_44:
	mov	x10, x8
	mov	x8, x11
.Lpasetone_BB16_45:
	lsl	x9, x10, #4
	add	x11, x3, x9
	stp	w10, w9, [x11]
	mov	w9, #2
	strb	w9, [x0]
	strb	wzr, [x0, #1]
	stp	x8, x10, [x0, #8]
	ret
.Lpasetone_BB16_46:
	mov	x11, #4
	ldrb	w10, [x1, x8]
	add	x12, x3, x8, lsl #4
	movk	x11, #257, lsl #16
	movk	x11, #17, lsl #32
	cmp	w10, #0
	orr	x13, x11, #0x100
	csel	x11, x11, x13, eq
	stp	x11, xzr, [x12]
	add	x11, x9, #4
	cbnz	w10, .Lpasetone_BB16_42
	mov	x8, #260
	ldrb	w10, [x1, x11]
	add	x12, x3, x11, lsl #4
	movk	x8, #257, lsl #16
	movk	x8, #4, lsl #32
	cmp	w10, #0
	sub	x13, x8, #256
	csel	x8, x13, x8, eq
	stp	x8, xzr, [x12]
	add	x8, x9, #5
	cbnz	w10, .Lpasetone_BB16_44
	mov	x11, #4
	ldrb	w10, [x1, x8]
	add	x12, x3, x8, lsl #4
	movk	x11, #256, lsl #16
	movk	x11, #97, lsl #32
	cmp	w10, #0
	orr	x13, x11, #0x100
	csel	x11, x11, x13, eq
	mov	w13, #96
	stp	x11, x13, [x12]
	add	x11, x9, #6
	cbnz	w10, .Lpasetone_BB16_42
	mov	x8, #4
	ldrb	w10, [x1, x11]
	add	x12, x3, x11, lsl #4
	movk	x8, #256, lsl #16
	movk	x8, #6, lsl #32
	cmp	w10, #0
	orr	x13, x8, #0x100
	csel	x8, x8, x13, eq
	mov	w13, #128
	stp	x8, x13, [x12]
	add	x8, x9, #7
	cbnz	w10, .Lpasetone_BB16_44
	mov	x10, #4
	ldrb	w11, [x1, x8]
	add	x12, x3, x8, lsl #4
	movk	x10, #257, lsl #16
	movk	x10, #177, lsl #32
	cmp	w11, #0
	orr	x13, x10, #0x100
	csel	x10, x10, x13, eq
	mov	w13, #27
	stp	x10, x13, [x12]
	add	x10, x9, #8
	cbnz	w11, .Lpasetone_BB16_45
	mov	x12, #4
	ldrb	w8, [x1, x10]
	add	x14, x9, #9
	movk	x12, #256, lsl #16
	add	x11, x3, x10, lsl #4
	lsl	x9, x14, #4
	movk	x12, #13, lsl #32
	cmp	w8, #0
	orr	x13, x12, #0x100
	csel	x8, x12, x13, eq
	mov	w12, #131
	stp	x8, x12, [x11]
	add	x11, x3, x9
	csel	x8, xzr, x10, eq
	mov	w10, #2
	stp	w14, w9, [x11]
	csel	w9, wzr, w10, eq
	strb	w9, [x0]
	strb	wzr, [x0, #1]
	stp	x8, x14, [x0, #8]
	ret
.Lpasetone_func_end16:
	.size	"demod::init_baseband", .Lpasetone_func_end16-"demod::init_baseband"
	.cfi_endproc

	.section	".text.packets::hear","ax",@progbits
	.p2align	2
	.type	"packets::hear",@function
"packets::hear":
	.cfi_startproc
	sub	sp, sp, #112
	.cfi_def_cfa_offset 112
	stp	x29, x30, [sp, #16]
	stp	x28, x27, [sp, #32]
	stp	x26, x25, [sp, #48]
	stp	x24, x23, [sp, #64]
	stp	x22, x21, [sp, #80]
	stp	x20, x19, [sp, #96]
	add	x29, sp, #16
	.cfi_def_cfa w29, 96
	.cfi_offset w19, -8
	.cfi_offset w20, -16
	.cfi_offset w21, -24
	.cfi_offset w22, -32
	.cfi_offset w23, -40
	.cfi_offset w24, -48
	.cfi_offset w25, -56
	.cfi_offset w26, -64
	.cfi_offset w27, -72
	.cfi_offset w28, -80
	.cfi_offset w30, -88
	.cfi_offset w29, -96
	.cfi_remember_state
	sub	x9, x2, x3
	cmp	x9, #7
	b.hi	.Lpasetone_BB17_3
.Lpasetone_BB17_1:
	movi	v0.2d, #0000000000000000
	stp	q0, q0, [x0]
	.cfi_def_cfa wsp, 112
.Lpasetone_BB17_2:
	ldp	x20, x19, [sp, #96]
	ldp	x22, x21, [sp, #80]
	ldp	x24, x23, [sp, #64]
	ldp	x26, x25, [sp, #48]
	ldp	x28, x27, [sp, #32]
	ldp	x29, x30, [sp, #16]
	add	sp, sp, #112
	.cfi_def_cfa_offset 0
	.cfi_restore w19
	.cfi_restore w20
	.cfi_restore w21
	.cfi_restore w22
	.cfi_restore w23
	.cfi_restore w24
	.cfi_restore w25
	.cfi_restore w26
	.cfi_restore w27
	.cfi_restore w28
	.cfi_restore w30
	.cfi_restore w29
	ret
.Lpasetone_BB17_3:
	.cfi_restore_state
	ldr	x19, [x1, x3]
	ubfx	x10, x19, #40, #8
	lsr	x21, x19, #16
	and	x8, x19, #0xff
	cmp	w10, #6
	b.eq	.Lpasetone_BB17_6
	cbnz	w10, .Lpasetone_BB17_7
	lsr	x8, x19, #48
	ubfx	x10, x19, #48, #8
	lsr	w21, w19, #24
	mov	w11, #4
	mov	w12, #16
	ubfx	x20, x19, #32, #4
	cmp	w10, #1
	sub	w13, w8, #1
	lsl	w14, w21, #24
	csinc	x8, x10, xzr, ne
	cinc	w23, w11, ne
	tst	w13, #0xfe
	bfxil	x12, x19, #32, #4
	cset	w13, eq
	orr	x10, x14, #0x200000
	mov	w22, #1
	mov	w14, #64
	mov	x11, x8
	cbnz	w13, .Lpasetone_BB17_10
	b	.Lpasetone_BB17_1
.Lpasetone_BB17_6:
	lsr	x12, x19, #48
	ubfx	x11, x19, #48, #8
	mov	w13, #2
	mov	w14, #64
	mov	w15, #1552
	mov	w16, #3
	sub	w12, w12, #1
	mov	w17, #192
	mov	w18, #1536
	tst	w12, #0xf8
	and	w12, w12, #0xff
	mov	w20, w21
	cset	w4, eq
	cmp	w12, #5
	and	x10, x19, #0xff0000
	cset	w5, lo
	cmp	x8, #64
	mov	w21, wzr
	csel	x12, x15, x18, eq
	csel	x8, x11, xzr, eq
	csel	w23, w13, w16, eq
	csel	w13, w4, w5, eq
	mov	w22, wzr
	csel	x14, x14, x17, eq
	cbnz	w13, .Lpasetone_BB17_10
	b	.Lpasetone_BB17_1
.Lpasetone_BB17_7:
	lsr	x20, x19, #40
	cmp	x8, #64
	b.ne	.Lpasetone_BB17_9
	lsr	x10, x19, #48
	ubfx	x8, x19, #48, #8
	mov	w11, #6
	mov	w12, #16
	mov	w22, wzr
	mov	w14, #64
	cmp	w8, #1
	sub	w10, w10, #1
	bfi	x12, x20, #8, #8
	cinc	w23, w11, ne
	tst	w10, #0xfe
	and	x10, x19, #0xffff0000
	cset	w13, eq
	mov	x11, x8
	cbnz	w13, .Lpasetone_BB17_10
	b	.Lpasetone_BB17_1
.Lpasetone_BB17_9:
	ubfx	x11, x19, #48, #8
	ubfiz	x12, x20, #8, #8
	mov	x8, xzr
	mov	w22, wzr
	and	x10, x19, #0xffff0000
	mov	w23, #8
	cmp	w11, #1
	mov	w14, #192
	cset	w13, eq
	cbz	w13, .Lpasetone_BB17_1
.Lpasetone_BB17_10:
	orr	x11, x14, x11, lsl #48
	add	x10, x11, x10
	add	x10, x10, x12, lsl #32
	cmp	x10, x19
	b.ne	.Lpasetone_BB17_1
	add	x24, x8, #8
	cmp	x9, x24
	b.lo	.Lpasetone_BB17_1
	add	x9, x3, #8
	str	xzr, [sp, #8]
	add	x25, x8, x9
	cbz	x8, .Lpasetone_BB17_14
	mov	x26, x0
	add	x0, sp, #8
	mov	x27, x1
	add	x1, x1, x9
	mov	x28, x2
	mov	x2, x8
	bl	memcpy
	mov	x2, x28
	mov	x1, x27
	mov	x0, x26
.Lpasetone_BB17_14:
	sub	x8, x2, x25
	cmp	x8, #8
	b.hs	.Lpasetone_BB17_16
	mov	w8, wzr
	b	.Lpasetone_BB17_17
.Lpasetone_BB17_16:
	mov	x9, #192
	ldr	x8, [x1, x25]
	movk	x9, #288, lsl #16
	movk	x9, #10, lsl #32
	movk	x9, #1, lsl #48
	cmp	x8, x9
	cset	w8, eq
.Lpasetone_BB17_17:
	mov	w9, #1
	tst	w22, w8
	mov	w8, #8
	str	x9, [x0]
	lsr	x9, x19, #48
	ldr	x10, [sp, #8]
	csel	x8, x8, xzr, ne
	strb	w23, [x0, #8]
	add	x8, x8, x24
	strb	wzr, [x0, #9]
	strb	w20, [x0, #10]
	strb	w9, [x0, #11]
	strh	w21, [x0, #12]
	stur	x10, [x0, #14]
	strh	wzr, [x0, #22]
	str	x8, [x0, #24]
	.cfi_def_cfa wsp, 112
	b	.Lpasetone_BB17_2
.Lpasetone_func_end17:
	.size	"packets::hear", .Lpasetone_func_end17-"packets::hear"
	.cfi_endproc

	.section	.text.pasetone_apply_input_path,"ax",@progbits
	.globl	pasetone_apply_input_path
	.p2align	2
	.type	pasetone_apply_input_path,@function
pasetone_apply_input_path:
	.cfi_startproc
	sub	sp, sp, #480
	.cfi_def_cfa_offset 480
	str	d8, [sp, #368]
	stp	x29, x30, [sp, #384]
	stp	x28, x27, [sp, #400]
	stp	x26, x25, [sp, #416]
	stp	x24, x23, [sp, #432]
	stp	x22, x21, [sp, #448]
	stp	x20, x19, [sp, #464]
	add	x29, sp, #384
	.cfi_def_cfa w29, 96
	.cfi_offset w19, -8
	.cfi_offset w20, -16
	.cfi_offset w21, -24
	.cfi_offset w22, -32
	.cfi_offset w23, -40
	.cfi_offset w24, -48
	.cfi_offset w25, -56
	.cfi_offset w26, -64
	.cfi_offset w27, -72
	.cfi_offset w28, -80
	.cfi_offset w30, -88
	.cfi_offset w29, -96
	.cfi_offset b8, -112
	.cfi_remember_state
	mov	x19, x8
	cmp	x0, #0
	mov	w8, #4096
	csel	x10, x8, xzr, eq
	cmp	x3, #0
	ldr	x27, [x29, #104]
	csel	x11, x8, xzr, eq
	cmp	x5, #0
	mov	x9, x0
	csel	x20, x8, xzr, eq
	cmp	x7, #0
	mov	x22, x2
	csel	x28, x8, xzr, eq
	cmp	x27, #0
	mov	x2, x1
	csel	x8, x8, xzr, eq
	add	x0, sp, #16
	add	x1, x9, x10
	mov	x24, x7
	mov	x25, x6
	mov	x21, x5
	mov	x23, x3
	mov	x26, x4
	str	x11, [sp, #8]
	stur	x8, [x29, #-8]
	bl	"records::decode_tuner"
	ldrb	w8, [sp, #16]
	cmp	w8, #1
	b.ne	.Lpasetone_BB18_3
	ldr	x8, [x29, #112]
	cmp	x8, #78
	mov	w8, #8
	csel	w8, w8, wzr, lo
	cmp	x22, #2
	csinc	w8, w8, wzr, ls
	cbz	w8, .Lpasetone_BB18_5
	mov	x11, xzr
	mov	x10, xzr
	mov	w9, wzr
	b	.Lpasetone_BB18_4
.Lpasetone_BB18_3:
	mov	x11, xzr
	mov	x10, xzr
	mov	w9, wzr
	mov	w8, #1
.Lpasetone_BB18_4:
	stp	x11, x10, [x19]
	stp	w8, w9, [x19, #16]
	.cfi_def_cfa wsp, 480
	ldp	x20, x19, [sp, #464]
	ldr	d8, [sp, #368]
	ldp	x22, x21, [sp, #448]
	ldp	x24, x23, [sp, #432]
	ldp	x26, x25, [sp, #416]
	ldp	x28, x27, [sp, #400]
	ldp	x29, x30, [sp, #384]
	add	sp, sp, #480
	.cfi_def_cfa_offset 0
	.cfi_restore w19
	.cfi_restore w20
	.cfi_restore w21
	.cfi_restore w22
	.cfi_restore w23
	.cfi_restore w24
	.cfi_restore w25
	.cfi_restore w26
	.cfi_restore w27
	.cfi_restore w28
	.cfi_restore w30
	.cfi_restore w29
	.cfi_restore b8
	ret
.Lpasetone_BB18_5:
	.cfi_restore_state
	movi	v0.2d, #0000000000000000
	ldrb	w2, [sp, #24]
	ldrb	w11, [sp, #25]
	ldp	w14, w16, [sp, #80]
	ldrb	w15, [sp, #88]
	and	w8, w22, #0xff
	ldr	s8, [sp, #92]
	ldr	x17, [sp, #96]
	ldrb	w18, [sp, #104]
	cmp	w8, #2
	add	x0, sp, #144
	stur	xzr, [x29, #-72]
	stp	q0, q0, [sp, #176]
	stp	q0, q0, [sp, #208]
	str	q0, [sp, #240]
	str	xzr, [sp, #256]
	b.hi	.Lpasetone_BB18_10
	mov	w8, #1
	cbz	w14, .Lpasetone_BB18_15
	cbz	w16, .Lpasetone_BB18_15
	ldr	x8, [x29, #96]
	cmp	x8, #168
	b.hs	.Lpasetone_BB18_11
	mov	w8, #8
	b	.Lpasetone_BB18_15
.Lpasetone_BB18_10:
	add	x8, sp, #16
	mov	x10, xzr
	mov	x9, xzr
	ldur	q0, [x8, #10]
	ldur	q1, [x8, #21]
	ldur	q2, [x8, #37]
	mov	w12, #1
	str	q0, [sp, #144]
	ldur	q0, [x8, #48]
	mov	w8, #1
	stur	q1, [x0, #11]
	str	q2, [sp, #112]
	stur	q0, [sp, #123]
	cbnz	w12, .Lpasetone_BB18_16
	b	.Lpasetone_BB18_17
.Lpasetone_BB18_11:
	cmp	x26, #10
	b.hs	.Lpasetone_BB18_13
	mov	w8, #9
	b	.Lpasetone_BB18_15
.Lpasetone_BB18_13:
	cmp	x25, #3
	b.hs	.Lpasetone_BB18_23
	mov	w8, #10
.Lpasetone_BB18_15:
	add	x12, sp, #16
	mov	x10, xzr
	mov	x9, xzr
	ldur	q0, [x12, #10]
	ldur	q1, [x12, #21]
	ldur	q2, [x12, #37]
	str	q0, [sp, #144]
	ldur	q0, [x12, #48]
	mov	w12, #1
	stur	q1, [x0, #11]
	str	q2, [sp, #112]
	stur	q0, [sp, #123]
	cbz	w12, .Lpasetone_BB18_17
.Lpasetone_BB18_16:
	cbz	x9, .Lpasetone_BB18_18
.Lpasetone_BB18_17:
	ldur	x13, [x29, #-8]
	ldr	q0, [sp, #144]
	and	w15, w15, #0x1
	ldur	q1, [x0, #11]
	add	x13, x27, x13
	stur	q0, [x13, #2]
	fmov	s0, s8
	strb	w11, [x13, #1]
	fmov	w11, s8
	stur	w14, [x13, #29]
	mov	w14, #2143289344
	stur	q1, [x13, #13]
	ldur	q1, [sp, #123]
	fcmp	s0, s0
	strb	w2, [x13]
	ldr	q0, [sp, #112]
	stur	w16, [x13, #33]
	strb	w15, [x13, #37]
	csel	w11, w14, w11, vs
	stur	x17, [x13, #42]
	stur	w11, [x13, #38]
	and	w11, w18, #0x1
	strb	w11, [x13, #50]
	stur	q0, [x13, #51]
	stur	q1, [x13, #62]
.Lpasetone_BB18_18:
	cbz	w12, .Lpasetone_BB18_21
	cmp	w12, #2
	b.ne	.Lpasetone_BB18_22
	mov	x11, xzr
	mov	w8, #11
	b	.Lpasetone_BB18_4
.Lpasetone_BB18_21:
	mov	w8, w12
	mov	x11, x10
	mov	x10, x8
	mov	w8, w12
	b	.Lpasetone_BB18_4
.Lpasetone_BB18_22:
	mov	x11, xzr
	mov	x10, xzr
	b	.Lpasetone_BB18_4
.Lpasetone_BB18_23:
	add	x8, sp, #16
	movi	v3.2d, #0000000000000000
	add	x24, x24, x28
	ldur	q0, [x8, #10]
	ldur	q1, [x8, #21]
	ldur	q2, [x8, #37]
	sub	x1, x29, #120
	add	x5, x21, x20
	mov	w3, w22
	stur	q0, [x0, #121]
	ldur	q0, [x8, #48]
	ldr	x8, [sp, #8]
	stur	q1, [x0, #132]
	mov	x6, x24
	mov	w20, w16
	stur	q2, [x0, #148]
	add	x4, x23, x8
	mov	w21, w14
	stur	q0, [x0, #159]
	mov	w22, w15
	mov	x23, x17
	stp	q3, q3, [x0, #176]
	add	x0, sp, #176
	mov	w25, w18
	sturb	w11, [x29, #-120]
	mov	w26, w2
	bl	"driver::path_steps"
	ldr	x9, [sp, #232]
	add	x0, sp, #144
	ldrb	w12, [sp, #240]
	ldur	q0, [x0, #33]
	ldur	q1, [x0, #44]
	mov	w13, #2
	lsl	x10, x9, #4
	cmp	w12, #0
	mov	w18, w25
	str	q0, [sp, #144]
	ldur	q0, [x0, #60]
	mov	x17, x23
	add	x11, x24, x10
	mov	w15, w22
	mov	w14, w21
	stp	w9, w10, [x11]
	ldr	x10, [sp, #248]
	ldrb	w11, [sp, #176]
	str	q0, [sp, #112]
	ldur	q0, [x0, #71]
	mov	w16, w20
	mov	w8, wzr
	csel	w12, wzr, w13, eq
	mov	w2, w26
	csel	x10, xzr, x10, eq
	stur	q1, [x0, #11]
	stur	q0, [sp, #123]
	cbnz	w12, .Lpasetone_BB18_16
	b	.Lpasetone_BB18_17
.Lpasetone_func_end18:
	.size	pasetone_apply_input_path, .Lpasetone_func_end18-pasetone_apply_input_path
	.cfi_endproc

	.section	.text.pasetone_apply_notch,"ax",@progbits
	.globl	pasetone_apply_notch
	.p2align	2
	.type	pasetone_apply_notch,@function
pasetone_apply_notch:
	.cfi_startproc
	sub	sp, sp, #160
	.cfi_def_cfa_offset 160
	stp	x29, x30, [sp, #96]
	str	x23, [sp, #112]
	stp	x22, x21, [sp, #128]
	stp	x20, x19, [sp, #144]
	add	x29, sp, #96
	.cfi_def_cfa w29, 64
	.cfi_offset w19, -8
	.cfi_offset w20, -16
	.cfi_offset w21, -24
	.cfi_offset w22, -32
	.cfi_offset w23, -48
	.cfi_offset w30, -56
	.cfi_offset w29, -64
	.cfi_remember_state
	mov	x19, x8
	cmp	x0, #0
	mov	w8, #4096
	csel	x8, x8, xzr, eq
	mov	x21, x1
	mov	w22, w2
	add	x20, x0, x8
	mov	x0, sp
	mov	x2, x21
	mov	x1, x20
	mov	x23, sp
	bl	"records::decode_tuner"
	ldrb	w8, [sp]
	cmp	w8, #1
	b.ne	.Lpasetone_BB19_4
	ldp	w9, w10, [sp, #64]
	ldr	s0, [sp, #76]
	tst	w22, #0xff
	ldrb	w12, [sp, #88]
	cset	w8, ne
	cmp	w9, #0
	fmov	s1, s0
	cset	w11, ne
	cmp	w10, #0
	cset	w13, ne
	ands	w13, w11, w13
	csel	w11, w8, w12, ne
	fcmp	s1, s1
	fmov	w8, s0
	mov	w12, #2143289344
	csel	w12, w12, w8, vs
	cmp	w13, #1
	b.ne	.Lpasetone_BB19_4
	cmp	x21, #78
	b.hs	.Lpasetone_BB19_6
	mov	w8, #8
	b	.Lpasetone_BB19_5
.Lpasetone_BB19_4:
	mov	w8, #1
.Lpasetone_BB19_5:
	stp	xzr, xzr, [x19]
	stp	w8, wzr, [x19, #16]
	.cfi_def_cfa wsp, 160
	ldp	x20, x19, [sp, #144]
	ldr	x23, [sp, #112]
	ldp	x22, x21, [sp, #128]
	ldp	x29, x30, [sp, #96]
	add	sp, sp, #160
	.cfi_def_cfa_offset 0
	.cfi_restore w19
	.cfi_restore w20
	.cfi_restore w21
	.cfi_restore w22
	.cfi_restore w23
	.cfi_restore w30
	.cfi_restore w29
	ret
.Lpasetone_BB19_6:
	.cfi_restore_state
	ldur	q0, [x23, #10]
	ldrb	w13, [sp, #8]
	mov	w8, wzr
	ldrb	w14, [sp, #9]
	stur	w9, [x20, #29]
	stur	q0, [x20, #2]
	ldur	q0, [x23, #21]
	strb	w13, [x20]
	ldrb	w13, [sp, #72]
	stur	q0, [x20, #13]
	ldur	q0, [x23, #37]
	and	w9, w13, #0x1
	stur	w10, [x20, #33]
	ldr	x10, [sp, #80]
	stur	q0, [x20, #51]
	ldur	q0, [x23, #48]
	strb	w9, [x20, #37]
	and	w9, w11, #0x1
	strb	w14, [x20, #1]
	stur	w12, [x20, #38]
	stur	x10, [x20, #42]
	strb	w9, [x20, #50]
	stur	q0, [x20, #62]
	b	.Lpasetone_BB19_5
.Lpasetone_func_end19:
	.size	pasetone_apply_notch, .Lpasetone_func_end19-pasetone_apply_notch
	.cfi_endproc

	.section	.text.pasetone_board_table,"ax",@progbits
	.globl	pasetone_board_table
	.p2align	2
	.type	pasetone_board_table,@function
pasetone_board_table:
	.cfi_startproc
	cmp	x1, #0
	mov	w9, #4096
	csel	x9, x9, xzr, eq
	cmp	x0, #1
	add	x10, x1, x9
	b.eq	.Lpasetone_BB20_4
	cbnz	x0, .Lpasetone_BB20_6
	cmp	x2, #27
	b.lo	.Lpasetone_BB20_5
	adrp	x11, .Lpasetone_static.1
	add	x11, x11, :lo12:.Lpasetone_static.1
	ldr	q0, [x11]
	ldur	q1, [x11, #11]
	str	q0, [x10]
	stur	q1, [x10, #11]
	mov	w10, #27
	stp	x10, xzr, [x8]
	stp	wzr, wzr, [x8, #16]
	ret
.Lpasetone_BB20_4:
	cmp	x2, #216
	b.hs	.Lpasetone_BB20_7
.Lpasetone_BB20_5:
	mov	w9, #8
	stp	xzr, xzr, [x8]
	stp	w9, wzr, [x8, #16]
	ret
.Lpasetone_BB20_6:
	mov	w9, #1
	stp	xzr, xzr, [x8]
	stp	w9, wzr, [x8, #16]
	ret
.Lpasetone_BB20_7:
	adrp	x12, .Lpasetone_static.2
	add	x12, x12, :lo12:.Lpasetone_static.2
	mov	x11, #562949953421312
	ldp	q1, q2, [x12, #176]
	ldr	q0, [x12, #160]
	str	x11, [x10, #208]
	stp	q0, q1, [x10, #160]
	ldp	q0, q1, [x12, #96]
	str	q2, [x10, #192]
	ldr	q2, [x12, #144]
	stp	q0, q1, [x10, #96]
	ldr	q0, [x12, #128]
	ldr	q1, [x12, #32]
	stp	q0, q2, [x10, #128]
	ldr	q0, [x12, #48]
	ldr	q2, [x12, #80]
	stp	q1, q0, [x10, #32]
	ldr	q0, [x12, #64]
	ldr	q1, [x12, #16]
	stp	q0, q2, [x10, #64]
	ldr	q0, [x12]
	stp	q0, q1, [x10]
	mov	w10, #216
	stp	x10, xzr, [x8]
	stp	wzr, wzr, [x8, #16]
	ret
.Lpasetone_func_end20:
	.size	pasetone_board_table, .Lpasetone_func_end20-pasetone_board_table
	.cfi_endproc

	.section	.text.pasetone_centre,"ax",@progbits
	.globl	pasetone_centre
	.p2align	2
	.type	pasetone_centre,@function
pasetone_centre:
	.cfi_startproc
	sub	sp, sp, #256
	.cfi_def_cfa_offset 256
	stp	x29, x30, [sp, #160]
	stp	x28, x27, [sp, #176]
	stp	x26, x25, [sp, #192]
	stp	x24, x23, [sp, #208]
	stp	x22, x21, [sp, #224]
	stp	x20, x19, [sp, #240]
	add	x29, sp, #160
	.cfi_def_cfa w29, 96
	.cfi_offset w19, -8
	.cfi_offset w20, -16
	.cfi_offset w21, -24
	.cfi_offset w22, -32
	.cfi_offset w23, -40
	.cfi_offset w24, -48
	.cfi_offset w25, -56
	.cfi_offset w26, -64
	.cfi_offset w27, -72
	.cfi_offset w28, -80
	.cfi_offset w30, -88
	.cfi_offset w29, -96
	.cfi_remember_state
	cmp	x0, #0
	mov	w11, #4096
	csel	x10, x11, xzr, eq
	cmp	x2, #0
	csel	x9, x11, xzr, eq
	cmp	x4, #0
	csel	x22, x11, xzr, eq
	cmp	x1, #29
	b.ne	.Lpasetone_BB21_8
	add	x10, x0, x10
	mov	x13, #13531
	ldur	w11, [x10, #1]
	ldursw	x12, [x10, #5]
	movk	x13, #55222, lsl #16
	movk	x13, #56962, lsl #32
	mul	x12, x12, x11
	movk	x13, #17179, lsl #48
	smulh	x12, x12, x13
	asr	x13, x12, #18
	add	x12, x13, x12, lsr #63
	ldrb	w13, [x10]
	add	x12, x12, x11
	mov	x11, #4294967296
	cmp	x12, x11
	csel	x11, x12, x11, lo
	cmp	w13, #1
	b.hi	.Lpasetone_BB21_8
	mov	x13, #-4294967296
	mov	w11, w11
	add	x12, x12, x13
	mov	x13, #-4294967295
	cmp	x12, x13
	ccmp	x11, #0, #4, hs
	b.eq	.Lpasetone_BB21_8
	ldur	x25, [x10, #9]
	add	x0, sp, #64
	add	x1, x2, x9
	mov	x2, x3
	mov	x23, x4
	mov	x20, x5
	mov	x21, x8
	bl	"records::decode_tuner"
	ldrb	w8, [sp, #64]
	cmp	w8, #1
	b.ne	.Lpasetone_BB21_10
	ldrb	w8, [sp, #85]
	ldrb	w27, [sp, #114]
	add	x0, sp, #64
	ldp	w26, w24, [sp, #128]
	str	x8, [sp, #16]
	ldrb	w8, [sp, #87]
	add	x1, x23, x22
	ldrb	w19, [sp, #117]
	ldrb	w28, [sp, #118]
	mov	x2, x20
	str	w8, [sp, #52]
	ldrb	w8, [sp, #89]
	mov	x3, x25
	stp	xzr, xzr, [sp, #64]
	str	x8, [sp, #8]
	ldrb	w8, [sp, #90]
	str	xzr, [sp, #80]
	str	x8, [sp, #40]
	ldrb	w8, [sp, #91]
	str	x8, [sp, #32]
	ldrb	w8, [sp, #112]
	str	w8, [sp, #60]
	ldrb	w8, [sp, #116]
	str	w8, [sp, #56]
	ldr	x8, [sp, #144]
	str	x8, [sp, #24]
	bl	"bands::plan_by_table"
	cmp	w26, #0
	ccmp	x24, #0, #4, ne
	cset	w8, eq
	b.eq	.Lpasetone_BB21_11
	ldp	w10, w9, [sp, #56]
	orr	w9, w27, w9
	orr	w10, w10, w19
	orr	w9, w9, w10
	orr	w9, w9, w28
	tbnz	w9, #0, .Lpasetone_BB21_11
	ldp	x9, x8, [sp, #32]
	ldr	w10, [sp, #52]
	tst	w10, #0x8
	lsl	x8, x8, #1
	orr	x8, x8, x9, lsl #9
	ldrb	w9, [sp, #64]
	csel	x10, x8, xzr, eq
	mov	x8, x21
	cbz	w9, .Lpasetone_BB21_12
.Lpasetone_BB21_7:
	mov	x10, xzr
	b	.Lpasetone_BB21_9
.Lpasetone_BB21_8:
	mov	x10, xzr
	mov	w9, #1
.Lpasetone_BB21_9:
	stp	x10, xzr, [x8]
	stp	w9, wzr, [x8, #16]
	.cfi_def_cfa wsp, 256
	ldp	x20, x19, [sp, #240]
	ldp	x22, x21, [sp, #224]
	ldp	x24, x23, [sp, #208]
	ldp	x26, x25, [sp, #192]
	ldp	x28, x27, [sp, #176]
	ldp	x29, x30, [sp, #160]
	add	sp, sp, #256
	.cfi_def_cfa_offset 0
	.cfi_restore w19
	.cfi_restore w20
	.cfi_restore w21
	.cfi_restore w22
	.cfi_restore w23
	.cfi_restore w24
	.cfi_restore w25
	.cfi_restore w26
	.cfi_restore w27
	.cfi_restore w28
	.cfi_restore w30
	.cfi_restore w29
	ret
.Lpasetone_BB21_10:
	.cfi_restore_state
	mov	x10, xzr
	mov	w9, #1
	mov	x8, x21
	b	.Lpasetone_BB21_9
.Lpasetone_BB21_11:
	ldrb	w9, [sp, #64]
	cmp	w8, #0
	mov	w8, #20
	csinc	w8, w8, wzr, eq
	mov	x10, xzr
	cmp	w9, #19
	csel	w9, w9, w8, eq
	mov	x8, x21
	b	.Lpasetone_BB21_9
.Lpasetone_BB21_12:
	ldr	x11, [sp, #8]
	lsr	x9, x11, #6
	bfi	x9, x11, #2, #6
	ldr	x11, [sp, #72]
	orr	x9, x10, x9, lsl #17
	ldr	x10, [sp, #16]
	add	x9, x9, #416, lsl #12
	lsr	x10, x10, #5
	umull	x9, w9, w24
	add	x10, x10, #17
	lsr	x9, x9, x10
	subs	x10, x25, x11
	b.ls	.Lpasetone_BB21_16
	ldr	x12, [sp, #24]
	subs	x11, x9, x12
	b.lo	.Lpasetone_BB21_17
	adds	x10, x10, x11
	b.hs	.Lpasetone_BB21_18
.Lpasetone_BB21_15:
	mov	w9, wzr
	b	.Lpasetone_BB21_9
.Lpasetone_BB21_16:
	ldr	x10, [sp, #24]
	subs	x9, x9, x10
	sub	x10, x11, x25
	csel	x9, xzr, x9, lo
	cset	w11, hs
	subs	x9, x9, x10
	cset	w10, hs
	tst	w11, w10
	mov	w11, #2
	csel	x10, x9, xzr, ne
	csel	w9, wzr, w11, ne
	b	.Lpasetone_BB21_9
.Lpasetone_BB21_17:
	sub	x9, x12, x9
	subs	x9, x10, x9
	csel	x10, xzr, x9, lo
	b.hs	.Lpasetone_BB21_15
.Lpasetone_BB21_18:
	mov	w9, #2
	b	.Lpasetone_BB21_7
.Lpasetone_func_end21:
	.size	pasetone_centre, .Lpasetone_func_end21-pasetone_centre
	.cfi_endproc

	.section	.text.pasetone_corrected_xtal_hz,"ax",@progbits
	.globl	pasetone_corrected_xtal_hz
	.p2align	2
	.type	pasetone_corrected_xtal_hz,@function
pasetone_corrected_xtal_hz:
	.cfi_startproc
	cmp	x1, #29
	b.ne	.Lpasetone_BB22_4
	cmp	x0, #0
	mov	w9, #4096
	mov	x12, #13531
	csel	x9, x9, xzr, eq
	movk	x12, #55222, lsl #16
	add	x9, x0, x9
	movk	x12, #56962, lsl #32
	ldur	w10, [x9, #1]
	ldursw	x11, [x9, #5]
	movk	x12, #17179, lsl #48
	mul	x11, x11, x10
	smulh	x11, x11, x12
	asr	x12, x11, #18
	add	x11, x12, x11, lsr #63
	ldrb	w12, [x9]
	mov	x9, #4294967296
	add	x10, x11, x10
	cmp	x10, x9
	csel	x9, x10, x9, lo
	cmp	w12, #1
	b.hi	.Lpasetone_BB22_4
	sub	x10, x10, #1
	mov	w11, #-2
	mov	w12, w9
	cmp	x10, x11
	ccmp	x12, #0, #4, ls
	b.eq	.Lpasetone_BB22_4
	stp	x9, xzr, [x8]
	stp	wzr, wzr, [x8, #16]
	ret
.Lpasetone_BB22_4:
	mov	w10, #1
	stp	xzr, xzr, [x8]
	stp	w10, wzr, [x8, #16]
	ret
.Lpasetone_func_end22:
	.size	pasetone_corrected_xtal_hz, .Lpasetone_func_end22-pasetone_corrected_xtal_hz
	.cfi_endproc

	.section	.text.pasetone_driver_new,"ax",@progbits
	.globl	pasetone_driver_new
	.p2align	2
	.type	pasetone_driver_new,@function
pasetone_driver_new:
	.cfi_startproc
	cmp	x5, #0
	mov	w9, #4096
	csel	x9, x9, xzr, eq
	cbz	x0, .Lpasetone_BB23_4
	cmp	x0, #1
	b.ne	.Lpasetone_BB23_3
	mov	w10, #1
	mov	x12, #-4294967296
	mov	x11, #-4294967295
	add	x13, x1, x12
	cmp	x13, x11
	b.hs	.Lpasetone_BB23_5
.Lpasetone_BB23_3:
	mov	w11, #1
	stp	xzr, xzr, [x8]
	stp	w11, wzr, [x8, #16]
	ret
.Lpasetone_BB23_4:
	mov	w10, wzr
	mov	x12, #-4294967296
	mov	x11, #-4294967295
	add	x13, x1, x12
	cmp	x13, x11
	b.lo	.Lpasetone_BB23_3
.Lpasetone_BB23_5:
	sxtw	x13, w2
	mov	x14, #13531
	movk	x14, #55222, lsl #16
	mul	x13, x1, x13
	movk	x14, #56962, lsl #32
	movk	x14, #17179, lsl #48
	smulh	x13, x13, x14
	asr	x14, x13, #18
	add	x13, x14, x13, lsr #63
	mov	x14, #4294967296
	add	x13, x13, x1
	cmp	x13, x14
	add	x12, x13, x12
	csel	x14, x13, x14, lo
	cmp	x12, x11
	mov	w13, w14
	ccmp	x13, #0, #4, hs
	b.ne	.Lpasetone_BB23_7
	mov	w11, #4
	stp	xzr, xzr, [x8]
	stp	w11, wzr, [x8, #16]
	ret
.Lpasetone_BB23_7:
	cmp	x6, #29
	b.hs	.Lpasetone_BB23_9
	mov	w11, #8
	stp	xzr, xzr, [x8]
	stp	w11, wzr, [x8, #16]
	ret
.Lpasetone_BB23_9:
	add	x9, x5, x9
	strb	w10, [x9]
	stur	w1, [x9, #1]
	stur	w2, [x9, #5]
	stur	x3, [x9, #9]
	stur	w4, [x9, #17]
	stur	xzr, [x9, #21]
	stp	xzr, xzr, [x8]
	stp	wzr, wzr, [x8, #16]
	ret
.Lpasetone_func_end23:
	.size	pasetone_driver_new, .Lpasetone_func_end23-pasetone_driver_new
	.cfi_endproc

	.section	.text.pasetone_evidence,"ax",@progbits
	.globl	pasetone_evidence
	.p2align	2
	.type	pasetone_evidence,@function
pasetone_evidence:
	.cfi_startproc
	sub	sp, sp, #400
	.cfi_def_cfa_offset 400
	stp	x29, x30, [sp, #304]
	stp	x28, x27, [sp, #320]
	stp	x26, x25, [sp, #336]
	stp	x24, x23, [sp, #352]
	stp	x22, x21, [sp, #368]
	stp	x20, x19, [sp, #384]
	add	x29, sp, #304
	.cfi_def_cfa w29, 96
	.cfi_offset w19, -8
	.cfi_offset w20, -16
	.cfi_offset w21, -24
	.cfi_offset w22, -32
	.cfi_offset w23, -40
	.cfi_offset w24, -48
	.cfi_offset w25, -56
	.cfi_offset w26, -64
	.cfi_offset w27, -72
	.cfi_offset w28, -80
	.cfi_offset w30, -88
	.cfi_offset w29, -96
	.cfi_remember_state
	cmp	x0, #0
	mov	w11, #4096
	mov	w21, #4
	csel	x10, x11, xzr, eq
	cmp	x5, #0
	csel	x11, x11, xzr, eq
	cbz	w3, .Lpasetone_BB24_169
	cbz	w4, .Lpasetone_BB24_169
	movi	v0.2d, #0000000000000000
	mov	w9, w2
	mov	x2, x1
	add	x21, sp, #48
	str	xzr, [sp, #240]
	stp	xzr, xzr, [x29, #-48]
	stur	xzr, [x29, #-32]
	stp	q0, q0, [sp, #48]
	stp	q0, q0, [sp, #80]
	stp	q0, q0, [sp, #112]
	stp	q0, q0, [sp, #144]
	stp	q0, q0, [sp, #176]
	stp	q0, q0, [sp, #208]
	str	x11, [sp, #32]
	cbz	x1, .Lpasetone_BB24_112
	mov	x26, x8
	and	w27, w9, #0xff
	sub	x8, x29, #24
	add	x9, sp, #48
	mov	w24, w3
	mov	x25, x5
	mov	x23, xzr
	add	x19, x0, x10
	orr	x28, x8, #0x1
	orr	x22, x9, #0x1
	stp	x4, x6, [sp, #8]
	b	.Lpasetone_BB24_5
.Lpasetone_BB24_4:
	str	x23, [sp, #240]
	cbz	x2, .Lpasetone_BB24_115
.Lpasetone_BB24_5:
	sub	x0, x29, #48
	mov	x1, x19
	bl	"transcript::read_section"
	ldurb	w8, [x29, #-48]
	cmp	w8, #1
	b.ne	.Lpasetone_BB24_114
	ldp	x2, x8, [x29, #-40]
	cbz	x8, .Lpasetone_BB24_4
	add	x9, x19, x2
	b	.Lpasetone_BB24_9
.Lpasetone_BB24_8:
	and	x11, x23, #0xffff0000
	mov	w10, #2
	orr	x11, x11, x16, lsl #32
	ubfiz	x12, x17, #8, #8
	orr	x11, x12, x11
	orr	x23, x11, x10
	cbz	x8, .Lpasetone_BB24_4
.Lpasetone_BB24_9:
	sub	x8, x8, #1
	add	x10, x9, x8, lsl #4
	ldrb	w13, [x10]
	ldrb	w12, [x10, #2]
	ldr	x11, [x10, #8]
	ldrb	w14, [x10, #1]
	ldrb	w15, [x10, #3]
	ldrh	w16, [x10, #4]
	cmp	w13, #2
	ccmp	w12, w27, #0, eq
	cset	w10, eq
	b.ne	.Lpasetone_BB24_16
	cmp	w14, #0
	mov	w17, #1
	stur	x11, [x29, #-24]
	cinc	w17, w17, eq
	cmp	w15, #2
	b.lo	.Lpasetone_BB24_108
	and	x0, x11, #0xff
	sub	x18, x15, #1
	mov	x3, x28
	add	x1, x0, x0, lsl #1
	sub	x0, x0, #32
	add	x1, x22, x1
	b	.Lpasetone_BB24_13
.Lpasetone_BB24_12:
	subs	x18, x18, #1
	add	x0, x0, #1
	add	x1, x1, #3
	b.eq	.Lpasetone_BB24_16
.Lpasetone_BB24_13:
	ldrb	w4, [x3], #1
	cmn	x0, #27
	b.lo	.Lpasetone_BB24_12
	ldurb	w5, [x1, #-1]
	cmp	w5, #1
	b.eq	.Lpasetone_BB24_12
	mov	w5, #1
	strb	w4, [x1]
	sturb	w5, [x1, #-1]
	strb	w17, [x1, #1]
	b	.Lpasetone_BB24_12
.Lpasetone_BB24_16:
	and	w17, w13, #0xfc
	cmp	w17, #4
	b.ne	.Lpasetone_BB24_108
	add	w17, w16, w15
	cmp	w12, #15
	mov	w18, #256
	ccmp	w17, w18, #2, ls
	and	w1, w13, #0x6
	mov	w0, #12288
	cset	w18, hi
	cmp	w16, #2
	ccmp	w17, #1, #0, lo
	ccmp	w12, #1, #0, hi
	csinc	w18, w18, wzr, ne
	cmp	w1, #4
	csel	w18, wzr, w18, ne
	cmp	w1, #6
	ccmp	w12, #2, #0, eq
	ccmp	w16, w0, #2, eq
	ccmp	w17, w0, #0, ls
	csinc	w0, w18, wzr, ls
	cmp	w14, #0
	cset	w18, ne
	orr	w18, w18, w0
	tst	w18, #0x1
	mov	w18, #1
	cinc	w18, w18, eq
	cmp	w1, #4
	b.ne	.Lpasetone_BB24_22
	cmp	w12, #1
	b.ne	.Lpasetone_BB24_22
	cmp	w16, #22
	ccmp	w17, #21, #0, lo
	cset	w1, hi
	tbz	w0, #0, .Lpasetone_BB24_31
	cbz	w1, .Lpasetone_BB24_70
	sub	x18, x29, #24
	stur	x11, [x29, #-24]
	sub	x18, x18, w16, uxtw
	ldrb	w18, [x18, #21]
	ldrb	w0, [sp, #168]
	cmp	w0, #1
	b.ne	.Lpasetone_BB24_71
	b	.Lpasetone_BB24_72
.Lpasetone_BB24_22:
	tbz	w0, #0, .Lpasetone_BB24_108
	ldrb	w16, [sp, #168]
	cmp	w16, #1
	b.ne	.Lpasetone_BB24_62
	ldrb	w16, [sp, #171]
	cmp	w16, #1
	b.ne	.Lpasetone_BB24_63
.Lpasetone_BB24_25:
	ldrb	w16, [sp, #174]
	cmp	w16, #1
	b.ne	.Lpasetone_BB24_64
.Lpasetone_BB24_26:
	ldrb	w16, [sp, #177]
	cmp	w16, #1
	b.ne	.Lpasetone_BB24_65
.Lpasetone_BB24_27:
	ldrb	w16, [sp, #180]
	cmp	w16, #1
	b.ne	.Lpasetone_BB24_66
.Lpasetone_BB24_28:
	ldrb	w16, [sp, #183]
	cmp	w16, #1
	b.ne	.Lpasetone_BB24_67
.Lpasetone_BB24_29:
	ldrb	w16, [sp, #186]
	cmp	w16, #1
	b.ne	.Lpasetone_BB24_68
.Lpasetone_BB24_30:
	ldrb	w16, [sp, #189]
	cmp	w16, #1
	b.ne	.Lpasetone_BB24_69
	b	.Lpasetone_BB24_108
.Lpasetone_BB24_31:
	tbz	w1, #0, .Lpasetone_BB24_34
	ldrb	w0, [sp, #168]
	stur	x11, [x29, #-24]
	cmp	w0, #1
	b.eq	.Lpasetone_BB24_34
	sub	x0, x29, #24
	mov	w1, #1
	strb	w18, [sp, #170]
	sub	x0, x0, w16, uxtw
	strb	w1, [sp, #168]
	ldrb	w0, [x0, #21]
	strb	w0, [sp, #169]
.Lpasetone_BB24_34:
	cmp	w16, #25
	b.hi	.Lpasetone_BB24_38
	cmp	w17, #26
	b.lo	.Lpasetone_BB24_38
	ldrb	w0, [sp, #171]
	stur	x11, [x29, #-24]
	cmp	w0, #1
	b.eq	.Lpasetone_BB24_38
	sub	x0, x29, #24
	mov	w1, #1
	strb	w18, [sp, #173]
	sub	x0, x0, w16, uxtw
	strb	w1, [sp, #171]
	ldrb	w0, [x0, #25]
	strb	w0, [sp, #172]
.Lpasetone_BB24_38:
	cmp	w16, #26
	b.hi	.Lpasetone_BB24_42
	cmp	w17, #27
	b.lo	.Lpasetone_BB24_42
	ldrb	w0, [sp, #174]
	stur	x11, [x29, #-24]
	cmp	w0, #1
	b.eq	.Lpasetone_BB24_42
	sub	x0, x29, #24
	mov	w1, #1
	strb	w18, [sp, #176]
	sub	x0, x0, w16, uxtw
	strb	w1, [sp, #174]
	ldrb	w0, [x0, #26]
	strb	w0, [sp, #175]
.Lpasetone_BB24_42:
	cmp	w16, #27
	b.hi	.Lpasetone_BB24_46
	cmp	w17, #28
	b.lo	.Lpasetone_BB24_46
	ldrb	w0, [sp, #177]
	stur	x11, [x29, #-24]
	cmp	w0, #1
	b.eq	.Lpasetone_BB24_46
	sub	x0, x29, #24
	mov	w1, #1
	strb	w18, [sp, #179]
	sub	x0, x0, w16, uxtw
	strb	w1, [sp, #177]
	ldrb	w0, [x0, #27]
	strb	w0, [sp, #178]
.Lpasetone_BB24_46:
	cmp	w16, #159
	b.hi	.Lpasetone_BB24_50
	cmp	w17, #160
	b.lo	.Lpasetone_BB24_50
	ldrb	w0, [sp, #180]
	stur	x11, [x29, #-24]
	cmp	w0, #1
	b.eq	.Lpasetone_BB24_50
	sub	x0, x29, #24
	mov	w1, #1
	strb	w18, [sp, #182]
	sub	x0, x0, w16, uxtw
	strb	w1, [sp, #180]
	ldrb	w0, [x0, #159]
	strb	w0, [sp, #181]
.Lpasetone_BB24_50:
	cmp	w16, #160
	b.hi	.Lpasetone_BB24_54
	cmp	w17, #161
	b.lo	.Lpasetone_BB24_54
	ldrb	w0, [sp, #183]
	stur	x11, [x29, #-24]
	cmp	w0, #1
	b.eq	.Lpasetone_BB24_54
	sub	x0, x29, #24
	mov	w1, #1
	strb	w18, [sp, #185]
	sub	x0, x0, w16, uxtw
	strb	w1, [sp, #183]
	ldrb	w0, [x0, #160]
	strb	w0, [sp, #184]
.Lpasetone_BB24_54:
	cmp	w16, #161
	b.hi	.Lpasetone_BB24_58
	cmp	w17, #162
	b.lo	.Lpasetone_BB24_58
	ldrb	w0, [sp, #186]
	stur	x11, [x29, #-24]
	cmp	w0, #1
	b.eq	.Lpasetone_BB24_58
	sub	x0, x29, #24
	mov	w1, #1
	strb	w18, [sp, #188]
	sub	x0, x0, w16, uxtw
	strb	w1, [sp, #186]
	ldrb	w0, [x0, #161]
	strb	w0, [sp, #187]
.Lpasetone_BB24_58:
	cmp	w16, #162
	b.hi	.Lpasetone_BB24_108
	cmp	w17, #163
	b.lo	.Lpasetone_BB24_108
	ldrb	w17, [sp, #189]
	stur	x11, [x29, #-24]
	cmp	w17, #1
	b.eq	.Lpasetone_BB24_108
	sub	x17, x29, #24
	strb	w18, [sp, #191]
	sub	x16, x17, w16, uxtw
	mov	w17, #1
	strb	w17, [sp, #189]
	ldrb	w16, [x16, #162]
	strb	w16, [sp, #190]
	b	.Lpasetone_BB24_108
.Lpasetone_BB24_62:
	mov	w16, #1
	strh	w16, [sp, #168]
	strb	w16, [sp, #170]
	ldrb	w16, [sp, #171]
	cmp	w16, #1
	b.eq	.Lpasetone_BB24_25
.Lpasetone_BB24_63:
	mov	w16, #1
	sturh	w16, [sp, #171]
	strb	w16, [sp, #173]
	ldrb	w16, [sp, #174]
	cmp	w16, #1
	b.eq	.Lpasetone_BB24_26
.Lpasetone_BB24_64:
	mov	w16, #1
	strh	w16, [sp, #174]
	strb	w16, [sp, #176]
	ldrb	w16, [sp, #177]
	cmp	w16, #1
	b.eq	.Lpasetone_BB24_27
.Lpasetone_BB24_65:
	mov	w16, #1
	sturh	w16, [x21, #129]
	strb	w16, [sp, #179]
	ldrb	w16, [sp, #180]
	cmp	w16, #1
	b.eq	.Lpasetone_BB24_28
.Lpasetone_BB24_66:
	mov	w16, #1
	strh	w16, [sp, #180]
	strb	w16, [sp, #182]
	ldrb	w16, [sp, #183]
	cmp	w16, #1
	b.eq	.Lpasetone_BB24_29
.Lpasetone_BB24_67:
	mov	w16, #1
	sturh	w16, [x21, #135]
	strb	w16, [sp, #185]
	ldrb	w16, [sp, #186]
	cmp	w16, #1
	b.eq	.Lpasetone_BB24_30
.Lpasetone_BB24_68:
	mov	w16, #1
	strh	w16, [sp, #186]
	strb	w16, [sp, #188]
	ldrb	w16, [sp, #189]
	cmp	w16, #1
	b.eq	.Lpasetone_BB24_108
.Lpasetone_BB24_69:
	mov	w16, #1
	sturh	w16, [x21, #141]
	b	.Lpasetone_BB24_107
.Lpasetone_BB24_70:
	mov	w18, wzr
	ldrb	w0, [sp, #168]
	cmp	w0, #1
	b.eq	.Lpasetone_BB24_72
.Lpasetone_BB24_71:
	mov	w0, #1
	strb	w18, [sp, #169]
	strb	w0, [sp, #168]
	strb	w0, [sp, #170]
.Lpasetone_BB24_72:
	cmp	w16, #25
	mov	w18, wzr
	b.hi	.Lpasetone_BB24_75
	cmp	w17, #26
	b.lo	.Lpasetone_BB24_75
	sub	x18, x29, #24
	stur	x11, [x29, #-24]
	sub	x18, x18, w16, uxtw
	ldrb	w18, [x18, #25]
.Lpasetone_BB24_75:
	ldrb	w0, [sp, #171]
	cmp	w0, #1
	b.eq	.Lpasetone_BB24_77
	mov	w0, #1
	strb	w18, [sp, #172]
	strb	w0, [sp, #171]
	strb	w0, [sp, #173]
.Lpasetone_BB24_77:
	cmp	w16, #26
	mov	w18, wzr
	b.hi	.Lpasetone_BB24_80
	cmp	w17, #27
	b.lo	.Lpasetone_BB24_80
	sub	x18, x29, #24
	stur	x11, [x29, #-24]
	sub	x18, x18, w16, uxtw
	ldrb	w18, [x18, #26]
.Lpasetone_BB24_80:
	ldrb	w0, [sp, #174]
	cmp	w0, #1
	b.eq	.Lpasetone_BB24_82
	mov	w0, #1
	strb	w18, [sp, #175]
	strb	w0, [sp, #174]
	strb	w0, [sp, #176]
.Lpasetone_BB24_82:
	cmp	w16, #27
	mov	w18, wzr
	b.hi	.Lpasetone_BB24_85
	cmp	w17, #28
	b.lo	.Lpasetone_BB24_85
	sub	x18, x29, #24
	stur	x11, [x29, #-24]
	sub	x18, x18, w16, uxtw
	ldrb	w18, [x18, #27]
.Lpasetone_BB24_85:
	ldrb	w0, [sp, #177]
	cmp	w0, #1
	b.eq	.Lpasetone_BB24_87
	mov	w0, #1
	strb	w18, [sp, #178]
	strb	w0, [sp, #177]
	strb	w0, [sp, #179]
.Lpasetone_BB24_87:
	cmp	w16, #159
	mov	w18, wzr
	b.hi	.Lpasetone_BB24_90
	cmp	w17, #160
	b.lo	.Lpasetone_BB24_90
	sub	x18, x29, #24
	stur	x11, [x29, #-24]
	sub	x18, x18, w16, uxtw
	ldrb	w18, [x18, #159]
.Lpasetone_BB24_90:
	ldrb	w0, [sp, #180]
	cmp	w0, #1
	b.eq	.Lpasetone_BB24_92
	mov	w0, #1
	strb	w18, [sp, #181]
	strb	w0, [sp, #180]
	strb	w0, [sp, #182]
.Lpasetone_BB24_92:
	cmp	w16, #160
	mov	w18, wzr
	b.hi	.Lpasetone_BB24_95
	cmp	w17, #161
	b.lo	.Lpasetone_BB24_95
	sub	x18, x29, #24
	stur	x11, [x29, #-24]
	sub	x18, x18, w16, uxtw
	ldrb	w18, [x18, #160]
.Lpasetone_BB24_95:
	ldrb	w0, [sp, #183]
	cmp	w0, #1
	b.eq	.Lpasetone_BB24_97
	mov	w0, #1
	strb	w18, [sp, #184]
	strb	w0, [sp, #183]
	strb	w0, [sp, #185]
.Lpasetone_BB24_97:
	cmp	w16, #161
	mov	w18, wzr
	b.hi	.Lpasetone_BB24_100
	cmp	w17, #162
	b.lo	.Lpasetone_BB24_100
	sub	x18, x29, #24
	stur	x11, [x29, #-24]
	sub	x18, x18, w16, uxtw
	ldrb	w18, [x18, #161]
.Lpasetone_BB24_100:
	ldrb	w0, [sp, #186]
	cmp	w0, #1
	b.eq	.Lpasetone_BB24_102
	mov	w0, #1
	strb	w18, [sp, #187]
	strb	w0, [sp, #186]
	strb	w0, [sp, #188]
.Lpasetone_BB24_102:
	cmp	w16, #162
	mov	w18, wzr
	b.hi	.Lpasetone_BB24_105
	cmp	w17, #163
	b.lo	.Lpasetone_BB24_105
	sub	x17, x29, #24
	stur	x11, [x29, #-24]
	sub	x16, x17, w16, uxtw
	ldrb	w18, [x16, #162]
.Lpasetone_BB24_105:
	ldrb	w16, [sp, #189]
	cmp	w16, #1
	b.eq	.Lpasetone_BB24_108
	mov	w16, #1
	strb	w18, [sp, #190]
	strb	w16, [sp, #189]
.Lpasetone_BB24_107:
	strb	w16, [sp, #191]
.Lpasetone_BB24_108:
	and	w18, w23, #0xff
	lsr	x17, x23, #8
	lsr	x16, x23, #32
	cmp	w18, #2
	b.eq	.Lpasetone_BB24_8
	cmp	w15, #0
	and	w1, w11, #0xff
	cset	w0, ne
	cmp	w1, #22
	sub	w0, w15, w0
	add	w3, w1, w0
	ccmp	w3, #21, #0, lo
	cset	w0, hi
	cmp	w1, #23
	ccmp	w3, #22, #0, lo
	csinc	w0, w0, wzr, ls
	cmp	w1, #21
	ccmp	w3, #20, #0, lo
	csinc	w0, w0, wzr, ls
	cmp	w1, #17
	ccmp	w3, #16, #0, lo
	csinc	w0, w0, wzr, ls
	cmp	w1, #19
	ccmp	w3, #18, #0, lo
	csinc	w1, w0, wzr, ls
	cmp	w13, #3
	ccmp	w15, #3, #0, eq
	ccmp	w14, #0, #0, eq
	and	w14, w10, w1
	ccmp	w12, w27, #0, eq
	cset	w13, eq
	csinc	w12, w14, wzr, ne
	cbnz	w18, .Lpasetone_BB24_111
	ubfx	x11, x11, #16, #8
	adrp	x14, .Lpasetone_static.0
	add	x14, x14, :lo12:.Lpasetone_static.0
	ldrb	w11, [x14, x11]
	tst	w11, #0x40
	mov	w11, #1
	cinc	x11, x11, ne
	cmp	w13, #0
	csel	x17, x11, xzr, ne
.Lpasetone_BB24_111:
	adds	w14, w16, #1
	and	w10, w10, w0
	csinv	w14, w14, wzr, lo
	cmp	w13, #0
	csel	w13, w14, w16, ne
	and	x14, x23, #0xff
	cmp	w12, #0
	csinc	x12, x14, xzr, eq
	cmp	w10, #0
	mov	w10, #2
	csel	w16, w16, w13, ne
	csel	x10, x10, x12, ne
	orr	x11, xzr, x16, lsl #32
	ubfiz	x12, x17, #8, #8
	orr	x11, x12, x11
	orr	x23, x11, x10
	cbnz	x8, .Lpasetone_BB24_9
	b	.Lpasetone_BB24_4
.Lpasetone_BB24_112:
	mov	w30, wzr
	mov	w14, wzr
	mov	w12, wzr
	mov	x7, xzr
	mov	w17, wzr
	mov	w13, wzr
	mov	w0, wzr
	mov	w10, wzr
	mov	w15, wzr
	mov	w16, wzr
	mov	w1, wzr
	str	wzr, [sp, #44]
.Lpasetone_BB24_113:
	and	w9, w1, #0xffff
	str	x7, [sp, #24]
	cmp	w9, #255
	csel	w26, wzr, w16, ls
	ldrb	w19, [sp, #171]
	ldrh	w23, [sp, #172]
	mov	w7, wzr
	cmp	w19, #1
	b.eq	.Lpasetone_BB24_140
	b	.Lpasetone_BB24_144
.Lpasetone_BB24_114:
	mov	w21, #12
	mov	x8, x26
	b	.Lpasetone_BB24_169
.Lpasetone_BB24_115:
	ldrb	w11, [sp, #114]
	ldrb	w9, [sp, #96]
	lsr	x12, x23, #32
	lsr	x14, x23, #8
	ldurh	w7, [sp, #97]
	ldrb	w17, [sp, #102]
	cmp	w11, #1
	ldurh	w2, [sp, #103]
	ldrb	w13, [sp, #108]
	cset	w16, eq
	cmp	w9, #1
	ldurh	w0, [sp, #109]
	ldrb	w10, [sp, #111]
	ldrh	w15, [sp, #112]
	ldurh	w1, [sp, #115]
	cset	w30, eq
	str	wzr, [sp, #44]
	b.ne	.Lpasetone_BB24_124
	and	w8, w7, #0xff00
	cmp	w8, #512
	mov	x8, x26
	b.ne	.Lpasetone_BB24_125
	ldp	x4, x6, [sp, #8]
	cmp	w17, #1
	mov	x5, x25
	mov	w3, w24
	str	wzr, [sp, #44]
	b.ne	.Lpasetone_BB24_126
	and	w18, w2, #0xff00
	cmp	w18, #512
	b.ne	.Lpasetone_BB24_126
	cmp	w13, #1
	mov	w17, #1
	str	wzr, [sp, #44]
	b.ne	.Lpasetone_BB24_126
	and	w18, w0, #0xff00
	cmp	w18, #512
	b.ne	.Lpasetone_BB24_126
	cmp	w10, #1
	str	wzr, [sp, #44]
	b.ne	.Lpasetone_BB24_129
	and	w18, w15, #0xff00
	mov	w13, #1
	cmp	w18, #512
	b.ne	.Lpasetone_BB24_126
	cmp	w11, #1
	and	w10, w1, #0xff00
	mov	w11, #512
	ccmp	w10, w11, #0, eq
	cset	w10, eq
	str	w10, [sp, #44]
	mov	w10, #1
	cmp	w9, #1
	str	x7, [sp, #24]
	b.eq	.Lpasetone_BB24_127
	b	.Lpasetone_BB24_130
.Lpasetone_BB24_124:
	mov	x8, x26
.Lpasetone_BB24_125:
	ldp	x4, x6, [sp, #8]
	mov	x5, x25
	mov	w3, w24
.Lpasetone_BB24_126:
	cmp	w9, #1
	str	x7, [sp, #24]
	b.ne	.Lpasetone_BB24_130
.Lpasetone_BB24_127:
	cmp	w7, #255
	b.ls	.Lpasetone_BB24_130
	mov	w30, #1
	b	.Lpasetone_BB24_139
.Lpasetone_BB24_129:
	mov	w13, #1
	cmp	w9, #1
	str	x7, [sp, #24]
	b.eq	.Lpasetone_BB24_127
.Lpasetone_BB24_130:
	cmp	w17, #1
	b.ne	.Lpasetone_BB24_133
	cmp	w2, #255
	b.ls	.Lpasetone_BB24_133
	mov	w17, #1
	b	.Lpasetone_BB24_139
.Lpasetone_BB24_133:
	cmp	w13, #1
	b.ne	.Lpasetone_BB24_136
	cmp	w0, #255
	b.ls	.Lpasetone_BB24_136
	mov	w13, #1
	b	.Lpasetone_BB24_139
.Lpasetone_BB24_136:
	cmp	w10, #1
	b.ne	.Lpasetone_BB24_113
	cmp	w15, #255
	b.ls	.Lpasetone_BB24_113
	mov	w10, #1
.Lpasetone_BB24_139:
	mov	w26, #1
	ldrb	w19, [sp, #171]
	ldrh	w23, [sp, #172]
	mov	w7, wzr
	cmp	w19, #1
	b.ne	.Lpasetone_BB24_144
.Lpasetone_BB24_140:
	and	w9, w23, #0xff00
	cmp	w9, #512
	b.ne	.Lpasetone_BB24_144
	ldrb	w9, [sp, #174]
	mov	w7, wzr
	cmp	w9, #1
	b.ne	.Lpasetone_BB24_144
	ldrb	w9, [sp, #176]
	lsl	w9, w9, #8
	cmp	w9, #512
	b.ne	.Lpasetone_BB24_144
	ldrb	w9, [sp, #177]
	ldrh	w11, [sp, #178]
	cmp	w9, #1
	and	w9, w11, #0xff00
	mov	w11, #512
	ccmp	w9, w11, #0, eq
	cset	w7, eq
.Lpasetone_BB24_144:
	cmp	w19, #1
	b.ne	.Lpasetone_BB24_146
	cmp	w23, #255
	b.hi	.Lpasetone_BB24_148
.Lpasetone_BB24_146:
	ldrb	w9, [sp, #174]
	cmp	w9, #1
	b.ne	.Lpasetone_BB24_149
	ldurh	w9, [sp, #175]
	cmp	w9, #255
	b.ls	.Lpasetone_BB24_149
.Lpasetone_BB24_148:
	mov	w9, #1
	b	.Lpasetone_BB24_150
.Lpasetone_BB24_149:
	ldrb	w9, [sp, #177]
	ldrh	w11, [sp, #178]
	and	w11, w11, #0xffff
	cmp	w9, #1
	mov	w9, #255
	ccmp	w11, w9, #0, eq
	cset	w9, hi
.Lpasetone_BB24_150:
	ldrb	w28, [sp, #180]
	ldurh	w18, [x21, #133]
	mov	w22, wzr
	ldrb	w27, [sp, #183]
	ldrh	w20, [sp, #184]
	cmp	w28, #1
	b.ne	.Lpasetone_BB24_157
	and	w11, w18, #0xff00
	cmp	w11, #512
	b.ne	.Lpasetone_BB24_157
	cmp	w27, #1
	mov	w22, wzr
	b.ne	.Lpasetone_BB24_157
	and	w11, w20, #0xff00
	cmp	w11, #512
	b.ne	.Lpasetone_BB24_157
	ldrb	w11, [sp, #186]
	mov	w22, wzr
	cmp	w11, #1
	b.ne	.Lpasetone_BB24_157
	ldrb	w11, [sp, #188]
	lsl	w11, w11, #8
	cmp	w11, #512
	b.ne	.Lpasetone_BB24_157
	ldrb	w11, [sp, #189]
	ldrh	w22, [sp, #190]
	cmp	w11, #1
	and	w11, w22, #0xff00
	mov	w22, #512
	ccmp	w11, w22, #0, eq
	cset	w22, eq
.Lpasetone_BB24_157:
	cmp	w28, #1
	stp	x14, x12, [sp, #8]
	str	w30, [sp, #4]
	b.ne	.Lpasetone_BB24_159
	cmp	w18, #255
	b.hi	.Lpasetone_BB24_163
.Lpasetone_BB24_159:
	cmp	w27, #1
	b.ne	.Lpasetone_BB24_161
	cmp	w20, #255
	b.hi	.Lpasetone_BB24_163
.Lpasetone_BB24_161:
	ldrb	w11, [sp, #186]
	cmp	w11, #1
	b.ne	.Lpasetone_BB24_170
	ldurh	w11, [x21, #139]
	cmp	w11, #255
	b.ls	.Lpasetone_BB24_170
.Lpasetone_BB24_163:
	mov	w11, #1
.Lpasetone_BB24_164:
	cmp	w7, #0
	mov	w14, #2
	ldurh	w24, [sp, #169]
	csel	w30, w14, w9, ne
	ldr	w9, [sp, #44]
	ldrb	w25, [sp, #168]
	lsl	w18, w18, #24
	ldrb	w12, [sp, #186]
	ubfiz	w20, w20, #16, #8
	cmp	w9, #0
	csel	w9, w14, w26, ne
	cmp	w22, #0
	lsr	w26, w24, #8
	csel	w11, w14, w11, ne
	cmp	w25, #1
	ldurh	w14, [x21, #139]
	csel	w26, w26, wzr, eq
	cmp	w28, #1
	ldrb	w21, [sp, #189]
	csel	w18, w18, wzr, eq
	cmp	w27, #1
	ubfiz	w14, w14, #8, #8
	ldrb	w27, [sp, #190]
	csel	w20, w20, wzr, eq
	cmp	w12, #1
	csel	w12, w14, wzr, eq
	cmp	w21, #1
	orr	w18, w20, w18
	csel	w14, w27, wzr, eq
	orr	w12, w12, w14
	orr	w27, w18, w12
	cbz	w27, .Lpasetone_BB24_167
	ubfiz	x12, x4, #22, #32
	udiv	x28, x12, x27
	mov	w18, w4
	cmp	x6, #52
	b.hs	.Lpasetone_BB24_168
.Lpasetone_BB24_166:
	mov	w21, #8
	b	.Lpasetone_BB24_169
.Lpasetone_BB24_167:
	mov	x28, xzr
	mov	w18, w4
	cmp	x6, #52
	b.lo	.Lpasetone_BB24_166
.Lpasetone_BB24_168:
	ubfiz	x12, x1, #8, #8
	cmp	w16, #0
	and	w14, w15, #0xff
	ldurh	w16, [sp, #175]
	mov	w1, #7
	mov	w21, wzr
	csel	x12, x12, xzr, ne
	cmp	w10, #1
	ldr	x10, [sp, #24]
	csel	x14, x14, xzr, eq
	tst	w2, #0x8
	ubfiz	w16, w16, #8, #8
	ccmp	w17, #1, #0, ne
	orr	x12, x14, x12
	ldrb	w14, [sp, #174]
	csel	x12, x12, xzr, ne
	cmp	w13, #1
	mvn	w13, w10, lsr #5
	csel	w15, w0, wzr, eq
	ldr	w10, [sp, #4]
	ldrb	w17, [sp, #177]
	lsl	w0, w15, #10
	and	x13, x13, #0x7
	ubfiz	w2, w23, #16, #6
	cmp	w10, #0
	ldr	x10, [sp, #8]
	and	w0, w0, #0x30000
	csel	x1, x13, x1, ne
	cmp	w14, #1
	orr	w13, w0, w15, lsl #18
	ldrb	w14, [sp, #178]
	csel	w15, w16, wzr, eq
	cmp	w19, #1
	csel	w16, w2, wzr, eq
	cmp	w17, #1
	and	x13, x13, #0xff0000
	orr	w15, w15, w16
	csel	w14, w14, wzr, eq
	orr	x12, x13, x12
	mov	w13, w3
	orr	w14, w15, w14
	add	x12, x12, #208, lsl #12
	neg	w15, w14
	mul	x16, x12, x13
	orr	w17, w30, w9
	and	w12, w15, #0x3fffff
	cmp	w17, #0
	ldr	w17, [sp, #44]
	umull	x13, w18, w12
	ldr	x12, [sp, #32]
	add	x12, x5, x12
	lsl	x13, x13, #1
	lsl	x15, x16, x1
	strb	w9, [x12]
	cset	w9, ne
	strb	w11, [x12, #2]
	subs	x16, x15, x13
	strb	w10, [x12, #4]
	lsr	x11, x16, #23
	mov	w16, #1
	strb	w30, [x12, #1]
	cinc	w16, w16, hs
	strb	w26, [x12, #3]
	csel	x11, xzr, x11, lo
	tst	w17, w7
	strb	wzr, [x12, #7]
	csel	w9, w16, w9, ne
	strb	wzr, [x12, #43]
	cmp	w9, #2
	strb	w9, [x12, #5]
	csel	x11, x11, xzr, eq
	cmp	w17, #0
	strh	wzr, [x12, #50]
	csel	x9, x15, xzr, ne
	cmp	w22, #0
	strb	w11, [x12, #44]
	csel	x10, x28, xzr, ne
	csel	w15, w27, wzr, ne
	cmp	w7, #0
	stur	x9, [x12, #28]
	csel	w9, w14, wzr, ne
	ldr	x14, [sp, #16]
	stur	x10, [x12, #20]
	lsr	x10, x11, #24
	csel	x13, x13, xzr, ne
	cmp	w26, #2
	stp	w14, w9, [x12, #8]
	lsr	x14, x11, #8
	ccmp	w25, #1, #0, eq
	lsr	x9, x13, #8
	strb	w10, [x12, #47]
	csel	w10, w24, wzr, eq
	strb	w14, [x12, #45]
	lsr	x14, x13, #16
	strb	w10, [x12, #6]
	lsr	x10, x13, #24
	strb	w9, [x12, #37]
	lsr	x9, x13, #32
	str	w15, [x12, #16]
	lsr	x15, x11, #16
	strb	w14, [x12, #38]
	lsr	x14, x13, #40
	strb	w10, [x12, #39]
	lsr	x10, x13, #48
	strb	w9, [x12, #40]
	lsr	x9, x11, #32
	lsr	x11, x11, #40
	strb	w15, [x12, #46]
	strb	w13, [x12, #36]
	strb	w14, [x12, #41]
	strb	w10, [x12, #42]
	strb	w9, [x12, #48]
	strb	w11, [x12, #49]
.Lpasetone_BB24_169:
	stp	xzr, xzr, [x8]
	stp	w21, wzr, [x8, #16]
	.cfi_def_cfa wsp, 400
	ldp	x20, x19, [sp, #384]
	ldp	x22, x21, [sp, #368]
	ldp	x24, x23, [sp, #352]
	ldp	x26, x25, [sp, #336]
	ldp	x28, x27, [sp, #320]
	ldp	x29, x30, [sp, #304]
	add	sp, sp, #400
	.cfi_def_cfa_offset 0
	.cfi_restore w19
	.cfi_restore w20
	.cfi_restore w21
	.cfi_restore w22
	.cfi_restore w23
	.cfi_restore w24
	.cfi_restore w25
	.cfi_restore w26
	.cfi_restore w27
	.cfi_restore w28
	.cfi_restore w30
	.cfi_restore w29
	ret
.Lpasetone_BB24_170:
	.cfi_restore_state
	ldrb	w11, [sp, #189]
	ldrh	w24, [sp, #190]
	and	w24, w24, #0xffff
	cmp	w11, #1
	mov	w11, #255
	ccmp	w24, w11, #0, eq
	cset	w11, hi
	b	.Lpasetone_BB24_164
.Lpasetone_func_end24:
	.size	pasetone_evidence, .Lpasetone_func_end24-pasetone_evidence
	.cfi_endproc

	.section	.rodata.cst8,"aM",@progbits,8
	.p2align	3, 0x0
.Lpasetone_CPI25_0:
	.byte	192
	.byte	0
	.byte	32
	.byte	1
	.byte	10
	.byte	0
	.byte	1
	.byte	0
	.section	.text.pasetone_expand,"ax",@progbits
	.globl	pasetone_expand
	.p2align	2
	.type	pasetone_expand,@function
pasetone_expand:
	.cfi_startproc
	sub	sp, sp, #144
	.cfi_def_cfa_offset 144
	stp	x29, x30, [sp, #48]
	stp	x28, x27, [sp, #64]
	stp	x26, x25, [sp, #80]
	stp	x24, x23, [sp, #96]
	stp	x22, x21, [sp, #112]
	stp	x20, x19, [sp, #128]
	add	x29, sp, #48
	.cfi_def_cfa w29, 96
	.cfi_offset w19, -8
	.cfi_offset w20, -16
	.cfi_offset w21, -24
	.cfi_offset w22, -32
	.cfi_offset w23, -40
	.cfi_offset w24, -48
	.cfi_offset w25, -56
	.cfi_offset w26, -64
	.cfi_offset w27, -72
	.cfi_offset w28, -80
	.cfi_offset w30, -88
	.cfi_offset w29, -96
	.cfi_remember_state
	stp	x8, xzr, [sp, #8]
	mov	w8, #4096
	cmp	x0, #0
	mov	x22, x2
	mov	x20, x0
	csel	x25, x8, xzr, eq
	mov	x2, x1
	cmp	x22, #0
	add	x0, sp, #16
	add	x1, x20, x25
	mov	x21, x3
	stp	xzr, xzr, [sp, #24]
	csel	x26, x8, xzr, eq
	bl	"transcript::read_section"
	ldrb	w8, [sp, #16]
	cmp	w8, #1
	b.ne	.Lpasetone_BB25_14
	ldr	x24, [sp, #32]
	cbz	x24, .Lpasetone_BB25_16
	ldr	x8, [sp, #24]
	mov	x23, xzr
	add	x27, x22, x26
	mov	x10, x24
	add	x9, x25, x8
	add	x9, x9, x20
	add	x9, x9, #2
	b	.Lpasetone_BB25_4
.Lpasetone_BB25_3:
	subs	x10, x10, #1
	add	x9, x9, #16
	add	x23, xzr, x23
	b.eq	.Lpasetone_BB25_12
.Lpasetone_BB25_4:
	ldurb	w12, [x9, #-2]
	ldurb	w11, [x9, #-1]
	ldrb	w15, [x9]
	ldrb	w14, [x9, #1]
	and	w13, w12, #0xfe
	cmp	w13, #4
	b.ne	.Lpasetone_BB25_7
	cmp	w15, #15
	mov	w13, #15
	b.hi	.Lpasetone_BB25_15
	ldrb	w15, [x9, #3]
	cbz	w15, .Lpasetone_BB25_10
	b	.Lpasetone_BB25_15
.Lpasetone_BB25_7:
	sub	w13, w12, #6
	cmp	w13, #2
	b.hi	.Lpasetone_BB25_10
	mov	w13, #15
	cbz	w15, .Lpasetone_BB25_15
	cmp	w15, #6
	b.eq	.Lpasetone_BB25_15
.Lpasetone_BB25_10:
	cmp	w12, #9
	b.eq	.Lpasetone_BB25_3
	cmp	w12, #1
	mov	w13, #4
	csel	w12, w12, w13, ne
	csinc	x13, x14, xzr, ne
	mov	w14, #8
	cmp	w12, #8
	add	x13, x13, #8
	ccmp	w12, #3, #4, ne
	and	w12, w12, #0xfe
	csel	x13, x14, x13, eq
	cmp	w12, #4
	ccmp	w11, #0, #0, eq
	csel	x11, x14, xzr, eq
	add	x11, x13, x11
	subs	x10, x10, #1
	add	x9, x9, #16
	add	x23, x11, x23
	b.ne	.Lpasetone_BB25_4
.Lpasetone_BB25_12:
	cmp	x21, x23
	b.hs	.Lpasetone_BB25_19
	mov	w13, #8
	b	.Lpasetone_BB25_15
.Lpasetone_BB25_14:
	mov	w13, #12
.Lpasetone_BB25_15:
	mov	x23, xzr
	b	.Lpasetone_BB25_18
.Lpasetone_BB25_16:
	mov	x23, xzr
.Lpasetone_BB25_17:
	mov	w13, wzr
.Lpasetone_BB25_18:
	ldr	x8, [sp, #8]
	stp	x23, xzr, [x8]
	stp	w13, wzr, [x8, #16]
	.cfi_def_cfa wsp, 144
	ldp	x20, x19, [sp, #128]
	ldp	x22, x21, [sp, #112]
	ldp	x24, x23, [sp, #96]
	ldp	x26, x25, [sp, #80]
	ldp	x28, x27, [sp, #64]
	ldp	x29, x30, [sp, #48]
	add	sp, sp, #144
	.cfi_def_cfa_offset 0
	.cfi_restore w19
	.cfi_restore w20
	.cfi_restore w21
	.cfi_restore w22
	.cfi_restore w23
	.cfi_restore w24
	.cfi_restore w25
	.cfi_restore w26
	.cfi_restore w27
	.cfi_restore w28
	.cfi_restore w30
	.cfi_restore w29
	ret
.Lpasetone_BB25_19:
	.cfi_restore_state
	add	x8, x25, x8
	mov	x21, xzr
	add	x8, x8, x20
	add	x25, x8, #4
	b	.Lpasetone_BB25_21
.Lpasetone_BB25_20:
	subs	x24, x24, #1
	add	x25, x25, #16
	add	x21, xzr, x21
	b.eq	.Lpasetone_BB25_17
.Lpasetone_BB25_21:
	ldurb	w26, [x25, #-4]
	cmp	w26, #9
	b.eq	.Lpasetone_BB25_20
	ldur	x11, [x25, #4]
	ldurb	w28, [x25, #-1]
	cmp	w26, #1
	b.ne	.Lpasetone_BB25_25
	tst	x11, #0xff
	mov	w9, #24
	mov	w12, #16
	csel	x9, x12, x9, eq
	mov	w8, wzr
	mov	w10, #1
	stur	x9, [x29, #-8]
	mov	w9, #18874368
	mov	w11, #1
	mov	w19, #1
.Lpasetone_BB25_24:
	add	x10, x12, x10
	mov	w20, #1
	b	.Lpasetone_BB25_33
.Lpasetone_BB25_25:
	cmp	w26, #3
	ldrb	w12, [x25, #1]
	ldrb	w9, [x25]
	ldurb	w10, [x25, #-2]
	ccmp	w26, #8, #4, ne
	and	w13, w26, #0xfe
	cset	w8, eq
	csel	x19, xzr, x28, eq
	cmp	w13, #2
	stur	x11, [x29, #-8]
	b.eq	.Lpasetone_BB25_30
	cmp	w13, #4
	b.ne	.Lpasetone_BB25_31
	mov	w8, #2097152
	cmp	w26, #8
	orr	x9, x8, x9, lsl #24
	b.eq	.Lpasetone_BB25_29
	cmp	w26, #3
	b.ne	.Lpasetone_BB25_41
.Lpasetone_BB25_29:
	mov	x19, xzr
	mov	x12, xzr
	mov	w8, #1
	mov	x11, x28
	b	.Lpasetone_BB25_24
.Lpasetone_BB25_30:
	lsl	x9, x10, #16
	cmp	w8, #0
	mov	w10, #1552
	mov	w11, #1536
	mov	w20, wzr
	csel	x10, x11, x10, ne
	b	.Lpasetone_BB25_32
.Lpasetone_BB25_31:
	lsl	x11, x12, #24
	cmp	w8, #0
	mov	w12, #16
	csel	x12, xzr, x12, ne
	cmp	w13, #4
	orr	x9, x11, x9, lsl #16
	orr	x10, x12, x10, lsl #8
	cset	w20, eq
.Lpasetone_BB25_32:
	mov	x11, x28
.Lpasetone_BB25_33:
	cmp	w8, #0
	mov	w8, #64
	mov	w12, #192
	csel	x8, x12, x8, ne
	ldurb	w22, [x25, #-3]
	orr	x8, x8, x11, lsl #48
	add	x8, x8, x9
	add	x9, x10, x8, lsr #32
	add	x10, x27, x21
	str	w8, [x10]
	lsr	x8, x9, #8
	strb	w9, [x10, #4]
	lsr	x9, x9, #16
	strb	wzr, [x10, #7]
	strb	w9, [x10, #6]
	add	x9, x21, #8
	strb	w8, [x10, #5]
	cbz	x19, .Lpasetone_BB25_35
	add	x0, x27, x9
	sub	x1, x29, #8
	mov	x2, x19
	bl	memcpy
	add	x9, x21, #8
.Lpasetone_BB25_35:
	cmp	w22, #0
	eor	w8, w20, #0x1
	csinc	w8, w8, wzr, eq
	tbnz	w8, #0, .Lpasetone_BB25_37
	adrp	x8, .Lpasetone_CPI25_0
	add	x9, x27, x9
	ldr	d0, [x8, :lo12:.Lpasetone_CPI25_0]
	str	d0, [x9, x19]
.Lpasetone_BB25_37:
	cmp	w26, #9
	b.eq	.Lpasetone_BB25_20
	cmp	w26, #1
	b.ne	.Lpasetone_BB25_40
	mov	w26, #4
	mov	w28, #1
.Lpasetone_BB25_40:
	cmp	w26, #8
	add	x8, x28, #8
	mov	w9, #8
	ccmp	w26, #3, #4, ne
	and	w10, w26, #0xfe
	csel	x8, x9, x8, eq
	cmp	w10, #4
	ccmp	w22, #0, #0, eq
	csel	x9, x9, xzr, eq
	add	x8, x8, x9
	subs	x24, x24, #1
	add	x25, x25, #16
	add	x21, x8, x21
	b.ne	.Lpasetone_BB25_21
	b	.Lpasetone_BB25_17
.Lpasetone_BB25_41:
	mov	w8, wzr
	mov	w12, #16
	mov	x11, x28
	mov	x19, x28
	b	.Lpasetone_BB25_24
.Lpasetone_func_end25:
	.size	pasetone_expand, .Lpasetone_func_end25-pasetone_expand
	.cfi_endproc

	.section	.rodata.cst16,"aM",@progbits,16
	.p2align	4, 0x0
.Lpasetone_CPI26_0:
	.word	14
	.word	0
	.word	0
	.word	0
.Lpasetone_CPI26_1:
	.word	1
	.word	0
	.word	0
	.word	0
	.section	.text.pasetone_feed,"ax",@progbits
	.globl	pasetone_feed
	.p2align	2
	.type	pasetone_feed,@function
pasetone_feed:
	.cfi_startproc
	stp	x29, x30, [sp, #-96]!
	.cfi_def_cfa_offset 96
	stp	x28, x27, [sp, #16]
	stp	x26, x25, [sp, #32]
	stp	x24, x23, [sp, #48]
	stp	x22, x21, [sp, #64]
	stp	x20, x19, [sp, #80]
	mov	x29, sp
	.cfi_def_cfa w29, 96
	.cfi_offset w19, -8
	.cfi_offset w20, -16
	.cfi_offset w21, -24
	.cfi_offset w22, -32
	.cfi_offset w23, -40
	.cfi_offset w24, -48
	.cfi_offset w25, -56
	.cfi_offset w26, -64
	.cfi_offset w27, -72
	.cfi_offset w28, -80
	.cfi_offset w30, -88
	.cfi_offset w29, -96
	.cfi_remember_state
	sub	sp, sp, #528
	cmp	x0, #0
	mov	w9, #4096
	ldr	x22, [x29, #96]
	csel	x10, x9, xzr, eq
	cmp	x2, #0
	ldr	x17, [x29, #112]
	csel	x25, x9, xzr, eq
	cmp	x4, #0
	ldr	x15, [x29, #128]
	csel	x24, x9, xzr, eq
	cmp	x6, #0
	ldr	x18, [x29, #144]
	csel	x14, x9, xzr, eq
	cmp	x22, #0
	csel	x23, x9, xzr, eq
	cmp	x17, #0
	csel	x19, x9, xzr, eq
	cmp	x15, #0
	csel	x16, x9, xzr, eq
	cmp	x18, #0
	csel	x21, x9, xzr, eq
	cmp	x1, #9
	b.ne	.Lpasetone_BB26_15
	add	x27, x0, x10
	ldrb	w20, [x27]
	cmp	w20, #8
	b.hi	.Lpasetone_BB26_15
	ldr	x9, [x29, #104]
	str	x5, [sp, #152]
	b.ne	.Lpasetone_BB26_12
	cmp	x9, #0
	stp	x25, x24, [sp, #128]
	stp	x21, x19, [sp, #96]
	cset	w26, ne
	stp	x18, x17, [sp, #112]
	stp	x16, x15, [sp, #72]
	str	x14, [sp, #88]
	str	x8, [sp, #144]
	sturb	wzr, [x29, #-248]
	stur	xzr, [x29, #-256]
.Lpasetone_BB26_4:
	sub	x0, x29, #256
	add	x1, x27, #1
	mov	x25, x2
	mov	x2, x20
	mov	x24, x7
	mov	x28, x6
	mov	x21, x26
	mov	x26, x4
	mov	x19, x3
	bl	memcpy
	ldr	x5, [sp, #152]
	mov	x3, x19
	mov	x2, x25
	mov	x4, x26
	mov	x26, x21
	mov	x6, x28
	mov	x7, x24
.Lpasetone_BB26_5:
	cbz	x26, .Lpasetone_BB26_7
	sub	x8, x29, #256
	add	x1, x22, x23
	mov	x22, x2
	add	x0, x8, x20
	mov	x2, x26
	mov	x23, x7
	mov	x25, x6
	mov	x24, x4
	mov	x19, x3
	bl	memcpy
	ldr	x5, [sp, #152]
	mov	x3, x19
	mov	x2, x22
	mov	x4, x24
	mov	x6, x25
	mov	x7, x23
.Lpasetone_BB26_7:
	add	x12, x26, x20
	ldurb	w11, [x29, #-256]
	ldur	x20, [x29, #-255]
	ldr	x8, [sp, #144]
	cmp	x12, #8
	b.ls	.Lpasetone_BB26_17
	subs	w9, w11, #1
	strb	wzr, [x27]
	stur	xzr, [x27, #1]
	b.eq	.Lpasetone_BB26_24
	cmp	w11, #4
	b.eq	.Lpasetone_BB26_19
	cmp	w11, #7
	b.ne	.Lpasetone_BB26_20
	mov	x10, xzr
	b	.Lpasetone_BB26_21
.Lpasetone_BB26_12:
	add	x10, x10, x0
	mov	x11, xzr
	sub	x12, x20, #8
	add	x10, x10, #8
.Lpasetone_BB26_13:
	ldrb	w13, [x10], #-1
	adds	x12, x12, #1
	orr	x11, x13, x11, lsl #8
	b.lo	.Lpasetone_BB26_13
	cbz	x11, .Lpasetone_BB26_18
.Lpasetone_BB26_15:
	adrp	x11, .Lpasetone_CPI26_1
	mov	x10, xzr
	mov	x9, xzr
	ldr	q0, [x11, :lo12:.Lpasetone_CPI26_1]
	mov	x26, xzr
	mov	w13, wzr
	mov	w12, wzr
.Lpasetone_BB26_16:
	stp	x10, x9, [x8]
	str	x26, [x8, #16]
	stur	q0, [x8, #24]
	stp	w13, w12, [x8, #40]
	add	sp, sp, #528
	.cfi_def_cfa wsp, 96
	ldp	x20, x19, [sp, #80]
	ldp	x22, x21, [sp, #64]
	ldp	x24, x23, [sp, #48]
	ldp	x26, x25, [sp, #32]
	ldp	x28, x27, [sp, #16]
	ldp	x29, x30, [sp], #96
	.cfi_def_cfa_offset 0
	.cfi_restore w19
	.cfi_restore w20
	.cfi_restore w21
	.cfi_restore w22
	.cfi_restore w23
	.cfi_restore w24
	.cfi_restore w25
	.cfi_restore w26
	.cfi_restore w27
	.cfi_restore w28
	.cfi_restore w30
	.cfi_restore w29
	ret
.Lpasetone_BB26_17:
	.cfi_restore_state
	sturb	w11, [x29, #-256]
	mov	x10, xzr
	mov	x9, xzr
	stur	x20, [x29, #-255]
	mov	w13, wzr
	movi	v0.2d, #0000000000000000
	ldur	x11, [x29, #-256]
	strb	w12, [x27]
	stur	x11, [x27, #1]
	b	.Lpasetone_BB26_16
.Lpasetone_BB26_18:
	str	x8, [sp, #144]
	mov	w8, #9
	sub	x8, x8, x20
	stp	x25, x24, [sp, #128]
	cmp	x8, x9
	stp	x21, x19, [sp, #96]
	csel	x26, x8, x9, lo
	stp	x18, x17, [sp, #112]
	stp	x16, x15, [sp, #72]
	str	x14, [sp, #88]
	sturb	wzr, [x29, #-248]
	stur	xzr, [x29, #-256]
	cbnz	w20, .Lpasetone_BB26_4
	b	.Lpasetone_BB26_5
.Lpasetone_BB26_19:
	mov	w10, #255
	b	.Lpasetone_BB26_21
.Lpasetone_BB26_20:
	mov	w10, #-1
.Lpasetone_BB26_21:
	cmp	w9, #6
	b.hi	.Lpasetone_BB26_36
	cmp	x20, x10
	b.hi	.Lpasetone_BB26_36
	cmp	w11, #1
	b.ne	.Lpasetone_BB26_39
.Lpasetone_BB26_24:
	mov	w21, wzr
	mov	x28, xzr
	mov	w27, wzr
.Lpasetone_BB26_25:
	cmp	x3, #29
	b.ne	.Lpasetone_BB26_35
	ldr	x8, [sp, #128]
	mov	x10, #13531
	sub	x0, x29, #256
	movk	x10, #55222, lsl #16
	mov	x24, x7
	mov	x19, x6
	add	x14, x2, x8
	movk	x10, #56962, lsl #32
	mov	x2, x5
	ldur	w8, [x14, #1]
	ldursw	x9, [x14, #5]
	movk	x10, #17179, lsl #48
	ldrb	w25, [x14]
	mul	x9, x9, x8
	smulh	x9, x9, x10
	asr	x10, x9, #18
	add	x9, x10, x9, lsr #63
	add	x23, x9, x8
	ldr	x9, [sp, #136]
	mov	x8, #4294967296
	cmp	x23, x8
	add	x1, x4, x9
	csel	x22, x23, x8, lo
	stp	x14, x1, [sp, #128]
	bl	"records::decode_tuner"
	ldp	x8, x9, [sp, #144]
	cmp	w25, #1
	b.hi	.Lpasetone_BB26_35
	sub	x11, x23, #1
	mov	w12, #-2
	cmp	x11, x12
	b.hi	.Lpasetone_BB26_35
	mov	w11, w22
	cbz	x11, .Lpasetone_BB26_35
	ldurb	w11, [x29, #-256]
	cmp	w11, #1
	b.ne	.Lpasetone_BB26_35
	ldr	x14, [sp, #128]
	cmp	x9, #78
	ldr	q0, [x14]
	ldur	q1, [x14, #13]
	str	q0, [sp, #240]
	stur	q1, [sp, #253]
	b.ne	.Lpasetone_BB26_62
	ldr	x12, [sp, #136]
	ldr	x8, [sp, #120]
	cmp	w21, #2
	ldr	x11, [sp, #104]
	ldr	x9, [x29, #152]
	ldr	x5, [x29, #120]
	ldp	q0, q1, [x12, #32]
	ldur	q2, [x12, #62]
	add	x4, x8, x11
	ldr	x8, [sp, #112]
	ldr	x11, [sp, #96]
	stp	xzr, xzr, [x29, #-24]
	stp	q0, q1, [sp, #192]
	movi	v1.2d, #0000000000000000
	add	x8, x8, x11
	stur	q2, [sp, #222]
	ldp	q2, q0, [x12]
	stp	xzr, xzr, [x29, #-40]
	stp	xzr, xzr, [x29, #-56]
	stp	q2, q0, [sp, #160]
	stp	q1, q1, [x29, #-256]
	stp	xzr, xzr, [x29, #-72]
	stp	xzr, xzr, [x29, #-88]
	stp	xzr, xzr, [x29, #-104]
	stp	xzr, xzr, [x29, #-152]
	stur	xzr, [x29, #-136]
	b.le	.Lpasetone_BB26_47
	cmp	w21, #4
	b.gt	.Lpasetone_BB26_55
	mov	w10, #78
	cmp	w21, #3
	b.ne	.Lpasetone_BB26_59
	sub	x0, x29, #80
	add	x1, sp, #160
	mov	w2, #78
	mov	x3, x28
	mov	x6, x8
	mov	x7, x9
	stp	x12, x10, [sp]
	sub	x20, x29, #80
	bl	"tuners::set_gain_by_index"
	ldur	x9, [x29, #-72]
	ldur	d0, [x29, #-64]
	b	.Lpasetone_BB26_61
.Lpasetone_BB26_35:
	adrp	x9, .Lpasetone_CPI26_1
	mov	x10, xzr
	ldr	q0, [x9, :lo12:.Lpasetone_CPI26_1]
	b	.Lpasetone_BB26_37
.Lpasetone_BB26_36:
	adrp	x9, .Lpasetone_CPI26_0
	mov	x10, xzr
	ldr	q0, [x9, :lo12:.Lpasetone_CPI26_0]
.Lpasetone_BB26_37:
	mov	x9, xzr
.Lpasetone_BB26_38:
	mov	w12, wzr
	mov	w13, #1
	b	.Lpasetone_BB26_16
.Lpasetone_BB26_39:
	cmp	w11, #3
	b.le	.Lpasetone_BB26_44
	cmp	w11, #4
	b.eq	.Lpasetone_BB26_50
	cmp	w11, #5
	b.eq	.Lpasetone_BB26_51
	cmp	w11, #6
	b.ne	.Lpasetone_BB26_54
	mov	x28, xzr
	mov	w21, #5
	b	.Lpasetone_BB26_53
.Lpasetone_BB26_44:
	cmp	w11, #2
	b.eq	.Lpasetone_BB26_52
	cmp	w11, #3
	b.ne	.Lpasetone_BB26_54
	and	w9, w20, #0x7fffffff
	mov	w10, #2139095040
	mov	x28, xzr
	cmp	w9, w10
	mov	w9, #2143289344
	mov	w21, #2
	csel	w27, w9, w20, hi
	mov	x20, xzr
	b	.Lpasetone_BB26_25
.Lpasetone_BB26_47:
	cbz	w21, .Lpasetone_BB26_57
	cmp	w21, #1
	b.ne	.Lpasetone_BB26_58
	stp	x8, x9, [sp, #16]
	ldr	x9, [sp, #88]
	mov	w11, #78
	mov	x8, x5
	mov	x6, x24
	stp	x12, x11, [sp, #48]
	mov	w11, #29
	sub	x0, x29, #32
	add	x1, sp, #240
	add	x3, sp, #160
	add	x5, x19, x9
	str	x8, [sp, #8]
	mov	w2, #29
	mov	x8, x4
	mov	w4, #78
	mov	w7, w27
	stp	x14, x11, [sp, #32]
	sub	x20, x29, #32
	str	x8, [sp]
	bl	"drivers::set_sample_rate"
	ldur	x9, [x29, #-24]
	ldur	d0, [x29, #-16]
	b	.Lpasetone_BB26_61
.Lpasetone_BB26_50:
	mov	w27, wzr
	and	x28, x20, #0xff
	mov	w21, #3
	mov	x20, xzr
	b	.Lpasetone_BB26_25
.Lpasetone_BB26_51:
	mov	x28, xzr
	mov	w21, #4
	b	.Lpasetone_BB26_53
.Lpasetone_BB26_52:
	mov	x28, xzr
	mov	w21, #1
.Lpasetone_BB26_53:
	mov	w27, w20
	mov	x20, xzr
	b	.Lpasetone_BB26_25
.Lpasetone_BB26_54:
	mov	x28, xzr
	mov	w27, wzr
	mov	x20, xzr
	mov	w21, #6
	b	.Lpasetone_BB26_25
.Lpasetone_BB26_55:
	cmp	w21, #5
	b.ne	.Lpasetone_BB26_60
	sub	x0, x29, #128
	mov	x1, x12
	mov	w2, #78
	mov	x3, x14
	mov	w4, #29
	mov	w5, w27
	sub	x20, x29, #128
	bl	"drivers::set_ppm"
	ldur	x9, [x29, #-120]
	ldur	d0, [x29, #-112]
	b	.Lpasetone_BB26_61
.Lpasetone_BB26_57:
	mov	w10, #78
	ldr	x7, [x29, #136]
	sub	x0, x29, #256
	stp	x12, x10, [sp, #16]
	ldp	x11, x10, [sp, #72]
	add	x1, sp, #160
	mov	w2, #78
	mov	x3, x20
	stp	x8, x9, [sp]
	sub	x20, x29, #256
	add	x6, x10, x11
	bl	"tuners::set_frequency"
	ldur	q0, [x29, #-240]
	ldur	x9, [x29, #-248]
	b	.Lpasetone_BB26_61
.Lpasetone_BB26_58:
	fmov	s0, w27
	mov	w10, #78
	sub	x0, x29, #56
	add	x1, sp, #160
	mov	w2, #78
	mov	x3, x4
	mov	x4, x5
	mov	x5, x8
	mov	x6, x9
	mov	x7, x12
	str	x10, [sp]
	sub	x20, x29, #56
	bl	"tuners::set_gain"
	ldur	x9, [x29, #-48]
	ldur	d0, [x29, #-40]
	b	.Lpasetone_BB26_61
.Lpasetone_BB26_59:
	sub	x0, x29, #104
	add	x1, sp, #160
	mov	w2, #78
	mov	w3, w27
	mov	x6, x8
	mov	x7, x9
	stp	x12, x10, [sp]
	sub	x20, x29, #104
	bl	"tuners::set_bandwidth"
	ldur	x9, [x29, #-96]
	ldur	d0, [x29, #-88]
	b	.Lpasetone_BB26_61
.Lpasetone_BB26_60:
	mov	w10, #78
	sub	x0, x29, #152
	add	x1, sp, #160
	mov	w2, #78
	mov	x3, x4
	mov	x4, x5
	mov	x5, x8
	mov	x6, x9
	mov	x7, x12
	str	x10, [sp]
	sub	x20, x29, #152
	bl	"tuners::reload"
	ldur	x9, [x29, #-144]
	ldur	d0, [x29, #-136]
.Lpasetone_BB26_61:
	ldr	x10, [x20]
	ldr	x8, [sp, #144]
	b	.Lpasetone_BB26_38
.Lpasetone_BB26_62:
	brk	#0x1
.Lpasetone_func_end26:
	.size	pasetone_feed, .Lpasetone_func_end26-pasetone_feed
	.cfi_endproc

	.section	.text.pasetone_get_gain,"ax",@progbits
	.globl	pasetone_get_gain
	.p2align	2
	.type	pasetone_get_gain,@function
pasetone_get_gain:
	.cfi_startproc
	sub	sp, sp, #128
	.cfi_def_cfa_offset 128
	stp	x29, x30, [sp, #96]
	str	x19, [sp, #112]
	add	x29, sp, #96
	.cfi_def_cfa w29, 32
	.cfi_offset w19, -16
	.cfi_offset w30, -24
	.cfi_offset w29, -32
	.cfi_remember_state
	mov	x19, x8
	cmp	x0, #0
	mov	w8, #4096
	mov	x9, x0
	csel	x8, x8, xzr, eq
	mov	x2, x1
	mov	x0, sp
	add	x1, x9, x8
	bl	"records::decode_tuner"
	ldrb	w8, [sp]
	cmp	w8, #1
	b.ne	.Lpasetone_BB27_4
	ldr	s0, [sp, #76]
	ldr	w9, [sp, #68]
	mov	w10, #2143289344
	fmov	w8, s0
	fcmp	s0, s0
	csel	x8, x10, x8, vs
	cbz	w9, .Lpasetone_BB27_4
	ldr	w9, [sp, #64]
	cbz	w9, .Lpasetone_BB27_4
	stp	x8, xzr, [x19]
	stp	wzr, wzr, [x19, #16]
	.cfi_def_cfa wsp, 128
	ldp	x29, x30, [sp, #96]
	ldr	x19, [sp, #112]
	add	sp, sp, #128
	.cfi_def_cfa_offset 0
	.cfi_restore w19
	.cfi_restore w30
	.cfi_restore w29
	ret
.Lpasetone_BB27_4:
	.cfi_restore_state
	mov	w9, #1
	stp	xzr, xzr, [x19]
	stp	w9, wzr, [x19, #16]
	.cfi_def_cfa wsp, 128
	ldp	x29, x30, [sp, #96]
	ldr	x19, [sp, #112]
	add	sp, sp, #128
	.cfi_def_cfa_offset 0
	.cfi_restore w19
	.cfi_restore w30
	.cfi_restore w29
	ret
.Lpasetone_func_end27:
	.size	pasetone_get_gain, .Lpasetone_func_end27-pasetone_get_gain
	.cfi_endproc

	.section	.rodata.cst16,"aM",@progbits,16
	.p2align	4, 0x0
.Lpasetone_CPI28_0:
	.word	0
	.word	9
	.word	14
	.word	27
.Lpasetone_CPI28_1:
	.word	37
	.word	77
	.word	87
	.word	125
.Lpasetone_CPI28_2:
	.word	144
	.word	157
	.word	166
	.word	197
.Lpasetone_CPI28_3:
	.word	207
	.word	229
	.word	254
	.word	280
.Lpasetone_CPI28_4:
	.word	297
	.word	328
	.word	338
	.word	364
.Lpasetone_CPI28_5:
	.word	372
	.word	386
	.word	402
	.word	421
.Lpasetone_CPI28_6:
	.word	434
	.word	439
	.word	445
	.word	480
	.section	.text.pasetone_get_gain_table,"ax",@progbits
	.globl	pasetone_get_gain_table
	.p2align	2
	.type	pasetone_get_gain_table,@function
pasetone_get_gain_table:
	.cfi_startproc
	sub	sp, sp, #144
	.cfi_def_cfa_offset 144
	stp	x29, x30, [sp, #96]
	stp	x22, x21, [sp, #112]
	stp	x20, x19, [sp, #128]
	add	x29, sp, #96
	.cfi_def_cfa w29, 48
	.cfi_offset w19, -8
	.cfi_offset w20, -16
	.cfi_offset w21, -24
	.cfi_offset w22, -32
	.cfi_offset w30, -40
	.cfi_offset w29, -48
	.cfi_remember_state
	mov	x19, x8
	mov	w8, #4096
	cmp	x0, #0
	mov	x20, x2
	mov	x9, x0
	csel	x10, x8, xzr, eq
	mov	x2, x1
	cmp	x20, #0
	mov	x0, sp
	add	x1, x9, x10
	mov	x21, x3
	csel	x22, x8, xzr, eq
	bl	"records::decode_tuner"
	ldrb	w8, [sp]
	cmp	w8, #1
	b.ne	.Lpasetone_BB28_5
	ldr	w9, [sp, #64]
	cbz	w9, .Lpasetone_BB28_6
	ldr	w9, [sp, #68]
	cbz	w9, .Lpasetone_BB28_6
	cmp	x21, #116
	b.hs	.Lpasetone_BB28_7
	mov	w8, #8
	b	.Lpasetone_BB28_6
.Lpasetone_BB28_5:
	mov	w8, #1
.Lpasetone_BB28_6:
	stp	xzr, xzr, [x19]
	stp	w8, wzr, [x19, #16]
	.cfi_def_cfa wsp, 144
	ldp	x20, x19, [sp, #128]
	ldp	x22, x21, [sp, #112]
	ldp	x29, x30, [sp, #96]
	add	sp, sp, #144
	.cfi_def_cfa_offset 0
	.cfi_restore w19
	.cfi_restore w20
	.cfi_restore w21
	.cfi_restore w22
	.cfi_restore w30
	.cfi_restore w29
	ret
.Lpasetone_BB28_7:
	.cfi_restore_state
	adrp	x9, .Lpasetone_CPI28_0
	add	x10, x20, x22
	mov	w8, wzr
	ldr	q0, [x9, :lo12:.Lpasetone_CPI28_0]
	adrp	x9, .Lpasetone_CPI28_1
	ldr	q1, [x9, :lo12:.Lpasetone_CPI28_1]
	adrp	x9, .Lpasetone_CPI28_2
	ldr	q2, [x9, :lo12:.Lpasetone_CPI28_2]
	adrp	x9, .Lpasetone_CPI28_3
	stp	q0, q1, [x10]
	ldr	q0, [x9, :lo12:.Lpasetone_CPI28_3]
	adrp	x9, .Lpasetone_CPI28_4
	ldr	q1, [x9, :lo12:.Lpasetone_CPI28_4]
	adrp	x9, .Lpasetone_CPI28_5
	stp	q2, q0, [x10, #32]
	ldr	q0, [x9, :lo12:.Lpasetone_CPI28_5]
	adrp	x9, .Lpasetone_CPI28_6
	stp	q1, q0, [x10, #64]
	ldr	q0, [x9, :lo12:.Lpasetone_CPI28_6]
	mov	w9, #496
	str	w9, [x10, #112]
	str	q0, [x10, #96]
	b	.Lpasetone_BB28_6
.Lpasetone_func_end28:
	.size	pasetone_get_gain_table, .Lpasetone_func_end28-pasetone_get_gain_table
	.cfi_endproc

	.section	.text.pasetone_get_if_freq,"ax",@progbits
	.globl	pasetone_get_if_freq
	.p2align	2
	.type	pasetone_get_if_freq,@function
pasetone_get_if_freq:
	.cfi_startproc
	sub	sp, sp, #128
	.cfi_def_cfa_offset 128
	stp	x29, x30, [sp, #96]
	str	x19, [sp, #112]
	add	x29, sp, #96
	.cfi_def_cfa w29, 32
	.cfi_offset w19, -16
	.cfi_offset w30, -24
	.cfi_offset w29, -32
	.cfi_remember_state
	mov	x19, x8
	cmp	x0, #0
	mov	w8, #4096
	mov	x9, x0
	csel	x8, x8, xzr, eq
	mov	x2, x1
	mov	x0, sp
	add	x1, x9, x8
	bl	"records::decode_tuner"
	ldrb	w8, [sp]
	cmp	w8, #1
	b.ne	.Lpasetone_BB29_4
	ldr	w8, [sp, #68]
	cbz	w8, .Lpasetone_BB29_4
	ldr	w8, [sp, #64]
	cbz	w8, .Lpasetone_BB29_4
	ldr	x8, [sp, #80]
	stp	x8, xzr, [x19]
	stp	wzr, wzr, [x19, #16]
	.cfi_def_cfa wsp, 128
	ldp	x29, x30, [sp, #96]
	ldr	x19, [sp, #112]
	add	sp, sp, #128
	.cfi_def_cfa_offset 0
	.cfi_restore w19
	.cfi_restore w30
	.cfi_restore w29
	ret
.Lpasetone_BB29_4:
	.cfi_restore_state
	mov	w9, #1
	stp	xzr, xzr, [x19]
	stp	w9, wzr, [x19, #16]
	.cfi_def_cfa wsp, 128
	ldp	x29, x30, [sp, #96]
	ldr	x19, [sp, #112]
	add	sp, sp, #128
	.cfi_def_cfa_offset 0
	.cfi_restore w19
	.cfi_restore w30
	.cfi_restore w29
	ret
.Lpasetone_func_end29:
	.size	pasetone_get_if_freq, .Lpasetone_func_end29-pasetone_get_if_freq
	.cfi_endproc

	.section	.text.pasetone_if_freq_regs,"ax",@progbits
	.globl	pasetone_if_freq_regs
	.p2align	2
	.type	pasetone_if_freq_regs,@function
pasetone_if_freq_regs:
	.cfi_startproc
	cmp	x2, #0
	mov	w9, #4096
	csel	x10, x9, xzr, eq
	cbz	w1, .Lpasetone_BB30_3
	cmp	x3, #3
	b.hs	.Lpasetone_BB30_4
	mov	w9, #8
	stp	xzr, xzr, [x8]
	stp	w9, wzr, [x8, #16]
	ret
.Lpasetone_BB30_3:
	mov	w9, #4
	stp	xzr, xzr, [x8]
	stp	w9, wzr, [x8, #16]
	ret
.Lpasetone_BB30_4:
	ubfiz	x11, x0, #22, #32
	mov	w12, w1
	add	x10, x2, x10
	udiv	x11, x11, x12
	ubfx	w12, w11, #16, #6
	lsr	x13, x11, #8
	strb	w11, [x10, #2]
	strb	w12, [x10]
	strb	w13, [x10, #1]
	stp	xzr, xzr, [x8]
	stp	wzr, wzr, [x8, #16]
	ret
.Lpasetone_func_end30:
	.size	pasetone_if_freq_regs, .Lpasetone_func_end30-pasetone_if_freq_regs
	.cfi_endproc

	.section	.text.pasetone_init_baseband,"ax",@progbits
	.globl	pasetone_init_baseband
	.p2align	2
	.type	pasetone_init_baseband,@function
pasetone_init_baseband:
	.cfi_startproc
	sub	sp, sp, #64
	.cfi_def_cfa_offset 64
	stp	x29, x30, [sp, #32]
	str	x19, [sp, #48]
	add	x29, sp, #32
	.cfi_def_cfa w29, 32
	.cfi_offset w19, -16
	.cfi_offset w30, -24
	.cfi_offset w29, -32
	.cfi_remember_state
	mov	x19, x8
	mov	w8, #4096
	cmp	x0, #0
	csel	x11, x8, xzr, eq
	cmp	x2, #0
	mov	x9, x1
	mov	x10, x0
	csel	x8, x8, xzr, eq
	mov	x4, x3
	add	x0, sp, #8
	add	x1, x10, x11
	add	x3, x2, x8
	mov	x2, x9
	stp	xzr, xzr, [sp, #8]
	str	xzr, [sp, #24]
	bl	"demod::init_baseband"
	ldp	x10, x8, [sp, #16]
	ldrb	w9, [sp, #8]
	cbz	w9, .Lpasetone_BB31_3
	cmp	w9, #2
	b.ne	.Lpasetone_BB31_4
	mov	w9, #11
	stp	xzr, x10, [x19]
	stp	w9, w8, [x19, #16]
	.cfi_def_cfa wsp, 64
	ldp	x29, x30, [sp, #32]
	ldr	x19, [sp, #48]
	add	sp, sp, #64
	.cfi_def_cfa_offset 0
	.cfi_restore w19
	.cfi_restore w30
	.cfi_restore w29
	ret
.Lpasetone_BB31_3:
	.cfi_restore_state
	.cfi_remember_state
	mov	x11, x10
	stp	x11, x9, [x19]
	stp	w9, w8, [x19, #16]
	.cfi_def_cfa wsp, 64
	ldp	x29, x30, [sp, #32]
	ldr	x19, [sp, #48]
	add	sp, sp, #64
	.cfi_def_cfa_offset 0
	.cfi_restore w19
	.cfi_restore w30
	.cfi_restore w29
	ret
.Lpasetone_BB31_4:
	.cfi_restore_state
	ldrb	w9, [sp, #9]
	stp	xzr, xzr, [x19]
	stp	w9, w8, [x19, #16]
	.cfi_def_cfa wsp, 64
	ldp	x29, x30, [sp, #32]
	ldr	x19, [sp, #48]
	add	sp, sp, #64
	.cfi_def_cfa_offset 0
	.cfi_restore w19
	.cfi_restore w30
	.cfi_restore w29
	ret
.Lpasetone_func_end31:
	.size	pasetone_init_baseband, .Lpasetone_func_end31-pasetone_init_baseband
	.cfi_endproc

	.section	.rodata.cst16,"aM",@progbits,16
	.p2align	4, 0x0
.Lpasetone_CPI32_0:
	.byte	131
	.byte	48
	.byte	117
	.byte	192
	.byte	64
	.byte	214
	.byte	108
	.byte	245
	.byte	99
	.byte	117
	.byte	104
	.byte	108
	.byte	131
	.byte	128
	.byte	0
	.byte	15
	.section	.rodata.cst8,"aM",@progbits,8
	.p2align	3, 0x0
.Lpasetone_CPI32_1:
	.byte	0
	.byte	192
	.byte	48
	.byte	72
	.byte	204
	.byte	96
	.byte	0
	.byte	84
.Lpasetone_CPI32_2:
	.byte	26
	.byte	0
	.byte	12
	.byte	18
	.byte	6
	.byte	255
	.byte	12
	.byte	0
.Lpasetone_CPI32_3:
	.byte	15
	.byte	19
	.byte	1
	.byte	63
	.zero	1
	.zero	1
	.zero	1
	.zero	1
.Lpasetone_CPI32_4:
	.byte	10
	.byte	0
	.byte	112
	.byte	11
	.zero	1
	.zero	1
	.zero	1
	.zero	1
	.section	.text.pasetone_initialize,"ax",@progbits
	.globl	pasetone_initialize
	.p2align	2
	.type	pasetone_initialize,@function
pasetone_initialize:
	.cfi_startproc
	str	d8, [sp, #-112]!
	.cfi_def_cfa_offset 112
	stp	x29, x30, [sp, #16]
	stp	x28, x27, [sp, #32]
	stp	x26, x25, [sp, #48]
	stp	x24, x23, [sp, #64]
	stp	x22, x21, [sp, #80]
	stp	x20, x19, [sp, #96]
	add	x29, sp, #16
	.cfi_def_cfa w29, 96
	.cfi_offset w19, -8
	.cfi_offset w20, -16
	.cfi_offset w21, -24
	.cfi_offset w22, -32
	.cfi_offset w23, -40
	.cfi_offset w24, -48
	.cfi_offset w25, -56
	.cfi_offset w26, -64
	.cfi_offset w27, -72
	.cfi_offset w28, -80
	.cfi_offset w30, -88
	.cfi_offset w29, -96
	.cfi_offset b8, -112
	.cfi_remember_state
	sub	sp, sp, #688
	mov	x21, x2
	mov	x19, x8
	cmp	x0, #0
	mov	w8, #4096
	mov	x9, x0
	mov	x2, x1
	csel	x10, x8, xzr, eq
	cmp	x21, #0
	add	x0, sp, #16
	csel	x28, x8, xzr, eq
	cmp	x4, #0
	add	x1, x9, x10
	csel	x27, x8, xzr, eq
	cmp	x6, #0
	mov	x25, x7
	csel	x8, x8, xzr, eq
	mov	x20, x6
	mov	x23, x5
	mov	x22, x4
	mov	x24, x3
	stur	x8, [x29, #-8]
	add	x26, sp, #16
	bl	"records::decode_tuner"
	ldrb	w8, [sp, #16]
	cmp	w8, #1
	b.ne	.Lpasetone_BB32_6
	cmp	x25, #78
	b.lo	.Lpasetone_BB32_7
	ldp	w14, w16, [sp, #80]
	ldrb	w0, [sp, #24]
	ldrb	w11, [sp, #25]
	add	x25, sp, #144
	ldrb	w15, [sp, #88]
	ldr	s8, [sp, #92]
	mov	w8, #1
	ldr	x17, [sp, #96]
	ldrb	w18, [sp, #104]
	stp	xzr, xzr, [sp, #144]
	stur	wzr, [x25, #23]
	str	xzr, [sp, #160]
	stp	xzr, xzr, [sp, #112]
	str	xzr, [sp, #128]
	stur	wzr, [sp, #135]
	cbz	w14, .Lpasetone_BB32_10
	cbz	w16, .Lpasetone_BB32_10
	cmp	x23, #312
	b.hs	.Lpasetone_BB32_8
	mov	w8, #8
	b	.Lpasetone_BB32_10
.Lpasetone_BB32_6:
	mov	x11, xzr
	mov	x10, xzr
	mov	w9, wzr
	mov	w8, #1
	b	.Lpasetone_BB32_19
.Lpasetone_BB32_7:
	mov	x11, xzr
	mov	x10, xzr
	mov	w9, wzr
	mov	w8, #8
	b	.Lpasetone_BB32_19
.Lpasetone_BB32_8:
	cmp	x24, #18
	b.hi	.Lpasetone_BB32_20
	mov	w8, #9
.Lpasetone_BB32_10:
	ldur	q0, [x26, #10]
	ldur	q1, [x26, #21]
	mov	x10, xzr
	ldur	q2, [x26, #37]
	mov	x9, xzr
	mov	w12, #1
	str	q0, [sp, #208]
	ldur	q0, [x26, #48]
	stur	q1, [x25, #75]
	str	q2, [sp, #176]
	stur	q0, [x25, #43]
.Lpasetone_BB32_11:
	ldr	q0, [sp, #208]
	ldur	q1, [x25, #75]
	ldr	q2, [sp, #176]
	str	q0, [sp, #144]
	ldur	q0, [x25, #43]
	stur	q1, [x25, #11]
	str	q2, [sp, #112]
	stur	q0, [sp, #123]
	cbz	w12, .Lpasetone_BB32_16
	cbnz	x9, .Lpasetone_BB32_16
	cbz	w12, .Lpasetone_BB32_17
.Lpasetone_BB32_14:
	cmp	w12, #2
	b.ne	.Lpasetone_BB32_18
	mov	x11, xzr
	mov	w8, #11
	b	.Lpasetone_BB32_19
.Lpasetone_BB32_16:
	ldur	x13, [x29, #-8]
	ldr	q0, [sp, #144]
	and	w15, w15, #0x1
	ldur	q1, [x25, #11]
	add	x13, x20, x13
	stur	q0, [x13, #2]
	fmov	s0, s8
	strb	w11, [x13, #1]
	fmov	w11, s8
	stur	w14, [x13, #29]
	mov	w14, #2143289344
	stur	q1, [x13, #13]
	ldur	q1, [sp, #123]
	fcmp	s0, s0
	strb	w0, [x13]
	ldr	q0, [sp, #112]
	stur	w16, [x13, #33]
	strb	w15, [x13, #37]
	csel	w11, w14, w11, vs
	stur	x17, [x13, #42]
	stur	w11, [x13, #38]
	and	w11, w18, #0x1
	strb	w11, [x13, #50]
	stur	q0, [x13, #51]
	stur	q1, [x13, #62]
	cbnz	w12, .Lpasetone_BB32_14
.Lpasetone_BB32_17:
	mov	w8, w12
	mov	x11, x10
	mov	x10, x8
	mov	w8, w12
	b	.Lpasetone_BB32_19
.Lpasetone_BB32_18:
	mov	x11, xzr
	mov	x10, xzr
.Lpasetone_BB32_19:
	stp	x11, x10, [x19]
	stp	w8, w9, [x19, #16]
	add	sp, sp, #688
	.cfi_def_cfa wsp, 112
	ldp	x20, x19, [sp, #96]
	ldp	x22, x21, [sp, #80]
	ldp	x24, x23, [sp, #64]
	ldp	x26, x25, [sp, #48]
	ldp	x28, x27, [sp, #32]
	ldp	x29, x30, [sp, #16]
	ldr	d8, [sp], #112
	.cfi_def_cfa_offset 0
	.cfi_restore w19
	.cfi_restore w20
	.cfi_restore w21
	.cfi_restore w22
	.cfi_restore w23
	.cfi_restore w24
	.cfi_restore w25
	.cfi_restore w26
	.cfi_restore w27
	.cfi_restore w28
	.cfi_restore w30
	.cfi_restore w29
	.cfi_restore b8
	ret
.Lpasetone_BB32_20:
	.cfi_restore_state
	ldur	q0, [x26, #10]
	sub	x23, x29, #216
	ldur	q1, [x26, #21]
	ldur	q2, [x26, #37]
	adrp	x8, .Lpasetone_CPI32_0
	add	x22, x22, x27
	stur	q0, [x23, #1]
	ldur	q0, [x26, #48]
	sub	x1, x29, #216
	stur	q1, [x23, #12]
	movi	v1.2d, #0000000000000000
	add	x2, sp, #272
	stur	q2, [x23, #28]
	add	x3, x21, x28
	mov	x4, x22
	stur	q0, [x23, #39]
	ldr	q0, [x8, :lo12:.Lpasetone_CPI32_0]
	adrp	x8, .Lpasetone_CPI32_1
	stp	w0, w15, [sp, #4]
	add	x0, sp, #400
	mov	w24, w16
	str	q0, [sp, #272]
	ldr	d0, [x8, :lo12:.Lpasetone_CPI32_1]
	mov	w8, #19118
	strh	w8, [sp, #296]
	mov	w8, #192
	mov	x26, x17
	sturb	w11, [x29, #-216]
	mov	w27, w18
	stur	q1, [x23, #55]
	stur	q1, [x23, #71]
	sturb	wzr, [x29, #-129]
	stp	q1, q1, [x29, #-128]
	stp	q1, q1, [x29, #-96]
	stur	q1, [x29, #-64]
	stp	q1, q1, [sp, #320]
	stp	q1, q1, [sp, #352]
	str	q1, [sp, #304]
	stur	xzr, [x29, #-48]
	str	xzr, [sp, #384]
	str	d0, [sp, #288]
	strb	w8, [sp, #298]
	str	w14, [sp, #12]
	bl	"writes::send_all"
	adrp	x8, .Lpasetone_CPI32_2
	adrp	x9, .Lpasetone_CPI32_3
	add	x0, sp, #304
	ldr	d0, [x8, :lo12:.Lpasetone_CPI32_2]
	ldr	d1, [x9, :lo12:.Lpasetone_CPI32_3]
	add	x1, sp, #400
	add	x2, sp, #256
	add	x4, x21, x28
	mov	w3, #4
	mov	x5, x22
	str	d0, [sp, #256]
	str	s1, [sp, #264]
	bl	"chip::with_repeater"
	adrp	x8, .Lpasetone_CPI32_4
	sub	x0, x29, #128
	add	x1, sp, #304
	ldr	d0, [x8, :lo12:.Lpasetone_CPI32_4]
	mov	w8, #61312
	add	x2, sp, #248
	add	x4, x21, x28
	mov	w3, #2
	mov	x5, x22
	str	s0, [sp, #248]
	mov	w21, #2
	strh	w8, [sp, #252]
	bl	"chip::with_repeater"
	ldur	x9, [x29, #-72]
	ldurb	w10, [x29, #-64]
	mov	w18, w27
	ldur	x15, [x29, #-56]
	ldur	q0, [x23, #89]
	mov	x17, x26
	lsl	x13, x9, #4
	ldur	q1, [x23, #100]
	cmp	w10, #0
	csel	x10, xzr, x15, eq
	ldr	w0, [sp, #4]
	str	q0, [sp, #208]
	add	x14, x22, x13
	ldur	q0, [x23, #116]
	stur	q1, [x25, #75]
	stp	w9, w13, [x14]
	ldur	q1, [x23, #127]
	ldurb	w11, [x29, #-128]
	ldp	w15, w14, [sp, #8]
	mov	w16, w24
	mov	w8, wzr
	csel	w12, wzr, w21, eq
	str	q0, [sp, #176]
	stur	q1, [x25, #43]
	b	.Lpasetone_BB32_11
.Lpasetone_func_end32:
	.size	pasetone_initialize, .Lpasetone_func_end32-pasetone_initialize
	.cfi_endproc

	.section	.rodata.cst8,"aM",@progbits,8
	.p2align	3, 0x0
.Lpasetone_CPI33_0:
	.byte	96
	.byte	24
	.byte	35
	.byte	0
	.byte	2
	.byte	0
	.byte	23
	.byte	0
	.section	.text.pasetone_move_settings_1_to_2,"ax",@progbits
	.globl	pasetone_move_settings_1_to_2
	.p2align	2
	.type	pasetone_move_settings_1_to_2,@function
pasetone_move_settings_1_to_2:
	.cfi_startproc
	mov	w9, #4096
	cmp	x0, #0
	csel	x10, x9, xzr, eq
	cmp	x2, #0
	csel	x11, x9, xzr, eq
	subs	x9, x1, #4
	b.hs	.Lpasetone_BB33_3
	mov	x10, xzr
	mov	w9, #17
.Lpasetone_BB33_2:
	stp	x10, xzr, [x8]
	stp	w9, wzr, [x8, #16]
	ret
.Lpasetone_BB33_3:
	add	x12, x0, x10
	ldrb	w10, [x12, x9]
	cmp	w10, #1
	b.ne	.Lpasetone_BB33_11
	mov	x10, xzr
	cmp	x9, #19
	mov	w9, #17
	b.lo	.Lpasetone_BB33_2
	add	x12, x12, x1
	ldurb	w13, [x12, #-3]
	cbnz	w13, .Lpasetone_BB33_2
	ldurh	w13, [x12, #-2]
	cmp	x13, #19
	b.ne	.Lpasetone_BB33_2
	ldurb	w13, [x12, #-5]
	mov	x10, xzr
	cmp	w13, #28
	b.hi	.Lpasetone_BB33_2
	ldurb	w14, [x12, #-23]
	ldurb	w15, [x12, #-22]
	orr	w16, w15, w14
	cmp	w16, #1
	b.hi	.Lpasetone_BB33_2
	cmp	x3, #27
	b.hs	.Lpasetone_BB33_12
	mov	w9, #8
	stp	xzr, xzr, [x8]
	stp	w9, wzr, [x8, #16]
	ret
.Lpasetone_BB33_11:
	mov	w9, #16
	stp	xzr, xzr, [x8]
	stp	w9, wzr, [x8, #16]
	ret
.Lpasetone_BB33_12:
	ldur	d0, [x12, #-21]
	add	x11, x2, x11
	ldur	x10, [x12, #-13]
	adrp	x12, .Lpasetone_CPI33_0
	strb	w14, [x11]
	stur	d0, [x11, #2]
	ldr	d0, [x12, :lo12:.Lpasetone_CPI33_0]
	stur	x10, [x11, #10]
	mov	w10, #27
	strb	w15, [x11, #1]
	strb	w13, [x11, #18]
	stur	d0, [x11, #19]
	stp	x10, xzr, [x8]
	stp	wzr, wzr, [x8, #16]
	ret
.Lpasetone_func_end33:
	.size	pasetone_move_settings_1_to_2, .Lpasetone_func_end33-pasetone_move_settings_1_to_2
	.cfi_endproc

	.section	.rodata.cst8,"aM",@progbits,8
	.p2align	3, 0x0
.Lpasetone_CPI34_0:
	.byte	1
	.byte	0
	.byte	19
	.byte	0
	.zero	1
	.zero	1
	.zero	1
	.zero	1
	.section	.text.pasetone_move_settings_2_to_1,"ax",@progbits
	.globl	pasetone_move_settings_2_to_1
	.p2align	2
	.type	pasetone_move_settings_2_to_1,@function
pasetone_move_settings_2_to_1:
	.cfi_startproc
	mov	w9, #4096
	cmp	x0, #0
	csel	x10, x9, xzr, eq
	cmp	x2, #0
	csel	x11, x9, xzr, eq
	subs	x9, x1, #4
	b.hs	.Lpasetone_BB34_3
	mov	x10, xzr
	mov	w9, #17
.Lpasetone_BB34_2:
	stp	x10, xzr, [x8]
	stp	w9, wzr, [x8, #16]
	ret
.Lpasetone_BB34_3:
	add	x12, x0, x10
	ldrb	w10, [x12, x9]
	cmp	w10, #2
	b.ne	.Lpasetone_BB34_12
	mov	x10, xzr
	cmp	x9, #23
	mov	w9, #17
	b.lo	.Lpasetone_BB34_2
	add	x12, x12, x1
	ldurb	w13, [x12, #-3]
	cbnz	w13, .Lpasetone_BB34_2
	ldurh	w13, [x12, #-2]
	cmp	x13, #23
	b.ne	.Lpasetone_BB34_2
	ldurb	w13, [x12, #-9]
	mov	x10, xzr
	cmp	w13, #28
	b.hi	.Lpasetone_BB34_2
	ldurb	w14, [x12, #-27]
	ldurb	w15, [x12, #-26]
	orr	w16, w15, w14
	cmp	w16, #1
	b.hi	.Lpasetone_BB34_2
	ldur	w9, [x12, #-8]
	sub	w9, w9, #561, lsl #12
	cmp	w9, #2144
	b.ne	.Lpasetone_BB34_13
	cmp	x3, #23
	b.hs	.Lpasetone_BB34_14
	mov	w9, #8
	stp	xzr, xzr, [x8]
	stp	w9, wzr, [x8, #16]
	ret
.Lpasetone_BB34_12:
	mov	w9, #16
	stp	xzr, xzr, [x8]
	stp	w9, wzr, [x8, #16]
	ret
.Lpasetone_BB34_13:
	mov	w9, #18
	stp	xzr, xzr, [x8]
	stp	w9, wzr, [x8, #16]
	ret
.Lpasetone_BB34_14:
	ldur	d0, [x12, #-25]
	add	x11, x2, x11
	ldur	x10, [x12, #-17]
	adrp	x12, .Lpasetone_CPI34_0
	strb	w14, [x11]
	stur	d0, [x11, #2]
	ldr	d0, [x12, :lo12:.Lpasetone_CPI34_0]
	stur	x10, [x11, #10]
	mov	w10, #23
	strb	w15, [x11, #1]
	strb	w13, [x11, #18]
	stur	s0, [x11, #19]
	stp	x10, xzr, [x8]
	stp	wzr, wzr, [x8, #16]
	ret
.Lpasetone_func_end34:
	.size	pasetone_move_settings_2_to_1, .Lpasetone_func_end34-pasetone_move_settings_2_to_1
	.cfi_endproc

	.section	.text.pasetone_oscillator,"ax",@progbits
	.globl	pasetone_oscillator
	.p2align	2
	.type	pasetone_oscillator,@function
pasetone_oscillator:
	.cfi_startproc
	sub	sp, sp, #128
	.cfi_def_cfa_offset 128
	stp	x29, x30, [sp, #96]
	str	x19, [sp, #112]
	add	x29, sp, #96
	.cfi_def_cfa w29, 32
	.cfi_offset w19, -16
	.cfi_offset w30, -24
	.cfi_offset w29, -32
	.cfi_remember_state
	mov	x19, x8
	cmp	x0, #0
	mov	w8, #4096
	mov	x9, x0
	csel	x8, x8, xzr, eq
	mov	x2, x1
	mov	x0, sp
	add	x1, x9, x8
	bl	"records::decode_tuner"
	ldrb	w8, [sp]
	cmp	w8, #1
	b.ne	.Lpasetone_BB35_5
	ldr	w8, [sp, #68]
	mov	w9, #1
	cbz	w8, .Lpasetone_BB35_6
	ldr	w10, [sp, #64]
	cbz	w10, .Lpasetone_BB35_6
	ldrb	w9, [sp, #48]
	ldrb	w10, [sp, #50]
	ldrb	w11, [sp, #52]
	ldrb	w12, [sp, #53]
	ldrb	w13, [sp, #54]
	orr	w9, w10, w9
	orr	w10, w11, w12
	orr	w9, w9, w10
	orr	w9, w9, w13
	tbnz	w9, #0, .Lpasetone_BB35_7
	ldrb	w9, [sp, #26]
	ldrb	w10, [sp, #25]
	ldrb	w11, [sp, #27]
	ldrb	w12, [sp, #23]
	lsl	x9, x9, #1
	lsr	x13, x10, #6
	tst	w12, #0x8
	orr	x9, x9, x11, lsl #9
	bfi	x13, x10, #2, #6
	ldrb	w10, [sp, #21]
	csel	x9, x9, xzr, eq
	lsr	x10, x10, #5
	orr	x9, x9, x13, lsl #17
	add	x9, x9, #416, lsl #12
	umull	x8, w9, w8
	add	x9, x10, #17
	lsr	x8, x8, x9
	stp	x8, xzr, [x19]
	stp	wzr, wzr, [x19, #16]
	.cfi_def_cfa wsp, 128
	ldp	x29, x30, [sp, #96]
	ldr	x19, [sp, #112]
	add	sp, sp, #128
	.cfi_def_cfa_offset 0
	.cfi_restore w19
	.cfi_restore w30
	.cfi_restore w29
	ret
.Lpasetone_BB35_5:
	.cfi_restore_state
	.cfi_remember_state
	mov	w9, #1
.Lpasetone_BB35_6:
	stp	xzr, xzr, [x19]
	stp	w9, wzr, [x19, #16]
	.cfi_def_cfa wsp, 128
	ldp	x29, x30, [sp, #96]
	ldr	x19, [sp, #112]
	add	sp, sp, #128
	.cfi_def_cfa_offset 0
	.cfi_restore w19
	.cfi_restore w30
	.cfi_restore w29
	ret
.Lpasetone_BB35_7:
	.cfi_restore_state
	mov	w9, #20
	b	.Lpasetone_BB35_6
.Lpasetone_func_end35:
	.size	pasetone_oscillator, .Lpasetone_func_end35-pasetone_oscillator
	.cfi_endproc

	.section	.text.pasetone_pack_fir,"ax",@progbits
	.globl	pasetone_pack_fir
	.p2align	2
	.type	pasetone_pack_fir,@function
pasetone_pack_fir:
	.cfi_startproc
	cmp	x2, #0
	mov	w9, #4096
	csel	x9, x9, xzr, eq
	cmp	x1, #64
	b.ne	.Lpasetone_BB36_5
	cmp	x0, #0
	mov	w10, #4096
	csel	x10, x10, xzr, eq
	add	x11, x0, x10
	ldr	w12, [x11]
	ldr	w10, [x11, #12]
	ldr	q0, [x11, #16]
	cmp	w12, w12, sxtb
	b.ne	.Lpasetone_BB36_7
	ldur	d1, [x11, #4]
	mvni	v2.4s, #127
	movi	v3.2d, #0xffffff00ffffff00
	mov	w14, wzr
	mov	v1.s[2], w10
	mov	v1.s[3], v0.s[0]
	add	v1.4s, v1.4s, v2.4s
	cmhi	v1.4s, v3.4s, v1.4s
	umaxv	s1, v1.4s
	fmov	w13, s1
	tbnz	w13, #0, .Lpasetone_BB36_8
	mov	w13, v0.s[1]
	mov	w15, v0.s[2]
	add	w13, w13, #128
	add	w15, w15, #128
	orr	w13, w15, w13
	cmp	w13, #255
	b.hi	.Lpasetone_BB36_8
	mov	w13, v0.s[3]
	cmp	w13, w13, sxtb
	cset	w14, eq
	b	.Lpasetone_BB36_8
.Lpasetone_BB36_5:
	mov	w13, #7
.Lpasetone_BB36_6:
	stp	xzr, xzr, [x8]
	stp	w13, wzr, [x8, #16]
	ret
.Lpasetone_BB36_7:
	mov	w14, wzr
.Lpasetone_BB36_8:
	mov	x15, x11
	mvni	v1.4s, #7, msl #8
	mov	w13, #7
	ldr	q2, [x15, #32]!
	add	v1.4s, v2.4s, v1.4s
	mvni	v2.4s, #15, msl #8
	cmhi	v1.4s, v2.4s, v1.4s
	umaxv	s1, v1.4s
	fmov	w16, s1
	tbnz	w16, #0, .Lpasetone_BB36_6
	ldp	w17, w16, [x11, #48]
	add	w17, w17, #2048
	add	w16, w16, #2048
	orr	w16, w16, w17
	cmp	w16, #4095
	b.hi	.Lpasetone_BB36_6
	ldr	w16, [x11, #56]
	add	w16, w16, #2048
	cmp	w16, #4095
	b.hi	.Lpasetone_BB36_6
	ldr	w13, [x11, #60]
	add	w13, w13, #2048
	cmp	w13, #4095
	eor	w13, w14, #0x1
	csinc	w13, w13, wzr, ls
	tbnz	w13, #0, .Lpasetone_BB36_14
	cmp	x3, #20
	b.hs	.Lpasetone_BB36_15
	mov	w13, #8
	stp	xzr, xzr, [x8]
	stp	w13, wzr, [x8, #16]
	ret
.Lpasetone_BB36_14:
	mov	w13, #7
	stp	xzr, xzr, [x8]
	stp	w13, wzr, [x8, #16]
	ret
.Lpasetone_BB36_15:
	ld2	{ v1.4s, v2.4s }, [x15]
	movi	v4.4s, #15, msl #8
	add	x9, x2, x9
	ldp	w14, w11, [x11, #4]
	strb	w12, [x9]
	strb	w10, [x9, #3]
	strb	w14, [x9, #1]
	cmlt	v3.4s, v1.4s, #0
	cmlt	v5.4s, v2.4s, #0
	strb	w11, [x9, #2]
	eor	v6.16b, v3.16b, v1.16b
	eor	v1.16b, v5.16b, v2.16b
	and	v2.16b, v6.16b, v4.16b
	and	v1.16b, v1.16b, v4.16b
	eor	v6.16b, v2.16b, v4.16b
	eor	v4.16b, v1.16b, v4.16b
	bit	v2.16b, v6.16b, v3.16b
	bit	v1.16b, v4.16b, v5.16b
	shl	v3.4s, v2.4s, #4
	ushr	v2.4s, v2.4s, #4
	usra	v3.4s, v1.4s, #8
	trn2	v4.4s, v2.4s, v3.4s
	uzp1	v5.4s, v2.4s, v3.4s
	trn1	v6.4s, v2.4s, v3.4s
	ext	v4.16b, v4.16b, v2.16b, #4
	uzp2	v3.4s, v3.4s, v5.4s
	mov	v6.d[1], v2.d[0]
	mov	v4.s[0], v1.s[2]
	mov	v3.s[1], v1.s[1]
	mov	v6.s[2], v1.s[0]
	mov	v4.s[3], v1.s[3]
	uzp1	v0.8h, v0.8h, v6.8h
	uzp1	v1.8h, v3.8h, v4.8h
	uzp1	v0.16b, v0.16b, v1.16b
	stur	q0, [x9, #4]
	stp	xzr, xzr, [x8]
	stp	wzr, wzr, [x8, #16]
	ret
.Lpasetone_func_end36:
	.size	pasetone_pack_fir, .Lpasetone_func_end36-pasetone_pack_fir
	.cfi_endproc

	.section	.text.pasetone_parting,"ax",@progbits
	.globl	pasetone_parting
	.p2align	2
	.type	pasetone_parting,@function
pasetone_parting:
	.cfi_startproc
	sub	sp, sp, #128
	.cfi_def_cfa_offset 128
	stp	x29, x30, [sp, #48]
	str	x25, [sp, #64]
	stp	x24, x23, [sp, #80]
	stp	x22, x21, [sp, #96]
	stp	x20, x19, [sp, #112]
	add	x29, sp, #48
	.cfi_def_cfa w29, 80
	.cfi_offset w19, -8
	.cfi_offset w20, -16
	.cfi_offset w21, -24
	.cfi_offset w22, -32
	.cfi_offset w23, -40
	.cfi_offset w24, -48
	.cfi_offset w25, -64
	.cfi_offset w30, -72
	.cfi_offset w29, -80
	mov	x19, x8
	cmp	x0, #0
	mov	w8, #4096
	csel	x9, x8, xzr, eq
	mov	x21, x2
	mov	x2, x1
	add	x22, x0, x9
	cmp	x21, #0
	add	x0, sp, #24
	mov	x1, x22
	mov	x20, x3
	stp	xzr, xzr, [sp, #32]
	stp	xzr, xzr, [sp, #16]
	csel	x25, x8, xzr, eq
	stp	xzr, xzr, [sp]
	bl	"transcript::read_section"
	ldrb	w8, [sp, #24]
	cmp	w8, #1
	b.ne	.Lpasetone_BB37_11
	ldp	x24, x23, [sp, #32]
	add	x21, x21, x25
	mov	x0, sp
	mov	x1, x21
	mov	x2, x20
	bl	"transcript::read_section"
	ldrb	w8, [sp]
	cmp	w8, #1
	b.ne	.Lpasetone_BB37_11
	ldp	x10, x9, [sp, #8]
	cmp	x9, x23
	csel	x11, x9, x23, lo
	cbz	x11, .Lpasetone_BB37_12
	mov	x12, xzr
	mov	x8, xzr
	add	x13, x22, x24
	add	x14, x21, x10
.Lpasetone_BB37_4:
	add	x15, x13, x12
	add	x16, x14, x12
	ldrb	w18, [x15]
	ldr	x17, [x15, #8]
	ldr	x0, [x16, #8]
	ldrb	w1, [x16]
	cmp	w18, #3
	ccmp	w18, #8, #4, ne
	ccmp	x17, x0, #4, ne
	cset	w17, eq
	cmp	w18, w1
	b.ne	.Lpasetone_BB37_13
	ldrb	w18, [x15, #2]
	ldrb	w0, [x16, #2]
	cmp	w18, w0
	b.ne	.Lpasetone_BB37_13
	ldrb	w18, [x15, #3]
	ldrb	w0, [x16, #3]
	cmp	w18, w0
	b.ne	.Lpasetone_BB37_13
	ldrh	w16, [x16, #4]
	ldrh	w15, [x15, #4]
	cmp	x15, x16
	b.ne	.Lpasetone_BB37_13
	cbz	w17, .Lpasetone_BB37_13
	add	x8, x8, #1
	add	x12, x12, #16
	cmp	x11, x8
	b.ne	.Lpasetone_BB37_4
	mov	x8, x11
	b	.Lpasetone_BB37_13
.Lpasetone_BB37_11:
	mov	x9, xzr
	mov	x10, xzr
	mov	x8, xzr
	mov	w12, wzr
	mov	w11, #12
	b	.Lpasetone_BB37_14
.Lpasetone_BB37_12:
	mov	x8, xzr
.Lpasetone_BB37_13:
	cmp	x9, x8
	mov	w11, wzr
	ccmp	x8, x23, #2, ls
	csel	x10, x24, x10, lo
	cset	w12, lo
	csel	x13, x23, x9, lo
	cmp	w12, #0
	add	x9, x10, x8, lsl #4
	mov	w10, #1
	cinc	w12, w10, eq
	sub	x10, x13, x8
.Lpasetone_BB37_14:
	stp	x9, x10, [x19]
	str	x8, [x19, #16]
	stp	w12, w11, [x19, #24]
	.cfi_def_cfa wsp, 128
	ldp	x20, x19, [sp, #112]
	ldr	x25, [sp, #64]
	ldp	x22, x21, [sp, #96]
	ldp	x24, x23, [sp, #80]
	ldp	x29, x30, [sp, #48]
	add	sp, sp, #128
	.cfi_def_cfa_offset 0
	.cfi_restore w19
	.cfi_restore w20
	.cfi_restore w21
	.cfi_restore w22
	.cfi_restore w23
	.cfi_restore w24
	.cfi_restore w25
	.cfi_restore w30
	.cfi_restore w29
	ret
.Lpasetone_func_end37:
	.size	pasetone_parting, .Lpasetone_func_end37-pasetone_parting
	.cfi_endproc

	.section	.text.pasetone_plan_by_table,"ax",@progbits
	.globl	pasetone_plan_by_table
	.p2align	2
	.type	pasetone_plan_by_table,@function
pasetone_plan_by_table:
	.cfi_startproc
	sub	sp, sp, #80
	.cfi_def_cfa_offset 80
	stp	x29, x30, [sp, #32]
	stp	x22, x21, [sp, #48]
	stp	x20, x19, [sp, #64]
	add	x29, sp, #32
	.cfi_def_cfa w29, 48
	.cfi_offset w19, -8
	.cfi_offset w20, -16
	.cfi_offset w21, -24
	.cfi_offset w22, -32
	.cfi_offset w30, -40
	.cfi_offset w29, -48
	.cfi_remember_state
	mov	x19, x8
	cmp	x0, #0
	mov	w8, #4096
	mov	x20, x3
	mov	x9, x0
	csel	x10, x8, xzr, eq
	mov	x3, x2
	mov	x2, x1
	cmp	x20, #0
	add	x0, sp, #8
	add	x1, x9, x10
	mov	x21, x4
	stp	xzr, xzr, [sp, #8]
	csel	x22, x8, xzr, eq
	str	xzr, [sp, #24]
	bl	"bands::plan_by_table"
	ldrb	w9, [sp, #25]
	ldrb	w10, [sp, #26]
	ldrb	w8, [sp, #8]
	cmp	w9, #1
	mov	w9, #3
	csel	w9, w10, w9, eq
	cbnz	w8, .Lpasetone_BB38_3
	cmp	x21, #3
	b.hs	.Lpasetone_BB38_5
	mov	w8, #8
.Lpasetone_BB38_3:
	mov	x9, xzr
.Lpasetone_BB38_4:
	stp	x9, xzr, [x19]
	stp	w8, wzr, [x19, #16]
	.cfi_def_cfa wsp, 80
	ldp	x20, x19, [sp, #64]
	ldp	x22, x21, [sp, #48]
	ldp	x29, x30, [sp, #32]
	add	sp, sp, #80
	.cfi_def_cfa_offset 0
	.cfi_restore w19
	.cfi_restore w20
	.cfi_restore w21
	.cfi_restore w22
	.cfi_restore w30
	.cfi_restore w29
	ret
.Lpasetone_BB38_5:
	.cfi_restore_state
	ldrb	w10, [sp, #24]
	ldrb	w12, [sp, #27]
	add	x11, x20, x22
	strb	w9, [x11, #1]
	ldr	x9, [sp, #16]
	mov	w8, wzr
	and	w10, w10, #0x1
	and	w12, w12, #0x1
	strb	w10, [x11]
	strb	w12, [x11, #2]
	b	.Lpasetone_BB38_4
.Lpasetone_func_end38:
	.size	pasetone_plan_by_table, .Lpasetone_func_end38-pasetone_plan_by_table
	.cfi_endproc

	.section	.text.pasetone_plan_pll,"ax",@progbits
	.globl	pasetone_plan_pll
	.p2align	2
	.type	pasetone_plan_pll,@function
pasetone_plan_pll:
	.cfi_startproc
	sub	sp, sp, #112
	.cfi_def_cfa_offset 112
	stp	x29, x30, [sp, #48]
	stp	x24, x23, [sp, #64]
	stp	x22, x21, [sp, #80]
	stp	x20, x19, [sp, #96]
	add	x29, sp, #48
	.cfi_def_cfa w29, 64
	.cfi_offset w19, -8
	.cfi_offset w20, -16
	.cfi_offset w21, -24
	.cfi_offset w22, -32
	.cfi_offset w23, -40
	.cfi_offset w24, -48
	.cfi_offset w30, -56
	.cfi_offset w29, -64
	.cfi_remember_state
	mov	x19, x8
	cmp	x3, #0
	mov	w8, #4096
	mov	w22, w2
	csel	x24, x8, xzr, eq
	cmp	x0, #0
	mov	x20, x3
	mov	x2, x1
	mov	x23, x0
	cset	w1, ne
	mov	x0, sp
	mov	w3, w22
	mov	x21, x4
	bl	"pll::plan_pll"
	ldrb	w9, [sp]
	cmp	w9, #1
	b.eq	.Lpasetone_BB39_6
	mov	w15, wzr
	mov	w12, wzr
	mov	w11, wzr
	mov	w10, wzr
	mov	w13, wzr
	mov	x8, xzr
	cmp	x23, #1
	b.hi	.Lpasetone_BB39_7
.Lpasetone_BB39_2:
	cmp	w22, #0
	mov	w14, #2
	mov	w16, #4
	csel	w14, w16, w14, eq
	cbz	w22, .Lpasetone_BB39_8
	cmp	w9, #1
	b.ne	.Lpasetone_BB39_8
	cmp	x21, #5
	b.hs	.Lpasetone_BB39_10
	mov	w14, #8
	b	.Lpasetone_BB39_8
.Lpasetone_BB39_6:
	ldrh	w10, [sp, #32]
	ldr	x8, [sp, #40]
	ldrb	w11, [sp, #18]
	ldrb	w12, [sp, #17]
	ldrb	w15, [sp, #8]
	lsr	w13, w10, #8
	cmp	x23, #1
	b.ls	.Lpasetone_BB39_2
.Lpasetone_BB39_7:
	mov	w14, #1
.Lpasetone_BB39_8:
	mov	x8, xzr
.Lpasetone_BB39_9:
	stp	x8, xzr, [x19]
	stp	w14, wzr, [x19, #16]
	.cfi_def_cfa wsp, 112
	ldp	x20, x19, [sp, #96]
	ldp	x22, x21, [sp, #80]
	ldp	x24, x23, [sp, #64]
	ldp	x29, x30, [sp, #48]
	add	sp, sp, #112
	.cfi_def_cfa_offset 0
	.cfi_restore w19
	.cfi_restore w20
	.cfi_restore w21
	.cfi_restore w22
	.cfi_restore w23
	.cfi_restore w24
	.cfi_restore w30
	.cfi_restore w29
	ret
.Lpasetone_BB39_10:
	.cfi_restore_state
	add	x9, x20, x24
	mov	w14, wzr
	strb	w15, [x9]
	strb	w12, [x9, #1]
	strb	w11, [x9, #2]
	strb	w10, [x9, #3]
	strb	w13, [x9, #4]
	b	.Lpasetone_BB39_9
.Lpasetone_func_end39:
	.size	pasetone_plan_pll, .Lpasetone_func_end39-pasetone_plan_pll
	.cfi_endproc

	.section	.text.pasetone_plan_pll_by_worksheet,"ax",@progbits
	.globl	pasetone_plan_pll_by_worksheet
	.p2align	2
	.type	pasetone_plan_pll_by_worksheet,@function
pasetone_plan_pll_by_worksheet:
	.cfi_startproc
	cmp	x3, #0
	mov	w9, #4096
	csel	x9, x9, xzr, eq
	cbz	w2, .Lpasetone_BB40_4
	mov	x10, #-53760
	mov	x11, #-51904
	mov	x13, #-1856
	movk	x10, #38070, lsl #16
	movk	x11, #51574, lsl #16
	movk	x13, #52031, lsl #16
	add	x10, x1, x10
	mov	w12, #2
	add	x13, x1, x13
	cmp	x10, x11
	mov	x10, #-928
	mov	w11, #4
	movk	x10, #58783, lsl #16
	csel	x12, xzr, x12, lo
	cmp	x13, x10
	mov	x13, #-464
	add	x10, x1, x10
	movk	x13, #62159, lsl #16
	csel	x11, x12, x11, lo
	cmp	x10, x13
	add	x12, x1, x13
	mov	x13, #-232
	mov	w10, #8
	movk	x13, #63847, lsl #16
	csel	x10, x11, x10, lo
	cmp	x12, x13
	add	x12, x1, x13
	mov	x13, #-116
	mov	w11, #16
	movk	x13, #64691, lsl #16
	csel	x10, x10, x11, lo
	mov	w11, #32
	cmp	x12, x13
	add	x12, x1, x13
	mov	x13, #-58
	movk	x13, #65113, lsl #16
	csel	x10, x10, x11, lo
	mov	w11, #64
	cmp	x12, x13
	csel	x10, x10, x11, lo
	cbz	x10, .Lpasetone_BB40_3
	mul	x13, x10, x1
	ubfiz	x15, x2, #1, #32
	cmp	x0, #0
	mov	w12, #127
	mov	w14, #63
	csel	x12, x14, x12, eq
	udiv	x11, x13, x15
	subs	x14, x11, #13
	ccmp	x12, x11, #0, hs
	b.hs	.Lpasetone_BB40_5
.Lpasetone_BB40_3:
	cmp	x0, #1
	mov	w10, #1
	cinc	w15, w10, ls
	stp	xzr, xzr, [x8]
	stp	w15, wzr, [x8, #16]
	ret
.Lpasetone_BB40_4:
	cmp	x0, #1
	mov	w10, #4
	csinc	w15, w10, wzr, ls
	stp	xzr, xzr, [x8]
	stp	w15, wzr, [x8, #16]
	ret
.Lpasetone_BB40_5:
	msub	x13, x11, x15, x13
	mov	x17, #63439
	mov	w15, #19923
	movk	x17, #58195, lsl #16
	movk	w15, #4194, lsl #16
	lsl	w18, w14, #6
	movk	x17, #39845, lsl #32
	umull	x15, w2, w15
	mov	w16, wzr
	movk	x17, #8388, lsl #48
	add	x14, x18, x14, lsr #2
	mov	x12, xzr
	mov	w18, #16
	lsr	x13, x13, #3
	lsr	x15, x15, #37
	umulh	x17, x13, x17
	add	x13, x3, x9
	and	w15, w15, #0xfffffe
	lsr	x9, x17, #4
	adrp	x17, .Lpasetone_static.10+16
	add	x17, x17, :lo12:.Lpasetone_static.10+16
	b	.Lpasetone_BB40_8
.Lpasetone_BB40_6:
	mov	w16, #1
.Lpasetone_BB40_7:
	subs	x18, x18, #1
	add	x17, x17, #24
	b.eq	.Lpasetone_BB40_14
.Lpasetone_BB40_8:
	tbnz	w16, #0, .Lpasetone_BB40_6
	cmp	x9, #2
	b.lo	.Lpasetone_BB40_13
	ldur	x16, [x17, #-16]
	cbz	x16, .Lpasetone_BB40_19
	udiv	x16, x15, x16
	subs	x1, x9, x16
	b.ls	.Lpasetone_BB40_13
	ldur	x9, [x17, #-8]
	ldrb	w16, [x17]
	add	x12, x9, x12
	mov	x9, x1
	b	.Lpasetone_BB40_7
.Lpasetone_BB40_13:
	mov	w16, wzr
	b	.Lpasetone_BB40_7
.Lpasetone_BB40_14:
	cmp	x0, #1
	b.ls	.Lpasetone_BB40_16
	mov	w15, #1
	stp	xzr, xzr, [x8]
	stp	w15, wzr, [x8, #16]
	ret
.Lpasetone_BB40_16:
	cmp	x4, #5
	b.hs	.Lpasetone_BB40_18
	mov	w15, #8
	stp	xzr, xzr, [x8]
	stp	w15, wzr, [x8, #16]
	ret
.Lpasetone_BB40_18:
	strb	w10, [x13]
	lsr	x10, x12, #8
	strb	w11, [x13, #1]
	strb	w14, [x13, #2]
	strb	w12, [x13, #3]
	strb	w10, [x13, #4]
	stp	x9, xzr, [x8]
	stp	wzr, wzr, [x8, #16]
	ret
.Lpasetone_BB40_19:
	brk	#0x1
.Lpasetone_func_end40:
	.size	pasetone_plan_pll_by_worksheet, .Lpasetone_func_end40-pasetone_plan_pll_by_worksheet
	.cfi_endproc

	.section	.text.pasetone_plan_tuning,"ax",@progbits
	.globl	pasetone_plan_tuning
	.p2align	2
	.type	pasetone_plan_tuning,@function
pasetone_plan_tuning:
	.cfi_startproc
	cmp	x2, #0
	mov	w9, #4096
	csel	x9, x9, xzr, eq
	cbz	x0, .Lpasetone_BB41_5
	cmp	x0, #1
	b.ne	.Lpasetone_BB41_7
	mov	w10, #45696
	mov	w12, #29696
	mov	w11, #1
	movk	w10, #3814, lsl #16
	movk	w12, #439, lsl #16
	mov	w13, #37313
	cmp	x1, x10
	movk	w13, #33, lsl #16
	cinc	w11, w11, hs
	cmp	x1, x12
	add	x12, x1, x12
	cset	w10, lo
	csel	x12, x12, x1, lo
	csel	w11, wzr, w11, lo
	cmp	x1, x13
	b.hs	.Lpasetone_BB41_8
.Lpasetone_BB41_3:
	mov	w13, #1
	mov	x1, x12
	cmp	x3, #3
	b.lo	.Lpasetone_BB41_6
.Lpasetone_BB41_4:
	add	x9, x2, x9
	strb	w10, [x9]
	strb	w11, [x9, #1]
	strb	w13, [x9, #2]
	stp	x1, xzr, [x8]
	stp	wzr, wzr, [x8, #16]
	ret
.Lpasetone_BB41_5:
	mov	w10, wzr
	mov	w13, wzr
	mov	w11, #3
	cmp	x3, #3
	b.hs	.Lpasetone_BB41_4
.Lpasetone_BB41_6:
	mov	w12, #8
	stp	xzr, xzr, [x8]
	stp	w12, wzr, [x8, #16]
	ret
.Lpasetone_BB41_7:
	mov	w12, #1
	stp	xzr, xzr, [x8]
	stp	w12, wzr, [x8, #16]
	ret
.Lpasetone_BB41_8:
	mov	w13, #65344
	movk	w13, #1296, lsl #16
	cmp	x1, x13
	b.lo	.Lpasetone_BB41_11
	mov	w13, #64513
	movk	w13, #1708, lsl #16
	cmp	x1, x13
	b.lo	.Lpasetone_BB41_3
	mov	x13, #-33536
	mov	w14, #7552
	movk	x13, #62911, lsl #16
	movk	w14, #1068, lsl #16
	add	x13, x1, x13
	cmp	x13, x14
	b.ls	.Lpasetone_BB41_3
.Lpasetone_BB41_11:
	mov	w13, wzr
	mov	x1, x12
	cmp	x3, #3
	b.lo	.Lpasetone_BB41_6
	b	.Lpasetone_BB41_4
.Lpasetone_func_end41:
	.size	pasetone_plan_tuning, .Lpasetone_func_end41-pasetone_plan_tuning
	.cfi_endproc

	.section	.text.pasetone_power_on,"ax",@progbits
	.globl	pasetone_power_on
	.p2align	2
	.type	pasetone_power_on,@function
pasetone_power_on:
	.cfi_startproc
	sub	sp, sp, #64
	.cfi_def_cfa_offset 64
	stp	x29, x30, [sp, #32]
	str	x19, [sp, #48]
	add	x29, sp, #32
	.cfi_def_cfa w29, 32
	.cfi_offset w19, -16
	.cfi_offset w30, -24
	.cfi_offset w29, -32
	.cfi_remember_state
	mov	x19, x8
	mov	w8, #4096
	cmp	x0, #0
	csel	x11, x8, xzr, eq
	cmp	x2, #0
	mov	x9, x1
	mov	x10, x0
	csel	x8, x8, xzr, eq
	mov	x4, x3
	add	x0, sp, #8
	add	x1, x10, x11
	add	x3, x2, x8
	mov	x2, x9
	stp	xzr, xzr, [sp, #8]
	str	xzr, [sp, #24]
	bl	"demod::init_baseband"
	ldp	x10, x8, [sp, #16]
	ldrb	w9, [sp, #8]
	cbz	w9, .Lpasetone_BB42_3
	cmp	w9, #2
	b.ne	.Lpasetone_BB42_4
	mov	w9, #11
	stp	xzr, x10, [x19]
	stp	w9, w8, [x19, #16]
	.cfi_def_cfa wsp, 64
	ldp	x29, x30, [sp, #32]
	ldr	x19, [sp, #48]
	add	sp, sp, #64
	.cfi_def_cfa_offset 0
	.cfi_restore w19
	.cfi_restore w30
	.cfi_restore w29
	ret
.Lpasetone_BB42_3:
	.cfi_restore_state
	.cfi_remember_state
	mov	x11, x10
	stp	x11, x9, [x19]
	stp	w9, w8, [x19, #16]
	.cfi_def_cfa wsp, 64
	ldp	x29, x30, [sp, #32]
	ldr	x19, [sp, #48]
	add	sp, sp, #64
	.cfi_def_cfa_offset 0
	.cfi_restore w19
	.cfi_restore w30
	.cfi_restore w29
	ret
.Lpasetone_BB42_4:
	.cfi_restore_state
	ldrb	w9, [sp, #9]
	stp	xzr, xzr, [x19]
	stp	w9, w8, [x19, #16]
	.cfi_def_cfa wsp, 64
	ldp	x29, x30, [sp, #32]
	ldr	x19, [sp, #48]
	add	sp, sp, #64
	.cfi_def_cfa_offset 0
	.cfi_restore w19
	.cfi_restore w30
	.cfi_restore w29
	ret
.Lpasetone_func_end42:
	.size	pasetone_power_on, .Lpasetone_func_end42-pasetone_power_on
	.cfi_endproc

	.section	.text.pasetone_read_packets,"ax",@progbits
	.globl	pasetone_read_packets
	.p2align	2
	.type	pasetone_read_packets,@function
pasetone_read_packets:
	.cfi_startproc
	sub	sp, sp, #128
	.cfi_def_cfa_offset 128
	stp	x29, x30, [sp, #32]
	stp	x28, x27, [sp, #48]
	stp	x26, x25, [sp, #64]
	stp	x24, x23, [sp, #80]
	stp	x22, x21, [sp, #96]
	stp	x20, x19, [sp, #112]
	add	x29, sp, #32
	.cfi_def_cfa w29, 96
	.cfi_offset w19, -8
	.cfi_offset w20, -16
	.cfi_offset w21, -24
	.cfi_offset w22, -32
	.cfi_offset w23, -40
	.cfi_offset w24, -48
	.cfi_offset w25, -56
	.cfi_offset w26, -64
	.cfi_offset w27, -72
	.cfi_offset w28, -80
	.cfi_offset w30, -88
	.cfi_offset w29, -96
	mov	x19, x8
	mov	w8, #4096
	cmp	x0, #0
	csel	x26, x8, xzr, eq
	cmp	x2, #0
	mov	x23, x3
	mov	x22, x2
	mov	x20, x1
	mov	x21, x0
	csel	x27, x8, xzr, eq
	cbz	x1, .Lpasetone_BB43_8
	mov	x24, xzr
	mov	w25, #8
.Lpasetone_BB43_2:
	mov	w8, #24
	add	x25, x25, #16
	movk	w8, #1, lsl #16
	cmp	x25, x8
	b.eq	.Lpasetone_BB43_7
	mov	x0, sp
	add	x1, x21, x26
	mov	x2, x20
	mov	x3, x24
	bl	"packets::hear"
	ldrb	w8, [sp]
	cmp	w8, #1
	b.ne	.Lpasetone_BB43_7
	ldr	x8, [sp, #24]
	add	x24, x8, x24
	cmp	x24, x20
	b.lo	.Lpasetone_BB43_2
	cmp	x23, x25
	b.hs	.Lpasetone_BB43_9
.Lpasetone_BB43_6:
	mov	x25, xzr
	mov	w8, #8
	b	.Lpasetone_BB43_13
.Lpasetone_BB43_7:
	mov	x25, xzr
	mov	w8, #15
	b	.Lpasetone_BB43_13
.Lpasetone_BB43_8:
	mov	w25, #8
	cmp	x23, x25
	b.lo	.Lpasetone_BB43_6
.Lpasetone_BB43_9:
	mov	x0, sp
	add	x1, x21, x26
	mov	x2, x20
	mov	x3, xzr
	add	x24, x22, x27
	bl	"packets::hear"
	ldrb	w8, [sp]
	mov	x28, xzr
	cmp	w8, #1
	b.ne	.Lpasetone_BB43_12
	add	x8, x27, x22
	mov	x28, xzr
	mov	x23, xzr
	add	x22, x8, #8
.Lpasetone_BB43_11:
	ldur	w8, [sp, #10]
	ldrh	w9, [sp, #8]
	mov	x0, sp
	ldr	x10, [sp, #24]
	add	x1, x21, x26
	mov	x2, x20
	orr	x8, x9, x8, lsl #16
	ldur	x9, [sp, #14]
	add	x28, x28, #1
	add	x23, x10, x23
	mov	x3, x23
	stp	x8, x9, [x22, #-8]
	bl	"packets::hear"
	ldrb	w8, [sp]
	add	x22, x22, #16
	cmp	w8, #1
	b.eq	.Lpasetone_BB43_11
.Lpasetone_BB43_12:
	lsl	x9, x28, #4
	mov	w8, wzr
	add	x10, x24, x9
	stp	w28, w9, [x10]
.Lpasetone_BB43_13:
	stp	x25, xzr, [x19]
	stp	w8, wzr, [x19, #16]
	.cfi_def_cfa wsp, 128
	ldp	x20, x19, [sp, #112]
	ldp	x22, x21, [sp, #96]
	ldp	x24, x23, [sp, #80]
	ldp	x26, x25, [sp, #64]
	ldp	x28, x27, [sp, #48]
	ldp	x29, x30, [sp, #32]
	add	sp, sp, #128
	.cfi_def_cfa_offset 0
	.cfi_restore w19
	.cfi_restore w20
	.cfi_restore w21
	.cfi_restore w22
	.cfi_restore w23
	.cfi_restore w24
	.cfi_restore w25
	.cfi_restore w26
	.cfi_restore w27
	.cfi_restore w28
	.cfi_restore w30
	.cfi_restore w29
	ret
.Lpasetone_func_end43:
	.size	pasetone_read_packets, .Lpasetone_func_end43-pasetone_read_packets
	.cfi_endproc

	.section	.text.pasetone_read_section,"ax",@progbits
	.globl	pasetone_read_section
	.p2align	2
	.type	pasetone_read_section,@function
pasetone_read_section:
	.cfi_startproc
	sub	sp, sp, #64
	.cfi_def_cfa_offset 64
	stp	x29, x30, [sp, #32]
	str	x19, [sp, #48]
	add	x29, sp, #32
	.cfi_def_cfa w29, 32
	.cfi_offset w19, -16
	.cfi_offset w30, -24
	.cfi_offset w29, -32
	mov	x19, x8
	cmp	x0, #0
	mov	w8, #4096
	mov	x9, x0
	csel	x8, x8, xzr, eq
	mov	x2, x1
	add	x0, sp, #8
	add	x1, x9, x8
	stp	xzr, xzr, [sp, #8]
	str	xzr, [sp, #24]
	bl	"transcript::read_section"
	ldrb	w8, [sp, #8]
	ldur	q1, [sp, #16]
	cmp	w8, #1
	cset	w8, eq
	dup	v0.2s, w8
	mov	w8, #12
	csel	w8, wzr, w8, eq
	ushll	v0.2d, v0.2s, #0
	shl	v0.2d, v0.2d, #63
	cmlt	v0.2d, v0.2d, #0
	and	v0.16b, v0.16b, v1.16b
	str	q0, [x19]
	stp	w8, wzr, [x19, #16]
	.cfi_def_cfa wsp, 64
	ldp	x29, x30, [sp, #32]
	ldr	x19, [sp, #48]
	add	sp, sp, #64
	.cfi_def_cfa_offset 0
	.cfi_restore w19
	.cfi_restore w30
	.cfi_restore w29
	ret
.Lpasetone_func_end44:
	.size	pasetone_read_section, .Lpasetone_func_end44-pasetone_read_section
	.cfi_endproc

	.section	.text.pasetone_read_settings_1,"ax",@progbits
	.globl	pasetone_read_settings_1
	.p2align	2
	.type	pasetone_read_settings_1,@function
pasetone_read_settings_1:
	.cfi_startproc
	mov	w9, #4096
	cmp	x0, #0
	csel	x9, x9, xzr, eq
	subs	x10, x1, #4
	b.hs	.Lpasetone_BB45_3
	mov	x9, xzr
	mov	x11, xzr
	mov	x12, xzr
	mov	x13, xzr
	movi	v0.2d, #0000000000000000
	mov	w10, #17
.Lpasetone_BB45_2:
	stp	x12, x9, [x8]
	stp	x11, x13, [x8, #16]
	str	d0, [x8, #32]
	stp	w10, wzr, [x8, #40]
	ret
.Lpasetone_BB45_3:
	add	x11, x0, x9
	ldrb	w9, [x11, x10]
	cmp	w9, #1
	b.ne	.Lpasetone_BB45_10
	movi	v0.2d, #0000000000000000
	mov	x9, xzr
	cmp	x10, #19
	mov	w10, #17
	b.lo	.Lpasetone_BB45_11
	add	x14, x11, x1
	ldurb	w11, [x14, #-3]
	cbnz	w11, .Lpasetone_BB45_11
	ldurh	w11, [x14, #-2]
	mov	x12, x9
	mov	x13, x9
	cmp	x11, #19
	mov	x11, x9
	b.ne	.Lpasetone_BB45_2
	ldurb	w15, [x14, #-5]
	mov	x9, xzr
	cmp	x15, #28
	b.hi	.Lpasetone_BB45_11
	ldurb	w16, [x14, #-23]
	ldurb	w17, [x14, #-22]
	mov	x12, x9
	mov	x13, x9
	orr	x11, x17, x16
	cmp	x11, #1
	mov	x11, x9
	b.hi	.Lpasetone_BB45_2
	ldur	d0, [x14, #-21]
	ldur	x12, [x14, #-13]
	rev64	v0.2s, v0.2s
	stp	x12, x16, [x8]
	stp	x17, x15, [x8, #16]
	str	d0, [x8, #32]
	stp	wzr, wzr, [x8, #40]
	ret
.Lpasetone_BB45_10:
	movi	v0.2d, #0000000000000000
	mov	w10, #16
	stp	xzr, xzr, [x8]
	stp	xzr, xzr, [x8, #16]
	str	d0, [x8, #32]
	stp	w10, wzr, [x8, #40]
	ret
.Lpasetone_BB45_11:
	stp	x9, x9, [x8]
	stp	x9, x9, [x8, #16]
	str	d0, [x8, #32]
	stp	w10, wzr, [x8, #40]
	ret
.Lpasetone_func_end45:
	.size	pasetone_read_settings_1, .Lpasetone_func_end45-pasetone_read_settings_1
	.cfi_endproc

	.section	.text.pasetone_read_settings_2,"ax",@progbits
	.globl	pasetone_read_settings_2
	.p2align	2
	.type	pasetone_read_settings_2,@function
pasetone_read_settings_2:
	.cfi_startproc
	sub	sp, sp, #16
	.cfi_def_cfa_offset 16
	.cfi_remember_state
	cmp	x0, #0
	mov	w9, #4096
	stur	xzr, [sp, #7]
	csel	x10, x9, xzr, eq
	subs	x9, x1, #4
	b.hs	.Lpasetone_BB46_2
	mov	x12, xzr
	mov	x11, xzr
	mov	x14, xzr
	mov	x13, xzr
	mov	w10, wzr
	movi	v0.2d, #0000000000000000
	mov	w9, #17
	b	.Lpasetone_BB46_19
.Lpasetone_BB46_2:
	add	x11, x0, x10
	ldrb	w10, [x11, x9]
	cmp	w10, #1
	b.eq	.Lpasetone_BB46_10
	cmp	w10, #2
	b.ne	.Lpasetone_BB46_16
	movi	v0.2d, #0000000000000000
	mov	w10, wzr
	mov	x12, xzr
	cmp	x9, #23
	mov	w9, #17
	b.lo	.Lpasetone_BB46_20
	add	x15, x11, x1
	ldurb	w11, [x15, #-3]
	cbnz	w11, .Lpasetone_BB46_20
	ldurh	w11, [x15, #-2]
	mov	x14, x12
	mov	x13, x12
	cmp	x11, #23
	mov	x11, x12
	b.ne	.Lpasetone_BB46_19
	ldurb	w16, [x15, #-9]
	mov	w10, wzr
	mov	x12, xzr
	cmp	x16, #28
	b.hi	.Lpasetone_BB46_20
	ldurb	w17, [x15, #-27]
	ldurb	w18, [x15, #-26]
	mov	x14, x12
	mov	x13, x12
	orr	x11, x18, x17
	cmp	x11, #1
	mov	x11, x12
	b.hi	.Lpasetone_BB46_19
	ldur	x14, [x15, #-17]
	ldur	d0, [x15, #-25]
	mov	w9, wzr
	ldur	w10, [x15, #-8]
	mov	x12, x17
	mov	x11, x18
	mov	x13, x16
	b	.Lpasetone_BB46_19
.Lpasetone_BB46_10:
	cmp	x9, #19
	mov	w9, #17
	b.lo	.Lpasetone_BB46_17
	add	x10, x11, x1
	ldurb	w11, [x10, #-3]
	cbnz	w11, .Lpasetone_BB46_17
	ldurh	w11, [x10, #-2]
	cmp	x11, #19
	b.ne	.Lpasetone_BB46_17
	ldurb	w13, [x10, #-5]
	cmp	x13, #28
	b.hi	.Lpasetone_BB46_17
	ldurb	w12, [x10, #-23]
	ldurb	w11, [x10, #-22]
	orr	w14, w11, w12
	cmp	w14, #2
	b.hs	.Lpasetone_BB46_17
	ldur	x14, [x10, #-13]
	ldur	d0, [x10, #-21]
	lsl	x12, x12, #56
	mov	w10, #6240
	mov	w9, wzr
	movk	w10, #35, lsl #16
	b	.Lpasetone_BB46_18
.Lpasetone_BB46_16:
	mov	w9, #16
.Lpasetone_BB46_17:
	mov	x11, xzr
	mov	x14, xzr
	mov	x13, xzr
	mov	x12, xzr
	mov	w10, wzr
	movi	v0.2d, #0000000000000000
	stur	wzr, [sp, #11]
	str	wzr, [sp, #8]
.Lpasetone_BB46_18:
	str	x12, [sp]
	ldur	x12, [sp, #7]
.Lpasetone_BB46_19:
	rev64	v0.2s, v0.2s
	stp	x14, x12, [x8]
	stp	x11, x13, [x8, #16]
	stp	w10, w9, [x8, #40]
	str	d0, [x8, #32]
	add	sp, sp, #16
	.cfi_def_cfa_offset 0
	ret
.Lpasetone_BB46_20:
	.cfi_restore_state
	mov	x11, x12
	mov	x14, x12
	mov	x13, x12
	b	.Lpasetone_BB46_19
.Lpasetone_func_end46:
	.size	pasetone_read_settings_2, .Lpasetone_func_end46-pasetone_read_settings_2
	.cfi_endproc

	.section	.text.pasetone_reload,"ax",@progbits
	.globl	pasetone_reload
	.p2align	2
	.type	pasetone_reload,@function
pasetone_reload:
	.cfi_startproc
	sub	sp, sp, #64
	.cfi_def_cfa_offset 64
	stp	x29, x30, [sp, #32]
	str	x19, [sp, #48]
	add	x29, sp, #32
	.cfi_def_cfa w29, 32
	.cfi_offset w19, -16
	.cfi_offset w30, -24
	.cfi_offset w29, -32
	mov	x19, x8
	cmp	x0, #0
	mov	w8, #4096
	csel	x14, x8, xzr, eq
	cmp	x2, #0
	mov	x10, x5
	csel	x15, x8, xzr, eq
	cmp	x4, #0
	mov	x11, x0
	csel	x16, x8, xzr, eq
	cmp	x6, #0
	mov	x12, x3
	mov	x13, x1
	csel	x8, x8, xzr, eq
	mov	x9, x7
	add	x0, sp, #8
	add	x1, x11, x14
	add	x3, x2, x15
	add	x5, x4, x16
	add	x7, x6, x8
	mov	x2, x13
	mov	x4, x12
	mov	x6, x10
	stp	xzr, xzr, [sp, #8]
	str	xzr, [sp, #24]
	str	x9, [sp]
	bl	"tuners::reload"
	ldur	q0, [sp, #8]
	ldr	x8, [sp, #24]
	str	q0, [x19]
	str	x8, [x19, #16]
	.cfi_def_cfa wsp, 64
	ldp	x29, x30, [sp, #32]
	ldr	x19, [sp, #48]
	add	sp, sp, #64
	.cfi_def_cfa_offset 0
	.cfi_restore w19
	.cfi_restore w30
	.cfi_restore w29
	ret
.Lpasetone_func_end47:
	.size	pasetone_reload, .Lpasetone_func_end47-pasetone_reload
	.cfi_endproc

	.section	.text.pasetone_resample_regs,"ax",@progbits
	.globl	pasetone_resample_regs
	.p2align	2
	.type	pasetone_resample_regs,@function
pasetone_resample_regs:
	.cfi_startproc
	cmp	x2, #0
	mov	w9, #4096
	mov	w11, #3
	csel	x10, x9, xzr, eq
	cmp	w1, #0
	mov	w9, #4
	csel	w9, w9, wzr, eq
	cmp	w0, #0
	csel	w9, w11, w9, eq
	cbz	w9, .Lpasetone_BB48_2
	stp	xzr, xzr, [x8]
	stp	w9, wzr, [x8, #16]
	ret
.Lpasetone_BB48_2:
	cbz	w0, .Lpasetone_BB48_6
	cmp	x3, #4
	b.hs	.Lpasetone_BB48_5
	mov	w9, #8
	stp	xzr, xzr, [x8]
	stp	w9, wzr, [x8, #16]
	ret
.Lpasetone_BB48_5:
	ubfiz	x11, x1, #22, #32
	mov	w12, w0
	udiv	x11, x11, x12
	and	w11, w11, #0x3fffffff
	rev	w11, w11
	str	w11, [x2, x10]
	stp	xzr, xzr, [x8]
	stp	wzr, wzr, [x8, #16]
	ret
.Lpasetone_BB48_6:
	brk	#0x1
.Lpasetone_func_end48:
	.size	pasetone_resample_regs, .Lpasetone_func_end48-pasetone_resample_regs
	.cfi_endproc

	.section	.rodata.cst8,"aM",@progbits,8
	.p2align	3, 0x0
.Lpasetone_CPI49_0:
	.word	1
	.word	16
.Lpasetone_CPI49_1:
	.word	2
	.word	32
	.section	.text.pasetone_reset_demod,"ax",@progbits
	.globl	pasetone_reset_demod
	.p2align	2
	.type	pasetone_reset_demod,@function
pasetone_reset_demod:
	.cfi_startproc
	mov	w10, #4096
	cmp	x0, #0
	csel	x9, x10, xzr, eq
	cmp	x2, #0
	csel	x10, x10, xzr, eq
	cmp	x3, #40
	b.hs	.Lpasetone_BB49_2
	mov	w11, #8
	stp	xzr, xzr, [x8]
	stp	w11, wzr, [x8, #16]
	ret
.Lpasetone_BB49_2:
	cmp	x1, #2
	b.hs	.Lpasetone_BB49_4
	mov	w11, #9
	stp	xzr, xzr, [x8]
	stp	w11, wzr, [x8, #16]
	ret
.Lpasetone_BB49_4:
	add	x11, x0, x9
	mov	x9, #4
	add	x10, x2, x10
	ldrb	w12, [x11]
	movk	x9, #257, lsl #16
	mov	w14, #20
	movk	x9, #1, lsl #32
	orr	x13, x9, #0x100
	cmp	w12, #0
	csel	x13, x9, x13, eq
	stp	x13, x14, [x10]
	cbz	w12, .Lpasetone_BB49_6
	adrp	x11, .Lpasetone_CPI49_0
	ldr	d0, [x11, :lo12:.Lpasetone_CPI49_0]
	mov	w11, #11
	str	d0, [x10, #16]
	mov	w10, #1
	stp	xzr, xzr, [x8]
	stp	w11, w10, [x8, #16]
	ret
.Lpasetone_BB49_6:
	ldrb	w11, [x11, #1]
	add	x12, x9, #256
	cmp	w11, #0
	adrp	x11, .Lpasetone_CPI49_1
	ldr	d0, [x11, :lo12:.Lpasetone_CPI49_1]
	csel	x9, x12, x9, ne
	mov	w12, #16
	mov	w11, #11
	stp	x9, x12, [x10, #16]
	cset	w9, ne
	str	d0, [x10, #32]
	csel	w11, w11, wzr, ne
	mov	w10, #2
	stp	xzr, x9, [x8]
	stp	w11, w10, [x8, #16]
	ret
.Lpasetone_func_end49:
	.size	pasetone_reset_demod, .Lpasetone_func_end49-pasetone_reset_demod
	.cfi_endproc

	.section	.text.pasetone_restore,"ax",@progbits
	.globl	pasetone_restore
	.p2align	2
	.type	pasetone_restore,@function
pasetone_restore:
	.cfi_startproc
	sub	sp, sp, #464
	.cfi_def_cfa_offset 464
	stp	x29, x30, [sp, #368]
	str	x28, [sp, #384]
	stp	x26, x25, [sp, #400]
	stp	x24, x23, [sp, #416]
	stp	x22, x21, [sp, #432]
	stp	x20, x19, [sp, #448]
	add	x29, sp, #368
	.cfi_def_cfa w29, 96
	.cfi_offset w19, -8
	.cfi_offset w20, -16
	.cfi_offset w21, -24
	.cfi_offset w22, -32
	.cfi_offset w23, -40
	.cfi_offset w24, -48
	.cfi_offset w25, -56
	.cfi_offset w26, -64
	.cfi_offset w28, -80
	.cfi_offset w30, -88
	.cfi_offset w29, -96
	movi	v0.2d, #0000000000000000
	cmp	x0, #0
	mov	w10, #4096
	mov	x19, x8
	csel	x8, x10, xzr, eq
	cmp	x3, #0
	mov	x21, x4
	mov	x20, x3
	and	w24, w2, #0xff
	csel	x23, x10, xzr, eq
	stp	xzr, xzr, [x29, #-24]
	stp	q0, q0, [x29, #-128]
	stp	q0, q0, [x29, #-96]
	stp	q0, q0, [x29, #-64]
	stur	xzr, [x29, #-8]
	cbz	x1, .Lpasetone_BB50_14
	add	x9, x29, #24
	sub	x10, x29, #128
	mov	x2, x1
	add	x22, x0, x8
	orr	x25, x9, #0x1
	orr	x26, x10, #0x1
	b	.Lpasetone_BB50_3
.Lpasetone_BB50_2:
	cbz	x2, .Lpasetone_BB50_14
.Lpasetone_BB50_3:
	sub	x0, x29, #24
	mov	x1, x22
	bl	"transcript::read_section"
	ldurb	w8, [x29, #-24]
	cmp	w8, #1
	b.ne	.Lpasetone_BB50_68
	ldp	x2, x8, [x29, #-16]
	cbz	x8, .Lpasetone_BB50_2
	add	x9, x22, x2
	b	.Lpasetone_BB50_7
.Lpasetone_BB50_6:
	cbz	x8, .Lpasetone_BB50_2
.Lpasetone_BB50_7:
	sub	x8, x8, #1
	add	x10, x9, x8, lsl #4
	ldrb	w11, [x10]
	ldrb	w12, [x10, #2]
	cmp	w11, #2
	ccmp	w12, w24, #0, eq
	b.ne	.Lpasetone_BB50_6
	ldrb	w13, [x10, #1]
	ldrb	w11, [x10, #3]
	ldr	x12, [x10, #8]
	mov	w10, #1
	cmp	w13, #0
	str	x12, [x29, #24]
	cinc	w10, w10, eq
	cmp	w11, #2
	b.lo	.Lpasetone_BB50_6
	and	x12, x12, #0xff
	sub	x11, x11, #1
	mov	x14, x25
	add	x13, x12, x12, lsl #1
	sub	x12, x12, #32
	add	x13, x26, x13
	b	.Lpasetone_BB50_11
.Lpasetone_BB50_10:
	subs	x11, x11, #1
	add	x12, x12, #1
	add	x13, x13, #3
	b.eq	.Lpasetone_BB50_6
.Lpasetone_BB50_11:
	ldrb	w15, [x14], #1
	cmn	x12, #27
	b.lo	.Lpasetone_BB50_10
	ldurb	w16, [x13, #-1]
	cmp	w16, #1
	b.eq	.Lpasetone_BB50_10
	mov	w16, #1
	strb	w15, [x13]
	sturb	w16, [x13, #-1]
	strb	w10, [x13, #1]
	b	.Lpasetone_BB50_10
.Lpasetone_BB50_14:
	movi	v0.2d, #0000000000000000
	mov	w9, #2
	mov	w10, #10
	movk	w9, #256, lsl #16
	sub	x13, x29, #128
	mov	x8, xzr
	orr	x9, x9, x24, lsl #16
	mov	x12, xzr
	mov	x11, xzr
	orr	x10, x13, x10
	str	xzr, [sp, #224]
	stp	q0, q0, [sp]
	stp	q0, q0, [sp, #32]
	stp	q0, q0, [sp, #64]
	stp	q0, q0, [sp, #96]
	stp	q0, q0, [sp, #128]
	stp	q0, q0, [sp, #160]
	stp	q0, q0, [sp, #192]
.Lpasetone_BB50_15:
	add	x13, x12, x12, lsl #1
	neg	x12, x12
	add	x0, x10, x13
	b	.Lpasetone_BB50_17
.Lpasetone_BB50_16:
	sub	x12, x12, #1
	add	x0, x0, #3
	cmn	x12, #32
	b.eq	.Lpasetone_BB50_66
.Lpasetone_BB50_17:
	ldurb	w13, [x0, #-10]
	cmp	w13, #1
	b.ne	.Lpasetone_BB50_16
	ldurb	w13, [x0, #-8]
	cmp	w13, #2
	b.ne	.Lpasetone_BB50_16
	neg	x2, x12
	mov	w13, #32
	subs	x13, x13, x2
	csel	x13, xzr, x13, lo
	cmp	x13, #1
	b.eq	.Lpasetone_BB50_37
	ldurb	w14, [x0, #-7]
	cmp	w14, #1
	b.ne	.Lpasetone_BB50_37
	ldurb	w14, [x0, #-5]
	cmp	w14, #2
	b.ne	.Lpasetone_BB50_37
	cmp	x13, #2
	b.eq	.Lpasetone_BB50_39
	ldurb	w14, [x0, #-4]
	cmp	w14, #1
	b.ne	.Lpasetone_BB50_39
	ldurb	w14, [x0, #-2]
	cmp	w14, #2
	b.ne	.Lpasetone_BB50_39
	cmp	x13, #3
	b.eq	.Lpasetone_BB50_40
	ldurb	w14, [x0, #-1]
	cmp	w14, #1
	b.ne	.Lpasetone_BB50_40
	ldrb	w14, [x0, #1]
	cmp	w14, #2
	b.ne	.Lpasetone_BB50_40
	cmp	x13, #4
	b.eq	.Lpasetone_BB50_41
	ldrb	w14, [x0, #2]
	cmp	w14, #1
	b.ne	.Lpasetone_BB50_41
	ldrb	w14, [x0, #4]
	cmp	w14, #2
	b.ne	.Lpasetone_BB50_41
	cmp	x13, #5
	b.eq	.Lpasetone_BB50_42
	ldrb	w14, [x0, #5]
	cmp	w14, #1
	b.ne	.Lpasetone_BB50_42
	ldrb	w14, [x0, #7]
	cmp	w14, #2
	b.ne	.Lpasetone_BB50_42
	cmp	x13, #6
	b.eq	.Lpasetone_BB50_46
	ldrb	w13, [x0, #8]
	cmp	w13, #1
	b.ne	.Lpasetone_BB50_46
	ldrb	w13, [x0, #10]
	cmp	w13, #2
	mov	w13, #6
	cinc	x18, x13, eq
	ldurb	w13, [x0, #-9]
	ldurb	w15, [x0, #-6]
	cmp	x2, #27
	ldurb	w16, [x0, #-3]
	ldrb	w14, [x0]
	b.ls	.Lpasetone_BB50_47
	b	.Lpasetone_BB50_43
.Lpasetone_BB50_37:
	ldurb	w13, [x0, #-9]
	mov	x1, xzr
	mov	x14, xzr
	mov	x15, xzr
	mov	x16, xzr
	mov	x17, xzr
	mov	x2, xzr
	mov	w18, #1
.Lpasetone_BB50_38:
	neg	x0, x12
	and	x11, x11, #0xffffffffffffff
	sub	x12, x18, x12
	orr	x11, x0, x11
	cmp	x12, #32
	orr	x11, x11, x1, lsl #48
	orr	x11, x11, x14, lsl #32
	add	x14, x9, x18, lsl #24
	orr	x11, x11, x15, lsl #16
	orr	x11, x11, x13, lsl #8
	mov	x13, sp
	add	x13, x13, x8, lsl #4
	add	x8, x8, #1
	orr	x11, x11, x16, lsl #24
	orr	x11, x11, x17, lsl #40
	orr	x11, x11, x2
	stp	x14, x11, [x13]
	mov	x11, x2
	b.lo	.Lpasetone_BB50_15
	b	.Lpasetone_BB50_66
.Lpasetone_BB50_39:
	ldurb	w13, [x0, #-9]
	ldurb	w15, [x0, #-6]
	mov	x1, xzr
	mov	x14, xzr
	mov	x16, xzr
	mov	x17, xzr
	mov	x2, xzr
	mov	w18, #2
	b	.Lpasetone_BB50_38
.Lpasetone_BB50_40:
	ldurb	w13, [x0, #-9]
	ldurb	w15, [x0, #-6]
	mov	x1, xzr
	ldurb	w16, [x0, #-3]
	mov	x14, xzr
	mov	x17, xzr
	mov	x2, xzr
	mov	w18, #3
	b	.Lpasetone_BB50_38
.Lpasetone_BB50_41:
	ldurb	w13, [x0, #-9]
	ldurb	w15, [x0, #-6]
	mov	x1, xzr
	ldurb	w16, [x0, #-3]
	ldrb	w14, [x0]
	mov	x17, xzr
	mov	x2, xzr
	mov	w18, #4
	b	.Lpasetone_BB50_38
.Lpasetone_BB50_42:
	mov	w18, #5
	ldurb	w13, [x0, #-9]
	ldurb	w15, [x0, #-6]
	cmp	x2, #27
	ldurb	w16, [x0, #-3]
	ldrb	w14, [x0]
	b.ls	.Lpasetone_BB50_47
.Lpasetone_BB50_43:
	orr	x17, x18, #0x2
	cmp	x17, #7
	b.ne	.Lpasetone_BB50_45
	mov	x1, xzr
	mov	x17, xzr
	mov	x2, xzr
	b	.Lpasetone_BB50_38
.Lpasetone_BB50_45:
	mov	x1, xzr
	mov	x17, xzr
	b	.Lpasetone_BB50_64
.Lpasetone_BB50_46:
	mov	w18, #6
	ldurb	w13, [x0, #-9]
	ldurb	w15, [x0, #-6]
	cmp	x2, #27
	ldurb	w16, [x0, #-3]
	ldrb	w14, [x0]
	b.hi	.Lpasetone_BB50_43
.Lpasetone_BB50_47:
	ldrb	w17, [x0, #2]
	cmp	w17, #1
	b.ne	.Lpasetone_BB50_50
	ldrb	w17, [x0, #4]
	cmp	w17, #2
	b.ne	.Lpasetone_BB50_50
	ldrb	w17, [x0, #3]
	b	.Lpasetone_BB50_51
.Lpasetone_BB50_50:
	mov	x17, xzr
.Lpasetone_BB50_51:
	cmp	x18, #5
	b.ne	.Lpasetone_BB50_53
	mov	x1, xzr
	mov	x2, xzr
	b	.Lpasetone_BB50_38
.Lpasetone_BB50_53:
	cmn	x12, #27
	b.ne	.Lpasetone_BB50_55
	cmp	x18, #7
	mov	w18, #6
	mov	x1, xzr
	mov	x2, xzr
	cinc	x18, x18, eq
	b	.Lpasetone_BB50_38
.Lpasetone_BB50_55:
	ldrb	w1, [x0, #5]
	cmp	w1, #1
	b.ne	.Lpasetone_BB50_58
	ldrb	w1, [x0, #7]
	cmp	w1, #2
	b.ne	.Lpasetone_BB50_58
	ldrb	w1, [x0, #6]
	b	.Lpasetone_BB50_59
.Lpasetone_BB50_58:
	mov	x1, xzr
.Lpasetone_BB50_59:
	cmp	x18, #7
	b.ne	.Lpasetone_BB50_64
	cmp	x2, #25
	b.hi	.Lpasetone_BB50_65
	ldrb	w18, [x0, #8]
	cmp	w18, #1
	b.ne	.Lpasetone_BB50_65
	ldrb	w18, [x0, #10]
	cmp	w18, #2
	b.ne	.Lpasetone_BB50_65
	ldrb	w18, [x0, #9]
	lsl	x2, x18, #56
	mov	w18, #7
	b	.Lpasetone_BB50_38
.Lpasetone_BB50_64:
	mov	x2, xzr
	mov	w18, #6
	b	.Lpasetone_BB50_38
.Lpasetone_BB50_65:
	mov	x2, xzr
	mov	w18, #7
	b	.Lpasetone_BB50_38
.Lpasetone_BB50_66:
	lsl	x9, x8, #4
	mov	w22, #8
	mov	x10, sp
	bfi	x22, x8, #4, #60
	add	x10, x10, x9
	cmp	x21, x22
	stp	w8, w9, [x10]
	mov	w8, #8
	b.lo	.Lpasetone_BB50_69
	add	x0, x20, x23
	mov	x1, sp
	mov	x2, x22
	bl	memcpy
	mov	w8, wzr
	b	.Lpasetone_BB50_70
.Lpasetone_BB50_68:
	mov	w8, #12
.Lpasetone_BB50_69:
	mov	x22, xzr
.Lpasetone_BB50_70:
	stp	x22, xzr, [x19]
	stp	w8, wzr, [x19, #16]
	.cfi_def_cfa wsp, 464
	ldp	x20, x19, [sp, #448]
	ldr	x28, [sp, #384]
	ldp	x22, x21, [sp, #432]
	ldp	x24, x23, [sp, #416]
	ldp	x26, x25, [sp, #400]
	ldp	x29, x30, [sp, #368]
	add	sp, sp, #464
	.cfi_def_cfa_offset 0
	.cfi_restore w19
	.cfi_restore w20
	.cfi_restore w21
	.cfi_restore w22
	.cfi_restore w23
	.cfi_restore w24
	.cfi_restore w25
	.cfi_restore w26
	.cfi_restore w28
	.cfi_restore w30
	.cfi_restore w29
	ret
.Lpasetone_func_end50:
	.size	pasetone_restore, .Lpasetone_func_end50-pasetone_restore
	.cfi_endproc

	.section	.text.pasetone_set_bandwidth,"ax",@progbits
	.globl	pasetone_set_bandwidth
	.p2align	2
	.type	pasetone_set_bandwidth,@function
pasetone_set_bandwidth:
	.cfi_startproc
	sub	sp, sp, #80
	.cfi_def_cfa_offset 80
	stp	x29, x30, [sp, #48]
	str	x19, [sp, #64]
	add	x29, sp, #48
	.cfi_def_cfa w29, 32
	.cfi_offset w19, -16
	.cfi_offset w30, -24
	.cfi_offset w29, -32
	mov	x19, x8
	cmp	x0, #0
	mov	w8, #4096
	csel	x13, x8, xzr, eq
	cmp	x3, #0
	mov	x9, x6
	csel	x14, x8, xzr, eq
	cmp	x5, #0
	mov	x10, x0
	csel	x15, x8, xzr, eq
	cmp	x7, #0
	mov	x11, x4
	mov	w12, w2
	ldr	x16, [x29, #32]
	csel	x8, x8, xzr, eq
	mov	x2, x1
	add	x8, x7, x8
	add	x0, sp, #24
	add	x1, x10, x13
	add	x4, x3, x14
	add	x6, x5, x15
	mov	w3, w12
	mov	x5, x11
	mov	x7, x9
	stp	xzr, xzr, [sp, #24]
	str	xzr, [sp, #40]
	stp	x8, x16, [sp]
	bl	"tuners::set_bandwidth"
	ldur	q0, [sp, #24]
	ldr	x8, [sp, #40]
	str	q0, [x19]
	str	x8, [x19, #16]
	.cfi_def_cfa wsp, 80
	ldp	x29, x30, [sp, #48]
	ldr	x19, [sp, #64]
	add	sp, sp, #80
	.cfi_def_cfa_offset 0
	.cfi_restore w19
	.cfi_restore w30
	.cfi_restore w29
	ret
.Lpasetone_func_end51:
	.size	pasetone_set_bandwidth, .Lpasetone_func_end51-pasetone_set_bandwidth
	.cfi_endproc

	.section	.text.pasetone_set_frequency,"ax",@progbits
	.globl	pasetone_set_frequency
	.p2align	2
	.type	pasetone_set_frequency,@function
pasetone_set_frequency:
	.cfi_startproc
	sub	sp, sp, #96
	.cfi_def_cfa_offset 96
	stp	x29, x30, [sp, #64]
	str	x19, [sp, #80]
	add	x29, sp, #64
	.cfi_def_cfa w29, 32
	.cfi_offset w19, -16
	.cfi_offset w30, -24
	.cfi_offset w29, -32
	mov	x19, x8
	cmp	x0, #0
	mov	w8, #4096
	csel	x13, x8, xzr, eq
	cmp	x3, #0
	movi	v0.2d, #0000000000000000
	ldp	x17, x14, [x29, #32]
	csel	x15, x8, xzr, eq
	cmp	x5, #0
	mov	x12, x2
	mov	x2, x1
	csel	x16, x8, xzr, eq
	cmp	x7, #0
	ldr	x1, [x29, #48]
	csel	x18, x8, xzr, eq
	cmp	x14, #0
	mov	x9, x6
	csel	x8, x8, xzr, eq
	mov	x10, x4
	mov	x11, x0
	add	x8, x14, x8
	add	x18, x7, x18
	add	x0, sp, #32
	stp	x8, x1, [sp, #16]
	add	x1, x11, x13
	add	x4, x3, x15
	add	x6, x5, x16
	mov	x3, x12
	mov	x5, x10
	mov	x7, x9
	stp	q0, q0, [sp, #32]
	stp	x18, x17, [sp]
	bl	"tuners::set_frequency"
	ldp	q0, q1, [sp, #32]
	stp	q0, q1, [x19]
	.cfi_def_cfa wsp, 96
	ldp	x29, x30, [sp, #64]
	ldr	x19, [sp, #80]
	add	sp, sp, #96
	.cfi_def_cfa_offset 0
	.cfi_restore w19
	.cfi_restore w30
	.cfi_restore w29
	ret
.Lpasetone_func_end52:
	.size	pasetone_set_frequency, .Lpasetone_func_end52-pasetone_set_frequency
	.cfi_endproc

	.section	.text.pasetone_set_gain,"ax",@progbits
	.globl	pasetone_set_gain
	.p2align	2
	.type	pasetone_set_gain,@function
pasetone_set_gain:
	.cfi_startproc
	sub	sp, sp, #64
	.cfi_def_cfa_offset 64
	stp	x29, x30, [sp, #32]
	str	x19, [sp, #48]
	add	x29, sp, #32
	.cfi_def_cfa w29, 32
	.cfi_offset w19, -16
	.cfi_offset w30, -24
	.cfi_offset w29, -32
	mov	x19, x8
	cmp	x0, #0
	mov	w8, #4096
	csel	x14, x8, xzr, eq
	cmp	x2, #0
	mov	x10, x5
	csel	x15, x8, xzr, eq
	cmp	x4, #0
	mov	x11, x0
	csel	x16, x8, xzr, eq
	cmp	x6, #0
	mov	x12, x3
	mov	x13, x1
	csel	x8, x8, xzr, eq
	mov	x9, x7
	add	x0, sp, #8
	add	x1, x11, x14
	add	x3, x2, x15
	add	x5, x4, x16
	add	x7, x6, x8
	mov	x2, x13
	mov	x4, x12
	mov	x6, x10
	stp	xzr, xzr, [sp, #8]
	str	xzr, [sp, #24]
	str	x9, [sp]
	bl	"tuners::set_gain"
	ldur	q0, [sp, #8]
	ldr	x8, [sp, #24]
	str	q0, [x19]
	str	x8, [x19, #16]
	.cfi_def_cfa wsp, 64
	ldp	x29, x30, [sp, #32]
	ldr	x19, [sp, #48]
	add	sp, sp, #64
	.cfi_def_cfa_offset 0
	.cfi_restore w19
	.cfi_restore w30
	.cfi_restore w29
	ret
.Lpasetone_func_end53:
	.size	pasetone_set_gain, .Lpasetone_func_end53-pasetone_set_gain
	.cfi_endproc

	.section	.text.pasetone_set_gain_by_index,"ax",@progbits
	.globl	pasetone_set_gain_by_index
	.p2align	2
	.type	pasetone_set_gain_by_index,@function
pasetone_set_gain_by_index:
	.cfi_startproc
	sub	sp, sp, #80
	.cfi_def_cfa_offset 80
	stp	x29, x30, [sp, #48]
	str	x19, [sp, #64]
	add	x29, sp, #48
	.cfi_def_cfa w29, 32
	.cfi_offset w19, -16
	.cfi_offset w30, -24
	.cfi_offset w29, -32
	mov	x19, x8
	cmp	x0, #0
	mov	w8, #4096
	csel	x13, x8, xzr, eq
	cmp	x3, #0
	mov	x9, x6
	csel	x14, x8, xzr, eq
	cmp	x5, #0
	mov	x10, x0
	csel	x15, x8, xzr, eq
	cmp	x7, #0
	mov	x11, x4
	mov	x12, x2
	ldr	x16, [x29, #32]
	csel	x8, x8, xzr, eq
	mov	x2, x1
	add	x8, x7, x8
	add	x0, sp, #24
	add	x1, x10, x13
	add	x4, x3, x14
	add	x6, x5, x15
	mov	x3, x12
	mov	x5, x11
	mov	x7, x9
	stp	xzr, xzr, [sp, #24]
	str	xzr, [sp, #40]
	stp	x8, x16, [sp]
	bl	"tuners::set_gain_by_index"
	ldur	q0, [sp, #24]
	ldr	x8, [sp, #40]
	str	q0, [x19]
	str	x8, [x19, #16]
	.cfi_def_cfa wsp, 80
	ldp	x29, x30, [sp, #48]
	ldr	x19, [sp, #64]
	add	sp, sp, #80
	.cfi_def_cfa_offset 0
	.cfi_restore w19
	.cfi_restore w30
	.cfi_restore w29
	ret
.Lpasetone_func_end54:
	.size	pasetone_set_gain_by_index, .Lpasetone_func_end54-pasetone_set_gain_by_index
	.cfi_endproc

	.section	.rodata.cst8,"aM",@progbits,8
	.p2align	3, 0x0
.Lpasetone_CPI55_0:
	.word	1
	.word	16
.Lpasetone_CPI55_1:
	.word	2
	.word	32
	.section	.text.pasetone_set_gpio_bit,"ax",@progbits
	.globl	pasetone_set_gpio_bit
	.p2align	2
	.type	pasetone_set_gpio_bit,@function
pasetone_set_gpio_bit:
	.cfi_startproc
	cmp	x2, #0
	mov	w10, #4096
	and	w11, w0, #0xff
	csel	x15, x10, xzr, eq
	cmp	x4, #0
	csel	x9, x10, xzr, eq
	cmp	x6, #0
	csel	x12, x10, xzr, eq
	cmp	w11, #7
	b.ls	.Lpasetone_BB55_3
	mov	w10, wzr
	mov	x9, xzr
	mov	w11, #6
.Lpasetone_BB55_2:
	stp	xzr, x9, [x8]
	stp	w11, w10, [x8, #16]
	ret
.Lpasetone_BB55_3:
	cbz	x5, .Lpasetone_BB55_5
	ldrb	w14, [x4, x9]
	b	.Lpasetone_BB55_6
.Lpasetone_BB55_5:
	mov	w14, wzr
.Lpasetone_BB55_6:
	mov	w9, #1
	tst	w1, #0xff
	lsl	w9, w9, w0
	bic	w10, w14, w9
	orr	w9, w14, w9
	csel	w13, w10, w9, eq
	cmp	x7, #40
	b.hs	.Lpasetone_BB55_8
	mov	w11, #8
	stp	xzr, xzr, [x8]
	stp	w11, wzr, [x8, #16]
	ret
.Lpasetone_BB55_8:
	cmp	x3, #2
	mov	w11, #9
	mov	x9, xzr
	mov	w10, wzr
	cinc	w11, w11, hs
	b.lo	.Lpasetone_BB55_2
	cbz	x5, .Lpasetone_BB55_2
	add	x11, x2, x15
	mov	x9, #6
	add	x10, x6, x12
	ldrb	w15, [x11]
	movk	x9, #258, lsl #16
	movk	x9, #12289, lsl #32
	add	x16, x9, #2
	add	x17, x9, #258
	cmp	w15, #0
	csel	x12, x16, x17, eq
	csel	w14, w14, wzr, eq
	stp	x12, x14, [x10]
	cbz	w15, .Lpasetone_BB55_12
	adrp	x11, .Lpasetone_CPI55_0
	ldr	d0, [x11, :lo12:.Lpasetone_CPI55_0]
	mov	w11, #11
	str	d0, [x10, #16]
	mov	w10, #1
	stp	xzr, xzr, [x8]
	stp	w11, w10, [x8, #16]
	ret
.Lpasetone_BB55_12:
	ldrb	w11, [x11, #1]
	add	x12, x9, #256
	cmp	w11, #0
	adrp	x11, .Lpasetone_CPI55_1
	ldr	d0, [x11, :lo12:.Lpasetone_CPI55_1]
	csel	x9, x12, x9, ne
	and	x12, x13, #0xff
	mov	w11, #11
	stp	x9, x12, [x10, #16]
	cset	w9, ne
	str	d0, [x10, #32]
	csel	w11, w11, wzr, ne
	mov	w10, #2
	stp	xzr, x9, [x8]
	stp	w11, w10, [x8, #16]
	ret
.Lpasetone_func_end55:
	.size	pasetone_set_gpio_bit, .Lpasetone_func_end55-pasetone_set_gpio_bit
	.cfi_endproc

	.section	.rodata.cst8,"aM",@progbits,8
	.p2align	3, 0x0
.Lpasetone_CPI56_0:
	.word	4
	.word	64
	.section	.text.pasetone_set_gpio_output,"ax",@progbits
	.globl	pasetone_set_gpio_output
	.p2align	2
	.type	pasetone_set_gpio_output,@function
pasetone_set_gpio_output:
	.cfi_startproc
	cmp	x1, #0
	mov	w10, #4096
	and	w11, w0, #0xff
	csel	x12, x10, xzr, eq
	cmp	x3, #0
	csel	x9, x10, xzr, eq
	cmp	x5, #0
	csel	x10, x10, xzr, eq
	cmp	w11, #7
	b.ls	.Lpasetone_BB56_2
	mov	w11, wzr
	mov	w10, #6
	stp	xzr, xzr, [x8]
	stp	w10, w11, [x8, #16]
	ret
.Lpasetone_BB56_2:
	cbz	x4, .Lpasetone_BB56_5
	add	x9, x3, x9
	cmp	x4, #1
	ldrb	w11, [x9]
	b.ne	.Lpasetone_BB56_7
	mov	w9, wzr
	cmp	x6, #72
	b.lo	.Lpasetone_BB56_6
	b	.Lpasetone_BB56_8
.Lpasetone_BB56_5:
	mov	w11, wzr
	mov	w9, wzr
	cmp	x6, #72
	b.hs	.Lpasetone_BB56_8
.Lpasetone_BB56_6:
	mov	w11, wzr
	mov	w10, #8
	stp	xzr, xzr, [x8]
	stp	w10, w11, [x8, #16]
	ret
.Lpasetone_BB56_7:
	ldrb	w9, [x9, #1]
	cmp	x6, #72
	b.lo	.Lpasetone_BB56_6
.Lpasetone_BB56_8:
	cmp	x2, #4
	b.hs	.Lpasetone_BB56_10
	mov	w11, wzr
	mov	w10, #9
	stp	xzr, xzr, [x8]
	stp	w10, w11, [x8, #16]
	ret
.Lpasetone_BB56_10:
	cmp	x4, #2
	b.hs	.Lpasetone_BB56_12
	mov	w11, wzr
	mov	w10, #10
	stp	xzr, xzr, [x8]
	stp	w10, w11, [x8, #16]
	ret
.Lpasetone_BB56_12:
	add	x12, x1, x12
	mov	x14, #6
	add	x10, x5, x10
	ldrb	w13, [x12]
	movk	x14, #258, lsl #16
	movk	x14, #12291, lsl #32
	add	x15, x14, #2
	add	x16, x14, #258
	cmp	w13, #0
	csel	x15, x15, x16, eq
	csel	w16, w11, wzr, eq
	stp	x15, x16, [x10]
	cbz	w13, .Lpasetone_BB56_14
	mov	x9, xzr
	mov	w11, #1
	b	.Lpasetone_BB56_18
.Lpasetone_BB56_14:
	mov	w13, #1
	ldrb	w15, [x12, #1]
	add	x16, x14, #256
	lsl	w13, w13, w0
	cmp	w15, #0
	orr	w11, w11, w13
	csel	x14, x14, x16, eq
	and	x11, x11, #0xff
	stp	x14, x11, [x10, #16]
	cbz	w15, .Lpasetone_BB56_16
	mov	w9, #1
	mov	w11, #2
	b	.Lpasetone_BB56_18
.Lpasetone_BB56_16:
	mov	x11, #6
	ldrb	w14, [x12, #2]
	movk	x11, #258, lsl #16
	movk	x11, #12292, lsl #32
	cmp	w14, #0
	add	x15, x11, #2
	add	x16, x11, #258
	csel	x15, x15, x16, eq
	csel	w16, w9, wzr, eq
	stp	x15, x16, [x10, #32]
	cbz	w14, .Lpasetone_BB56_19
	mov	w9, #2
	mov	w11, #3
.Lpasetone_BB56_18:
	lsl	x12, x11, #4
	add	x10, x10, x12
	stp	w11, w12, [x10]
	mov	w10, #11
	stp	xzr, x9, [x8]
	stp	w10, w11, [x8, #16]
	ret
.Lpasetone_BB56_19:
	ldrb	w12, [x12, #3]
	adrp	x14, .Lpasetone_CPI56_0
	bic	w9, w9, w13
	ldr	d0, [x14, :lo12:.Lpasetone_CPI56_0]
	add	x14, x11, #256
	cmp	w12, #0
	mov	w12, #11
	csel	x11, x11, x14, eq
	str	d0, [x10, #64]
	stp	x11, x9, [x10, #48]
	mov	w11, #3
	csel	w10, wzr, w12, eq
	csel	x9, xzr, x11, eq
	mov	w11, #4
	stp	xzr, x9, [x8]
	stp	w10, w11, [x8, #16]
	ret
.Lpasetone_func_end56:
	.size	pasetone_set_gpio_output, .Lpasetone_func_end56-pasetone_set_gpio_output
	.cfi_endproc

	.section	.text.pasetone_set_if_freq,"ax",@progbits
	.globl	pasetone_set_if_freq
	.p2align	2
	.type	pasetone_set_if_freq,@function
pasetone_set_if_freq:
	.cfi_startproc
	str	d8, [sp, #-112]!
	.cfi_def_cfa_offset 112
	stp	x29, x30, [sp, #16]
	stp	x28, x27, [sp, #32]
	stp	x26, x25, [sp, #48]
	stp	x24, x23, [sp, #64]
	stp	x22, x21, [sp, #80]
	stp	x20, x19, [sp, #96]
	add	x29, sp, #16
	.cfi_def_cfa w29, 96
	.cfi_offset w19, -8
	.cfi_offset w20, -16
	.cfi_offset w21, -24
	.cfi_offset w22, -32
	.cfi_offset w23, -40
	.cfi_offset w24, -48
	.cfi_offset w25, -56
	.cfi_offset w26, -64
	.cfi_offset w27, -72
	.cfi_offset w28, -80
	.cfi_offset w30, -88
	.cfi_offset w29, -96
	.cfi_offset b8, -112
	.cfi_remember_state
	sub	sp, sp, #512
	mov	x19, x8
	cmp	x0, #0
	mov	w8, #4096
	csel	x10, x8, xzr, eq
	cmp	x3, #0
	mov	x9, x0
	csel	x28, x8, xzr, eq
	cmp	x5, #0
	mov	x27, x2
	csel	x21, x8, xzr, eq
	cmp	x7, #0
	mov	x2, x1
	csel	x8, x8, xzr, eq
	add	x0, sp, #16
	add	x1, x9, x10
	mov	x20, x7
	mov	x24, x6
	mov	x23, x5
	mov	x22, x3
	mov	x25, x4
	stur	x8, [x29, #-8]
	add	x26, sp, #16
	bl	"records::decode_tuner"
	ldrb	w8, [sp, #16]
	cmp	w8, #1
	b.ne	.Lpasetone_BB57_6
	ldr	x8, [x29, #96]
	cmp	x8, #78
	b.lo	.Lpasetone_BB57_7
	mov	w8, #26591
	movi	v0.2d, #0000000000000000
	movk	w8, #53, lsl #16
	str	x27, [sp, #8]
	mov	w10, #-128
	cmp	x27, x8
	mov	w8, #16
	mov	w9, #10
	csel	w8, w8, wzr, hi
	strb	w9, [sp, #248]
	mov	w9, #107
	strb	w8, [sp, #249]
	mov	w8, #2928
	ldrb	w18, [sp, #24]
	ldp	w14, w16, [sp, #80]
	strh	w8, [sp, #250]
	mov	w8, #239
	ldrb	w11, [sp, #25]
	ldrb	w15, [sp, #88]
	ldr	s8, [sp, #92]
	ldr	x13, [sp, #96]
	ldrb	w17, [sp, #104]
	add	x27, sp, #144
	csel	w9, w9, w10, hi
	strb	w8, [sp, #253]
	mov	w8, #1
	stp	xzr, xzr, [sp, #144]
	stur	wzr, [x27, #23]
	str	xzr, [sp, #160]
	stp	xzr, xzr, [sp, #120]
	str	xzr, [sp, #112]
	stur	wzr, [sp, #135]
	stp	xzr, xzr, [sp, #216]
	str	xzr, [sp, #208]
	stur	wzr, [x27, #87]
	stp	xzr, xzr, [sp, #184]
	str	xzr, [sp, #176]
	stur	wzr, [x27, #55]
	strb	w9, [sp, #252]
	stur	xzr, [x29, #-128]
	stp	q0, q0, [x29, #-192]
	stp	q0, q0, [x29, #-160]
	stur	q0, [x29, #-208]
	cbz	w14, .Lpasetone_BB57_10
	cbz	w16, .Lpasetone_BB57_10
	cmp	x24, #72
	b.hs	.Lpasetone_BB57_8
	mov	w8, #8
	b	.Lpasetone_BB57_10
.Lpasetone_BB57_6:
	mov	x11, xzr
	mov	x10, xzr
	mov	w9, wzr
	mov	w8, #1
	b	.Lpasetone_BB57_19
.Lpasetone_BB57_7:
	mov	x11, xzr
	mov	x10, xzr
	mov	w9, wzr
	mov	w8, #8
	b	.Lpasetone_BB57_19
.Lpasetone_BB57_8:
	cmp	x25, #3
	b.hi	.Lpasetone_BB57_20
	mov	w8, #9
.Lpasetone_BB57_10:
	ldur	q0, [x26, #10]
	ldur	q1, [x26, #21]
	mov	x10, xzr
	ldur	q2, [x26, #37]
	mov	x9, xzr
	mov	w12, #1
	stur	q0, [x29, #-240]
	ldur	q0, [x26, #48]
	stur	q1, [x27, #155]
	str	q2, [sp, #256]
	stur	q0, [x27, #123]
	str	x13, [sp, #8]
.Lpasetone_BB57_11:
	ldur	q0, [x27, #155]
	ldur	q1, [x29, #-240]
	stur	q0, [x27, #75]
	ldr	q0, [sp, #256]
	str	q1, [sp, #208]
	ldur	q1, [x27, #123]
	str	q0, [sp, #176]
	ldur	q0, [x27, #75]
	stur	q1, [x27, #43]
	ldr	q1, [sp, #208]
	stur	q0, [x27, #11]
	ldur	q0, [x27, #43]
	str	q1, [sp, #144]
	ldr	q1, [sp, #176]
	stur	q0, [sp, #123]
	str	q1, [sp, #112]
	cbz	w12, .Lpasetone_BB57_16
	cbnz	x9, .Lpasetone_BB57_16
	cbz	w12, .Lpasetone_BB57_17
.Lpasetone_BB57_14:
	cmp	w12, #2
	b.ne	.Lpasetone_BB57_18
	mov	x11, xzr
	mov	w8, #11
	b	.Lpasetone_BB57_19
.Lpasetone_BB57_16:
	ldur	x13, [x29, #-8]
	ldr	q0, [sp, #144]
	and	w15, w15, #0x1
	ldur	q1, [x27, #11]
	add	x13, x20, x13
	stur	q0, [x13, #2]
	fmov	s0, s8
	strb	w11, [x13, #1]
	fmov	w11, s8
	stur	w14, [x13, #29]
	mov	w14, #2143289344
	stur	q1, [x13, #13]
	ldur	q1, [sp, #123]
	fcmp	s0, s0
	strb	w18, [x13]
	ldr	q0, [sp, #112]
	stur	w16, [x13, #33]
	strb	w15, [x13, #37]
	csel	w11, w14, w11, vs
	ldr	x14, [sp, #8]
	stur	q0, [x13, #51]
	stur	w11, [x13, #38]
	and	w11, w17, #0x1
	stur	x14, [x13, #42]
	strb	w11, [x13, #50]
	stur	q1, [x13, #62]
	cbnz	w12, .Lpasetone_BB57_14
.Lpasetone_BB57_17:
	mov	w8, w12
	mov	x11, x10
	mov	x10, x8
	mov	w8, w12
	b	.Lpasetone_BB57_19
.Lpasetone_BB57_18:
	mov	x11, xzr
	mov	x10, xzr
.Lpasetone_BB57_19:
	stp	x11, x10, [x19]
	stp	w8, w9, [x19, #16]
	add	sp, sp, #512
	.cfi_def_cfa wsp, 112
	ldp	x20, x19, [sp, #96]
	ldp	x22, x21, [sp, #80]
	ldp	x24, x23, [sp, #64]
	ldp	x26, x25, [sp, #48]
	ldp	x28, x27, [sp, #32]
	ldp	x29, x30, [sp, #16]
	ldr	d8, [sp], #112
	.cfi_def_cfa_offset 0
	.cfi_restore w19
	.cfi_restore w20
	.cfi_restore w21
	.cfi_restore w22
	.cfi_restore w23
	.cfi_restore w24
	.cfi_restore w25
	.cfi_restore w26
	.cfi_restore w27
	.cfi_restore w28
	.cfi_restore w30
	.cfi_restore w29
	.cfi_restore b8
	ret
.Lpasetone_BB57_20:
	.cfi_restore_state
	ldur	q0, [x26, #10]
	movi	v3.2d, #0000000000000000
	sub	x8, x29, #120
	ldur	q1, [x26, #21]
	ldur	q2, [x26, #37]
	add	x23, x23, x21
	stur	q0, [x8, #1]
	ldur	q0, [x26, #48]
	sub	x0, x29, #208
	sub	x1, x29, #120
	add	x2, sp, #248
	add	x4, x22, x28
	mov	w3, #2
	mov	x5, x23
	sturb	w11, [x29, #-120]
	stur	q1, [x8, #12]
	mov	w21, #2
	mov	w22, w16
	stur	q2, [x8, #28]
	mov	w24, w14
	mov	w25, w17
	stur	q0, [x8, #39]
	mov	w26, w15
	mov	w28, w18
	stur	q3, [x8, #55]
	stur	q3, [x8, #71]
	sturb	wzr, [x29, #-33]
	bl	"chip::with_repeater"
	ldur	x9, [x29, #-152]
	ldur	q0, [x27, #177]
	mov	w18, w28
	ldurb	w11, [x29, #-144]
	ldur	x13, [x29, #-136]
	mov	w15, w26
	stur	q0, [x29, #-240]
	ldur	q0, [x27, #204]
	lsl	x10, x9, #4
	ldur	q1, [x27, #188]
	cmp	w11, #0
	ldurb	w11, [x29, #-208]
	str	q0, [sp, #256]
	add	x12, x23, x10
	ldur	q0, [x27, #215]
	mov	w17, w25
	mov	w14, w24
	mov	w16, w22
	mov	w8, wzr
	stp	w9, w10, [x12]
	csel	w12, wzr, w21, eq
	csel	x10, xzr, x13, eq
	stur	q1, [x27, #155]
	stur	q0, [x27, #123]
	b	.Lpasetone_BB57_11
.Lpasetone_func_end57:
	.size	pasetone_set_if_freq, .Lpasetone_func_end57-pasetone_set_if_freq
	.cfi_endproc

	.section	.rodata.cst8,"aM",@progbits,8
	.p2align	3, 0x0
.Lpasetone_CPI58_0:
	.word	3
	.word	48
	.section	.text.pasetone_set_if_freq_xtal,"ax",@progbits
	.globl	pasetone_set_if_freq_xtal
	.p2align	2
	.type	pasetone_set_if_freq_xtal,@function
pasetone_set_if_freq_xtal:
	.cfi_startproc
	cmp	x2, #0
	mov	w10, #4096
	csel	x9, x10, xzr, eq
	cmp	x4, #0
	csel	x11, x10, xzr, eq
	cbz	w1, .Lpasetone_BB58_3
	cmp	x5, #56
	b.hs	.Lpasetone_BB58_4
	mov	w10, wzr
	mov	w11, #8
	stp	xzr, xzr, [x8]
	stp	w11, w10, [x8, #16]
	ret
.Lpasetone_BB58_3:
	mov	w10, wzr
	mov	w11, #4
	stp	xzr, xzr, [x8]
	stp	w11, w10, [x8, #16]
	ret
.Lpasetone_BB58_4:
	cmp	x3, #3
	b.hs	.Lpasetone_BB58_6
	mov	w10, wzr
	mov	w11, #9
	stp	xzr, xzr, [x8]
	stp	w11, w10, [x8, #16]
	ret
.Lpasetone_BB58_6:
	ubfiz	x10, x0, #22, #32
	mov	w12, w1
	mov	x14, #4
	movk	x14, #257, lsl #16
	add	x11, x4, x11
	udiv	x12, x10, x12
	add	x10, x2, x9
	movk	x14, #25, lsl #32
	ldrb	w13, [x10]
	cmp	w13, #0
	neg	w9, w12
	orr	x12, x14, #0x100
	ubfx	w15, w9, #16, #6
	csel	x12, x14, x12, eq
	stp	x12, x15, [x11]
	cbz	w13, .Lpasetone_BB58_8
	mov	x9, xzr
	mov	w10, #1
	b	.Lpasetone_BB58_10
.Lpasetone_BB58_8:
	mov	x13, #4
	ldrb	w12, [x10, #1]
	ubfx	w15, w9, #8, #8
	movk	x13, #257, lsl #16
	movk	x13, #26, lsl #32
	cmp	w12, #0
	orr	x14, x13, #0x100
	csel	x13, x13, x14, eq
	stp	x13, x15, [x11, #16]
	cbz	w12, .Lpasetone_BB58_11
	mov	w9, #1
	mov	w10, #2
.Lpasetone_BB58_10:
	lsl	x12, x10, #4
	add	x11, x11, x12
	stp	w10, w12, [x11]
	mov	w11, #11
	stp	xzr, x9, [x8]
	stp	w11, w10, [x8, #16]
	ret
.Lpasetone_BB58_11:
	mov	x13, #4
	ldrb	w10, [x10, #2]
	adrp	x12, .Lpasetone_CPI58_0
	movk	x13, #257, lsl #16
	ldr	d0, [x12, :lo12:.Lpasetone_CPI58_0]
	and	w9, w9, #0xff
	movk	x13, #27, lsl #32
	cmp	w10, #0
	orr	x12, x13, #0x100
	str	d0, [x11, #48]
	csel	x10, x13, x12, eq
	mov	w12, #11
	stp	x10, x9, [x11, #32]
	mov	w10, #2
	csel	w11, wzr, w12, eq
	csel	x9, xzr, x10, eq
	mov	w10, #3
	stp	xzr, x9, [x8]
	stp	w11, w10, [x8, #16]
	ret
.Lpasetone_func_end58:
	.size	pasetone_set_if_freq_xtal, .Lpasetone_func_end58-pasetone_set_if_freq_xtal
	.cfi_endproc

	.section	.rodata.cst16,"aM",@progbits,16
	.p2align	4, 0x0
.Lpasetone_CPI59_0:
	.word	328966
	.word	2113544
	.word	6316040
	.word	394757
	.section	.text.pasetone_set_input_path,"ax",@progbits
	.globl	pasetone_set_input_path
	.p2align	2
	.type	pasetone_set_input_path,@function
pasetone_set_input_path:
	.cfi_startproc
	sub	sp, sp, #480
	.cfi_def_cfa_offset 480
	str	d8, [sp, #368]
	stp	x29, x30, [sp, #384]
	stp	x28, x27, [sp, #400]
	stp	x26, x25, [sp, #416]
	stp	x24, x23, [sp, #432]
	stp	x22, x21, [sp, #448]
	stp	x20, x19, [sp, #464]
	add	x29, sp, #384
	.cfi_def_cfa w29, 96
	.cfi_offset w19, -8
	.cfi_offset w20, -16
	.cfi_offset w21, -24
	.cfi_offset w22, -32
	.cfi_offset w23, -40
	.cfi_offset w24, -48
	.cfi_offset w25, -56
	.cfi_offset w26, -64
	.cfi_offset w27, -72
	.cfi_offset w28, -80
	.cfi_offset w30, -88
	.cfi_offset w29, -96
	.cfi_offset b8, -112
	.cfi_remember_state
	mov	x19, x8
	cmp	x0, #0
	mov	w8, #4096
	csel	x10, x8, xzr, eq
	cmp	x3, #0
	mov	x9, x0
	csel	x28, x8, xzr, eq
	cmp	x5, #0
	mov	x25, x2
	csel	x26, x8, xzr, eq
	cmp	x7, #0
	mov	x2, x1
	csel	x8, x8, xzr, eq
	add	x0, sp, #8
	add	x1, x9, x10
	mov	x20, x7
	mov	x23, x6
	mov	x22, x5
	mov	x21, x3
	mov	x24, x4
	stur	x8, [x29, #-8]
	add	x27, sp, #8
	bl	"records::decode_tuner"
	ldrb	w8, [sp, #8]
	cmp	w8, #1
	b.ne	.Lpasetone_BB59_3
	ldr	x8, [x29, #96]
	cmp	x8, #78
	mov	w8, #8
	csel	w8, w8, wzr, lo
	cmp	x25, #2
	csinc	w10, w8, wzr, ls
	cbz	w10, .Lpasetone_BB59_5
	mov	x9, xzr
	mov	x11, xzr
	mov	w8, wzr
	b	.Lpasetone_BB59_4
.Lpasetone_BB59_3:
	mov	x9, xzr
	mov	x11, xzr
	mov	w8, wzr
	mov	w10, #1
.Lpasetone_BB59_4:
	stp	x9, x11, [x19]
	stp	w10, w8, [x19, #16]
	.cfi_def_cfa wsp, 480
	ldp	x20, x19, [sp, #464]
	ldr	d8, [sp, #368]
	ldp	x22, x21, [sp, #448]
	ldp	x24, x23, [sp, #432]
	ldp	x26, x25, [sp, #416]
	ldp	x28, x27, [sp, #400]
	ldp	x29, x30, [sp, #384]
	add	sp, sp, #480
	.cfi_def_cfa_offset 0
	.cfi_restore w19
	.cfi_restore w20
	.cfi_restore w21
	.cfi_restore w22
	.cfi_restore w23
	.cfi_restore w24
	.cfi_restore w25
	.cfi_restore w26
	.cfi_restore w27
	.cfi_restore w28
	.cfi_restore w30
	.cfi_restore w29
	.cfi_restore b8
	ret
.Lpasetone_BB59_5:
	.cfi_restore_state
	ldp	w15, w17, [sp, #72]
	ldrb	w14, [sp, #16]
	ldrb	w9, [sp, #17]
	and	w8, w25, #0xff
	ldrb	w0, [sp, #80]
	ldr	s8, [sp, #84]
	cmp	w8, #2
	ldr	x16, [sp, #88]
	ldrb	w18, [sp, #96]
	add	x1, sp, #144
	b.hi	.Lpasetone_BB59_11
	cbz	w14, .Lpasetone_BB59_12
	fmov	s0, w25
	movi	v1.2d, #0x0000ff000000ff
	adrp	x8, .Lpasetone_CPI59_0
	mov	w10, #2144
	strb	wzr, [sp, #108]
	movk	w10, #8, lsl #16
	str	xzr, [sp, #256]
	shl	v0.4h, v0.4h, #3
	dup	v0.4h, v0.h[0]
	ushll	v0.4s, v0.4h, #0
	and	v0.16b, v0.16b, v1.16b
	ldr	q1, [x8, :lo12:.Lpasetone_CPI59_0]
	ubfiz	w8, w25, #3, #2
	lsr	w8, w10, w8
	mov	w10, #1
	neg	v0.4s, v0.4s
	strb	w8, [sp, #109]
	ushl	v0.4s, v1.4s, v0.4s
	movi	v1.2d, #0000000000000000
	xtn	v0.4h, v0.4s
	stp	q1, q1, [x1, #48]
	stp	q1, q1, [x1, #80]
	str	q1, [x1, #32]
	uzp1	v0.8b, v0.8b, v0.8b
	str	s0, [sp, #104]
	cbz	w15, .Lpasetone_BB59_15
	cbz	w17, .Lpasetone_BB59_15
	cmp	x23, #72
	b.hs	.Lpasetone_BB59_13
	mov	w10, #8
	b	.Lpasetone_BB59_15
.Lpasetone_BB59_11:
	ldur	q0, [x27, #10]
	ldur	q1, [x27, #21]
	mov	x11, xzr
	ldur	q2, [x27, #37]
	mov	x8, xzr
	mov	w12, #1
	str	q0, [x1]
	ldur	q0, [x27, #48]
	mov	w10, #1
	stur	q1, [x1, #11]
	str	q2, [sp, #112]
	stur	q0, [sp, #123]
	cbnz	w12, .Lpasetone_BB59_16
	b	.Lpasetone_BB59_17
.Lpasetone_BB59_12:
	ldur	q0, [x27, #10]
	cmp	w15, #0
	ldur	q1, [x27, #21]
	ldur	q2, [x27, #37]
	ccmp	w17, #0, #4, ne
	mov	x11, xzr
	str	q0, [x1]
	ldur	q0, [x27, #48]
	cset	w12, eq
	mov	x8, xzr
	stur	q1, [x1, #11]
	mov	w10, w12
	str	q2, [sp, #112]
	stur	q0, [sp, #123]
	cbnz	w12, .Lpasetone_BB59_16
	b	.Lpasetone_BB59_17
.Lpasetone_BB59_13:
	cmp	x24, #3
	b.hi	.Lpasetone_BB59_23
	mov	w10, #9
.Lpasetone_BB59_15:
	ldur	q0, [x27, #10]
	ldur	q1, [x27, #21]
	mov	x11, xzr
	ldur	q2, [x27, #37]
	mov	x8, xzr
	mov	w12, #1
	str	q0, [x1]
	ldur	q0, [x27, #48]
	stur	q1, [x1, #11]
	str	q2, [sp, #112]
	stur	q0, [sp, #123]
	cbz	w12, .Lpasetone_BB59_17
.Lpasetone_BB59_16:
	cbz	x8, .Lpasetone_BB59_18
.Lpasetone_BB59_17:
	ldur	x13, [x29, #-8]
	ldr	q0, [x1]
	ldur	q1, [x1, #11]
	add	x13, x20, x13
	stur	q0, [x13, #2]
	fmov	s0, s8
	strb	w9, [x13, #1]
	fmov	w9, s8
	strb	w14, [x13]
	mov	w14, #2143289344
	stur	q1, [x13, #13]
	ldur	q1, [sp, #123]
	fcmp	s0, s0
	stur	w15, [x13, #29]
	and	w15, w0, #0x1
	ldr	q0, [sp, #112]
	stur	w17, [x13, #33]
	strb	w15, [x13, #37]
	csel	w9, w14, w9, vs
	stur	x16, [x13, #42]
	stur	w9, [x13, #38]
	and	w9, w18, #0x1
	strb	w9, [x13, #50]
	stur	q0, [x13, #51]
	stur	q1, [x13, #62]
.Lpasetone_BB59_18:
	cbz	w12, .Lpasetone_BB59_21
	cmp	w12, #2
	b.ne	.Lpasetone_BB59_22
	mov	x9, xzr
	mov	w10, #11
	b	.Lpasetone_BB59_4
.Lpasetone_BB59_21:
	mov	w10, w12
	mov	x9, x11
	mov	x11, x10
	mov	w10, w12
	b	.Lpasetone_BB59_4
.Lpasetone_BB59_22:
	mov	x9, xzr
	mov	x11, xzr
	b	.Lpasetone_BB59_4
.Lpasetone_BB59_23:
	ldur	q0, [x27, #10]
	movi	v3.2d, #0000000000000000
	ldur	q1, [x27, #21]
	ldur	q2, [x27, #37]
	add	x5, x22, x26
	mov	w22, w0
	stur	q0, [x1, #121]
	ldur	q0, [x27, #48]
	add	x0, sp, #176
	stur	q1, [x1, #132]
	add	x2, sp, #104
	add	x4, x21, x28
	stur	q2, [x1, #148]
	mov	w3, #2
	mov	x28, x5
	stur	q0, [x1, #159]
	mov	w21, #2
	mov	x23, x16
	stur	q3, [x1, #175]
	mov	w24, w14
	mov	w25, w17
	stur	q3, [x1, #191]
	sub	x1, x29, #120
	mov	w26, w18
	sturb	w9, [x29, #-120]
	mov	w27, w15
	sturb	wzr, [x29, #-33]
	bl	"chip::with_repeater"
	add	x1, sp, #144
	ldr	x8, [sp, #232]
	ldrb	w11, [sp, #240]
	ldur	q0, [x1, #33]
	ldr	x13, [sp, #248]
	mov	w0, w22
	lsl	x9, x8, #4
	ldur	q1, [x1, #44]
	cmp	w11, #0
	str	q0, [x1]
	ldur	q0, [x1, #60]
	mov	w15, w27
	add	x12, x28, x9
	mov	w18, w26
	mov	w17, w25
	str	q0, [sp, #112]
	ldur	q0, [x1, #71]
	mov	w14, w24
	stp	w8, w9, [x12]
	ldrb	w9, [sp, #176]
	mov	x16, x23
	mov	w10, wzr
	csel	w12, wzr, w21, eq
	csel	x11, xzr, x13, eq
	stur	q1, [x1, #11]
	stur	q0, [sp, #123]
	cbnz	w12, .Lpasetone_BB59_16
	b	.Lpasetone_BB59_17
.Lpasetone_func_end59:
	.size	pasetone_set_input_path, .Lpasetone_func_end59-pasetone_set_input_path
	.cfi_endproc

	.section	.text.pasetone_set_ppm,"ax",@progbits
	.globl	pasetone_set_ppm
	.p2align	2
	.type	pasetone_set_ppm,@function
pasetone_set_ppm:
	.cfi_startproc
	sub	sp, sp, #64
	.cfi_def_cfa_offset 64
	stp	x29, x30, [sp, #32]
	str	x19, [sp, #48]
	add	x29, sp, #32
	.cfi_def_cfa w29, 32
	.cfi_offset w19, -16
	.cfi_offset w30, -24
	.cfi_offset w29, -32
	mov	x19, x8
	cmp	x0, #0
	mov	w8, #4096
	csel	x11, x8, xzr, eq
	cmp	x2, #0
	mov	x9, x0
	mov	x10, x1
	csel	x8, x8, xzr, eq
	mov	w5, w4
	mov	x4, x3
	add	x0, sp, #8
	add	x1, x9, x11
	add	x3, x2, x8
	mov	x2, x10
	bl	"drivers::set_ppm"
	ldur	q0, [sp, #8]
	ldr	x8, [sp, #24]
	str	q0, [x19]
	str	x8, [x19, #16]
	.cfi_def_cfa wsp, 64
	ldp	x29, x30, [sp, #32]
	ldr	x19, [sp, #48]
	add	sp, sp, #64
	.cfi_def_cfa_offset 0
	.cfi_restore w19
	.cfi_restore w30
	.cfi_restore w29
	ret
.Lpasetone_func_end60:
	.size	pasetone_set_ppm, .Lpasetone_func_end60-pasetone_set_ppm
	.cfi_endproc

	.section	.text.pasetone_set_sample_rate,"ax",@progbits
	.globl	pasetone_set_sample_rate
	.p2align	2
	.type	pasetone_set_sample_rate,@function
pasetone_set_sample_rate:
	.cfi_startproc
	sub	sp, sp, #144
	.cfi_def_cfa_offset 144
	stp	x29, x30, [sp, #96]
	str	x21, [sp, #112]
	stp	x20, x19, [sp, #128]
	add	x29, sp, #96
	.cfi_def_cfa w29, 48
	.cfi_offset w19, -8
	.cfi_offset w20, -16
	.cfi_offset w21, -32
	.cfi_offset w30, -40
	.cfi_offset w29, -48
	mov	x19, x8
	cmp	x0, #0
	mov	w8, #4096
	csel	x13, x8, xzr, eq
	cmp	x2, #0
	mov	x12, x0
	ldp	x14, x15, [x29, #48]
	csel	x16, x8, xzr, eq
	cmp	x4, #0
	ldp	x18, x0, [x29, #64]
	mov	w11, w6
	mov	x6, x5
	mov	x9, x3
	csel	x17, x8, xzr, eq
	cmp	x7, #0
	mov	x10, x1
	ldp	x3, x5, [x29, #80]
	csel	x1, x8, xzr, eq
	cmp	x15, #0
	add	x21, x7, x1
	ldr	x7, [x29, #96]
	csel	x20, x8, xzr, eq
	cmp	x0, #0
	stp	xzr, xzr, [x29, #-24]
	csel	x1, x8, xzr, eq
	cmp	x5, #0
	add	x15, x15, x20
	csel	x8, x8, xzr, eq
	add	x0, x0, x1
	add	x1, x12, x13
	add	x8, x5, x8
	stp	x0, x3, [sp, #32]
	sub	x0, x29, #24
	stp	x8, x7, [sp, #48]
	add	x3, x2, x16
	add	x5, x4, x17
	mov	x2, x10
	mov	x4, x9
	mov	w7, w11
	stur	xzr, [x29, #-8]
	stp	x15, x18, [sp, #16]
	stp	x21, x14, [sp]
	bl	"drivers::set_sample_rate"
	ldur	q0, [x29, #-24]
	ldur	x8, [x29, #-8]
	str	q0, [x19]
	str	x8, [x19, #16]
	.cfi_def_cfa wsp, 144
	ldp	x20, x19, [sp, #128]
	ldr	x21, [sp, #112]
	ldp	x29, x30, [sp, #96]
	add	sp, sp, #144
	.cfi_def_cfa_offset 0
	.cfi_restore w19
	.cfi_restore w20
	.cfi_restore w21
	.cfi_restore w30
	.cfi_restore w29
	ret
.Lpasetone_func_end61:
	.size	pasetone_set_sample_rate, .Lpasetone_func_end61-pasetone_set_sample_rate
	.cfi_endproc

	.section	.rodata.cst8,"aM",@progbits,8
	.p2align	3, 0x0
.Lpasetone_CPI62_0:
	.word	4
	.word	64
	.section	.text.pasetone_set_sample_rate_xtal,"ax",@progbits
	.globl	pasetone_set_sample_rate_xtal
	.p2align	2
	.type	pasetone_set_sample_rate_xtal,@function
pasetone_set_sample_rate_xtal:
	.cfi_startproc
	cmp	x2, #0
	mov	w9, #4096
	mov	w10, #4
	csel	x12, x9, xzr, eq
	cmp	x4, #0
	mov	w11, #3
	csel	x9, x9, xzr, eq
	cmp	w1, #0
	csel	w10, w10, wzr, eq
	cmp	w0, #0
	csel	w11, w11, w10, eq
	cbnz	w11, .Lpasetone_BB62_8
	cbz	w0, .Lpasetone_BB62_17
	ubfiz	x10, x1, #22, #32
	mov	w11, w0
	mov	w14, #536870908
	udiv	x10, x10, x11
	lsr	w11, w10, #27
	sub	x13, x10, #4
	cmp	x13, x14
	eor	w11, w11, w10, lsr #28
	and	x11, x11, #0x1
	ccmp	x11, #0, #0, lo
	b.eq	.Lpasetone_BB62_4
	mov	w11, #13
	mov	w12, wzr
	stp	xzr, xzr, [x8]
	stp	w11, w12, [x8, #16]
	ret
.Lpasetone_BB62_4:
	cmp	x5, #72
	b.hs	.Lpasetone_BB62_6
	mov	w11, #8
	mov	w12, wzr
	stp	xzr, xzr, [x8]
	stp	w11, w12, [x8, #16]
	ret
.Lpasetone_BB62_6:
	cmp	x3, #4
	b.hs	.Lpasetone_BB62_9
	mov	w11, #9
.Lpasetone_BB62_8:
	mov	w12, wzr
	stp	xzr, xzr, [x8]
	stp	w11, w12, [x8, #16]
	ret
.Lpasetone_BB62_9:
	add	x11, x2, x12
	lsr	x12, x10, #27
	and	x13, x10, #0xf000000
	lsr	x14, x10, #8
	ldrb	w15, [x11]
	add	x9, x4, x9
	bfi	x13, x12, #28, #1
	mov	x12, #5
	movk	x12, #513, lsl #16
	and	x14, x14, #0xff00
	cmp	w15, #0
	movk	x12, #159, lsl #32
	orr	x13, x14, x13, lsr #24
	orr	x16, x12, #0x100
	csel	x12, x12, x16, eq
	stp	x12, x13, [x9]
	cbz	w15, .Lpasetone_BB62_11
	mov	x10, xzr
	mov	w12, #1
	b	.Lpasetone_BB62_15
.Lpasetone_BB62_11:
	mov	x13, #5
	ldrb	w12, [x11, #1]
	and	w10, w10, #0xfffc
	movk	x13, #513, lsl #16
	rev16	w10, w10
	movk	x13, #161, lsl #32
	cmp	w12, #0
	orr	x14, x13, #0x100
	csel	x13, x13, x14, eq
	stp	x13, x10, [x9, #16]
	cbz	w12, .Lpasetone_BB62_13
	mov	w10, #1
	mov	w12, #2
	b	.Lpasetone_BB62_15
.Lpasetone_BB62_13:
	mov	x12, #4
	ldrb	w10, [x11, #2]
	movk	x12, #257, lsl #16
	movk	x12, #63, lsl #32
	cmp	w10, #0
	orr	x13, x12, #0x100
	csel	x12, x12, x13, eq
	stp	x12, xzr, [x9, #32]
	cbz	w10, .Lpasetone_BB62_16
	mov	w10, #2
	mov	w12, #3
.Lpasetone_BB62_15:
	lsl	x11, x12, #4
	add	x9, x9, x11
	stp	w12, w11, [x9]
	mov	w11, #11
	stp	xzr, x10, [x8]
	stp	w11, w12, [x8, #16]
	ret
.Lpasetone_BB62_16:
	mov	x12, #4
	ldrb	w10, [x11, #3]
	adrp	x11, .Lpasetone_CPI62_0
	movk	x12, #257, lsl #16
	ldr	d0, [x11, :lo12:.Lpasetone_CPI62_0]
	movk	x12, #62, lsl #32
	cmp	w10, #0
	orr	x11, x12, #0x100
	str	d0, [x9, #64]
	csel	x10, x12, x11, eq
	mov	w11, #11
	mov	w12, #4
	stp	x10, xzr, [x9, #48]
	mov	w10, #3
	csel	w11, wzr, w11, eq
	csel	x10, xzr, x10, eq
	stp	xzr, x10, [x8]
	stp	w11, w12, [x8, #16]
	ret
.Lpasetone_BB62_17:
	brk	#0x1
.Lpasetone_func_end62:
	.size	pasetone_set_sample_rate_xtal, .Lpasetone_func_end62-pasetone_set_sample_rate_xtal
	.cfi_endproc

	.section	.rodata.cst8,"aM",@progbits,8
	.p2align	3, 0x0
.Lpasetone_CPI63_0:
	.word	1
	.word	16
.Lpasetone_CPI63_1:
	.word	2
	.word	32
	.section	.text.pasetone_set_tuner_low_if,"ax",@progbits
	.globl	pasetone_set_tuner_low_if
	.p2align	2
	.type	pasetone_set_tuner_low_if,@function
pasetone_set_tuner_low_if:
	.cfi_startproc
	mov	w10, #4096
	cmp	x0, #0
	csel	x9, x10, xzr, eq
	cmp	x2, #0
	csel	x10, x10, xzr, eq
	cmp	x3, #40
	b.hs	.Lpasetone_BB63_2
	mov	w11, #8
	stp	xzr, xzr, [x8]
	stp	w11, wzr, [x8, #16]
	ret
.Lpasetone_BB63_2:
	cmp	x1, #2
	b.hs	.Lpasetone_BB63_4
	mov	w11, #9
	stp	xzr, xzr, [x8]
	stp	w11, wzr, [x8, #16]
	ret
.Lpasetone_BB63_4:
	add	x9, x0, x9
	mov	x12, #4
	add	x10, x2, x10
	ldrb	w11, [x9]
	movk	x12, #257, lsl #16
	movk	x12, #177, lsl #32
	orr	x13, x12, #0x100
	cmp	w11, #0
	csel	x12, x12, x13, eq
	mov	w13, #26
	stp	x12, x13, [x10]
	cbz	w11, .Lpasetone_BB63_6
	adrp	x11, .Lpasetone_CPI63_0
	ldr	d0, [x11, :lo12:.Lpasetone_CPI63_0]
	mov	w11, #11
	str	d0, [x10, #16]
	mov	w10, #1
	stp	xzr, xzr, [x8]
	stp	w11, w10, [x8, #16]
	ret
.Lpasetone_BB63_6:
	mov	x11, #4
	ldrb	w9, [x9, #1]
	movk	x11, #256, lsl #16
	movk	x11, #8, lsl #32
	cmp	w9, #0
	adrp	x9, .Lpasetone_CPI63_1
	orr	x12, x11, #0x100
	ldr	d0, [x9, :lo12:.Lpasetone_CPI63_1]
	cset	w9, ne
	csel	x11, x12, x11, ne
	mov	w12, #77
	stp	x11, x12, [x10, #16]
	mov	w11, #11
	str	d0, [x10, #32]
	csel	w11, w11, wzr, ne
	mov	w10, #2
	stp	xzr, x9, [x8]
	stp	w11, w10, [x8, #16]
	ret
.Lpasetone_func_end63:
	.size	pasetone_set_tuner_low_if, .Lpasetone_func_end63-pasetone_set_tuner_low_if
	.cfi_endproc

	.section	.rodata.cst8,"aM",@progbits,8
	.p2align	3, 0x0
.Lpasetone_CPI64_0:
	.word	1
	.word	16
.Lpasetone_CPI64_1:
	.word	2
	.word	32
	.section	.text.pasetone_set_tuner_zero_if,"ax",@progbits
	.globl	pasetone_set_tuner_zero_if
	.p2align	2
	.type	pasetone_set_tuner_zero_if,@function
pasetone_set_tuner_zero_if:
	.cfi_startproc
	mov	w10, #4096
	cmp	x0, #0
	csel	x9, x10, xzr, eq
	cmp	x2, #0
	csel	x10, x10, xzr, eq
	cmp	x3, #40
	b.hs	.Lpasetone_BB64_2
	mov	w11, #8
	stp	xzr, xzr, [x8]
	stp	w11, wzr, [x8, #16]
	ret
.Lpasetone_BB64_2:
	cmp	x1, #2
	b.hs	.Lpasetone_BB64_4
	mov	w11, #9
	stp	xzr, xzr, [x8]
	stp	w11, wzr, [x8, #16]
	ret
.Lpasetone_BB64_4:
	add	x9, x0, x9
	mov	x12, #4
	add	x10, x2, x10
	ldrb	w11, [x9]
	movk	x12, #257, lsl #16
	movk	x12, #177, lsl #32
	orr	x13, x12, #0x100
	cmp	w11, #0
	csel	x12, x12, x13, eq
	mov	w13, #27
	stp	x12, x13, [x10]
	cbz	w11, .Lpasetone_BB64_6
	adrp	x11, .Lpasetone_CPI64_0
	ldr	d0, [x11, :lo12:.Lpasetone_CPI64_0]
	mov	w11, #11
	str	d0, [x10, #16]
	mov	w10, #1
	stp	xzr, xzr, [x8]
	stp	w11, w10, [x8, #16]
	ret
.Lpasetone_BB64_6:
	mov	x11, #4
	ldrb	w9, [x9, #1]
	movk	x11, #256, lsl #16
	movk	x11, #8, lsl #32
	cmp	w9, #0
	adrp	x9, .Lpasetone_CPI64_1
	orr	x12, x11, #0x100
	ldr	d0, [x9, :lo12:.Lpasetone_CPI64_1]
	cset	w9, ne
	csel	x11, x12, x11, ne
	mov	w12, #76
	stp	x11, x12, [x10, #16]
	mov	w11, #11
	str	d0, [x10, #32]
	csel	w11, w11, wzr, ne
	mov	w10, #2
	stp	xzr, x9, [x8]
	stp	w11, w10, [x8, #16]
	ret
.Lpasetone_func_end64:
	.size	pasetone_set_tuner_zero_if, .Lpasetone_func_end64-pasetone_set_tuner_zero_if
	.cfi_endproc

	.section	.rodata.cst8,"aM",@progbits,8
	.p2align	3, 0x0
.Lpasetone_CPI65_0:
	.word	1
	.word	16
.Lpasetone_CPI65_1:
	.word	2
	.word	32
	.section	.text.pasetone_start_streaming,"ax",@progbits
	.globl	pasetone_start_streaming
	.p2align	2
	.type	pasetone_start_streaming,@function
pasetone_start_streaming:
	.cfi_startproc
	mov	w10, #4096
	cmp	x0, #0
	csel	x9, x10, xzr, eq
	cmp	x2, #0
	csel	x10, x10, xzr, eq
	cmp	x3, #40
	b.hs	.Lpasetone_BB65_2
	mov	w11, #8
	stp	xzr, xzr, [x8]
	stp	w11, wzr, [x8, #16]
	ret
.Lpasetone_BB65_2:
	cmp	x1, #2
	b.hs	.Lpasetone_BB65_4
	mov	w11, #9
	stp	xzr, xzr, [x8]
	stp	w11, wzr, [x8, #16]
	ret
.Lpasetone_BB65_4:
	add	x11, x0, x9
	mov	x9, #7
	add	x10, x2, x10
	ldrb	w12, [x11]
	movk	x9, #513, lsl #16
	mov	w14, #528
	movk	x9, #8520, lsl #32
	orr	x13, x9, #0x100
	cmp	w12, #0
	csel	x13, x9, x13, eq
	stp	x13, x14, [x10]
	cbz	w12, .Lpasetone_BB65_6
	adrp	x11, .Lpasetone_CPI65_0
	ldr	d0, [x11, :lo12:.Lpasetone_CPI65_0]
	mov	w11, #11
	str	d0, [x10, #16]
	mov	w10, #1
	stp	xzr, xzr, [x8]
	stp	w11, w10, [x8, #16]
	ret
.Lpasetone_BB65_6:
	ldrb	w11, [x11, #1]
	add	x12, x9, #256
	cmp	w11, #0
	adrp	x11, .Lpasetone_CPI65_1
	ldr	d0, [x11, :lo12:.Lpasetone_CPI65_1]
	csel	x9, x12, x9, ne
	mov	w11, #11
	stp	x9, xzr, [x10, #16]
	cset	w9, ne
	csel	w11, w11, wzr, ne
	str	d0, [x10, #32]
	mov	w10, #2
	stp	xzr, x9, [x8]
	stp	w11, w10, [x8, #16]
	ret
.Lpasetone_func_end65:
	.size	pasetone_start_streaming, .Lpasetone_func_end65-pasetone_start_streaming
	.cfi_endproc

	.section	.rodata.cst8,"aM",@progbits,8
	.p2align	3, 0x0
.Lpasetone_CPI66_0:
	.word	1
	.word	16
.Lpasetone_CPI66_1:
	.word	2
	.word	32
	.section	.text.pasetone_stop_streaming,"ax",@progbits
	.globl	pasetone_stop_streaming
	.p2align	2
	.type	pasetone_stop_streaming,@function
pasetone_stop_streaming:
	.cfi_startproc
	mov	w10, #4096
	cmp	x0, #0
	csel	x9, x10, xzr, eq
	cmp	x2, #0
	csel	x10, x10, xzr, eq
	cmp	x3, #40
	b.hs	.Lpasetone_BB66_2
	mov	w11, #8
	stp	xzr, xzr, [x8]
	stp	w11, wzr, [x8, #16]
	ret
.Lpasetone_BB66_2:
	cmp	x1, #2
	b.hs	.Lpasetone_BB66_4
	mov	w11, #9
	stp	xzr, xzr, [x8]
	stp	w11, wzr, [x8, #16]
	ret
.Lpasetone_BB66_4:
	add	x9, x0, x9
	mov	x12, #7
	add	x10, x2, x10
	ldrb	w11, [x9]
	movk	x12, #513, lsl #16
	movk	x12, #8520, lsl #32
	orr	x13, x12, #0x100
	cmp	w11, #0
	csel	x12, x12, x13, eq
	mov	w13, #528
	stp	x12, x13, [x10]
	cbz	w11, .Lpasetone_BB66_6
	adrp	x11, .Lpasetone_CPI66_0
	ldr	d0, [x11, :lo12:.Lpasetone_CPI66_0]
	mov	w11, #11
	str	d0, [x10, #16]
	mov	w10, #1
	stp	xzr, xzr, [x8]
	stp	w11, w10, [x8, #16]
	ret
.Lpasetone_BB66_6:
	mov	x11, #6
	ldrb	w9, [x9, #1]
	movk	x11, #258, lsl #16
	movk	x11, #12288, lsl #32
	cmp	w9, #0
	adrp	x9, .Lpasetone_CPI66_1
	orr	x12, x11, #0x100
	ldr	d0, [x9, :lo12:.Lpasetone_CPI66_1]
	cset	w9, ne
	csel	x11, x12, x11, ne
	mov	w12, #32
	stp	x11, x12, [x10, #16]
	mov	w11, #11
	str	d0, [x10, #32]
	csel	w11, w11, wzr, ne
	mov	w10, #2
	stp	xzr, x9, [x8]
	stp	w11, w10, [x8, #16]
	ret
.Lpasetone_func_end66:
	.size	pasetone_stop_streaming, .Lpasetone_func_end66-pasetone_stop_streaming
	.cfi_endproc

	.section	.text.pasetone_stream_pending,"ax",@progbits
	.globl	pasetone_stream_pending
	.p2align	2
	.type	pasetone_stream_pending,@function
pasetone_stream_pending:
	.cfi_startproc
	mov	w9, #4096
	cmp	x0, #0
	csel	x11, x9, xzr, eq
	cmp	x1, #9
	b.ne	.Lpasetone_BB67_8
	ldrb	w9, [x0, x11]
	cmp	w9, #8
	b.hi	.Lpasetone_BB67_8
	cmp	w9, #8
	b.ne	.Lpasetone_BB67_5
	mov	w10, wzr
	mov	w9, #8
.Lpasetone_BB67_4:
	stp	x9, xzr, [x8]
	stp	w10, wzr, [x8, #16]
	ret
.Lpasetone_BB67_5:
	add	x11, x11, x0
	mov	x10, xzr
	sub	x12, x9, #8
	add	x11, x11, #8
.Lpasetone_BB67_6:
	ldrb	w13, [x11], #-1
	adds	x12, x12, #1
	orr	x10, x13, x10, lsl #8
	b.lo	.Lpasetone_BB67_6
	cbz	x10, .Lpasetone_BB67_4
.Lpasetone_BB67_8:
	mov	w10, #1
	stp	xzr, xzr, [x8]
	stp	w10, wzr, [x8, #16]
	ret
.Lpasetone_func_end67:
	.size	pasetone_stream_pending, .Lpasetone_func_end67-pasetone_stream_pending
	.cfi_endproc

	.section	.text.pasetone_tune_board,"ax",@progbits
	.globl	pasetone_tune_board
	.p2align	2
	.type	pasetone_tune_board,@function
pasetone_tune_board:
	.cfi_startproc
	str	d8, [sp, #-112]!
	.cfi_def_cfa_offset 112
	stp	x29, x30, [sp, #16]
	stp	x28, x27, [sp, #32]
	stp	x26, x25, [sp, #48]
	stp	x24, x23, [sp, #64]
	stp	x22, x21, [sp, #80]
	stp	x20, x19, [sp, #96]
	add	x29, sp, #16
	.cfi_def_cfa w29, 96
	.cfi_offset w19, -8
	.cfi_offset w20, -16
	.cfi_offset w21, -24
	.cfi_offset w22, -32
	.cfi_offset w23, -40
	.cfi_offset w24, -48
	.cfi_offset w25, -56
	.cfi_offset w26, -64
	.cfi_offset w27, -72
	.cfi_offset w28, -80
	.cfi_offset w30, -88
	.cfi_offset w29, -96
	.cfi_offset b8, -112
	.cfi_remember_state
	sub	sp, sp, #816
	cmp	x0, #0
	mov	w11, #4096
	ldr	x20, [x29, #104]
	csel	x10, x11, xzr, eq
	cmp	x2, #0
	ldr	x21, [x29, #120]
	csel	x9, x11, xzr, eq
	cmp	x4, #0
	ldr	x27, [x29, #136]
	csel	x25, x11, xzr, eq
	cmp	x7, #0
	ldr	x15, [x29, #152]
	csel	x19, x11, xzr, eq
	cmp	x20, #0
	stp	xzr, xzr, [sp, #120]
	csel	x28, x11, xzr, eq
	cmp	x21, #0
	str	xzr, [sp, #136]
	csel	x24, x11, xzr, eq
	cmp	x27, #0
	csel	x17, x11, xzr, eq
	cmp	x15, #0
	csel	x16, x11, xzr, eq
	cmp	x1, #29
	b.ne	.Lpasetone_BB68_13
	add	x10, x0, x10
	mov	x12, #13531
	ldur	w18, [x10, #1]
	ldursw	x0, [x10, #5]
	movk	x12, #55222, lsl #16
	movk	x12, #56962, lsl #32
	mul	x11, x0, x18
	movk	x12, #17179, lsl #48
	smulh	x11, x11, x12
	asr	x12, x11, #18
	add	x12, x12, x11, lsr #63
	ldrb	w11, [x10]
	add	x13, x12, x18
	mov	x12, #4294967296
	cmp	x13, x12
	csel	x12, x13, x12, lo
	cmp	w11, #1
	b.hi	.Lpasetone_BB68_13
	mov	x14, #-4294967296
	mov	w12, w12
	add	x13, x13, x14
	mov	x14, #-4294967295
	cmp	x13, x14
	ccmp	x12, #0, #4, hs
	b.eq	.Lpasetone_BB68_13
	stur	x8, [x29, #-8]
	ldur	x8, [x10, #21]
	cmp	w11, #1
	stp	x0, x18, [sp, #88]
	add	x0, sp, #144
	add	x1, x2, x9
	str	x8, [sp, #56]
	ldur	w8, [x10, #17]
	mov	x2, x3
	stp	x17, x6, [sp, #104]
	mov	x26, x4
	mov	x22, x5
	str	w8, [sp, #52]
	ldur	x8, [x10, #9]
	mov	x23, x7
	stp	x16, x15, [sp, #64]
	str	x8, [sp, #80]
	cset	w8, eq
	str	w8, [sp, #48]
	bl	"records::decode_tuner"
	ldrb	w8, [sp, #144]
	cmp	w8, #1
	b.ne	.Lpasetone_BB68_12
	ldrb	w9, [sp, #207]
	ldrb	w8, [sp, #152]
	add	x0, sp, #120
	ldur	q0, [sp, #154]
	ldur	q1, [sp, #165]
	add	x1, x26, x25
	str	w9, [sp, #28]
	ldurh	w9, [sp, #205]
	mov	x2, x22
	stp	w8, w9, [sp, #20]
	ldrb	w8, [sp, #153]
	ldrb	w10, [sp, #232]
	ldur	w9, [sp, #201]
	ldr	x3, [sp, #112]
	stp	w8, w10, [sp, #12]
	add	x8, sp, #272
	ldr	s8, [sp, #220]
	str	x9, [sp, #32]
	ldr	w9, [sp, #208]
	str	q0, [x8]
	ldur	q0, [sp, #181]
	str	w9, [sp, #44]
	ldr	w9, [sp, #212]
	stur	q1, [x8, #11]
	ldur	w8, [sp, #197]
	str	w9, [sp, #40]
	ldrb	w9, [sp, #216]
	str	w9, [sp, #8]
	ldr	x9, [sp, #224]
	str	q0, [sp, #240]
	str	w8, [sp, #256]
	mov	x26, x9
	bl	"bands::plan_by_table"
	ldr	x22, [sp, #128]
	ldrb	w9, [sp, #120]
	mov	w10, #2
	neg	x8, x22
	cmp	x26, x8
	csel	w10, wzr, w10, lo
	cmp	w9, #0
	csel	w10, w10, w9, eq
	cbnz	w9, .Lpasetone_BB68_15
	cmp	x26, x8
	ldur	x8, [x29, #-8]
	b.hs	.Lpasetone_BB68_16
	ldr	x9, [x29, #144]
	mov	w10, #8
	cmp	x9, #29
	b.lo	.Lpasetone_BB68_16
	ldr	x9, [x29, #160]
	cmp	x9, #77
	b.ls	.Lpasetone_BB68_16
	ldp	w10, w9, [sp, #24]
	orr	w9, w10, w9, lsl #16
	ldr	x10, [sp, #32]
	orr	x5, x10, x9, lsl #32
	ldr	w9, [sp, #44]
	mov	w10, #1
	cbz	w9, .Lpasetone_BB68_21
	ldr	w9, [sp, #40]
	cbz	w9, .Lpasetone_BB68_21
	ldr	x9, [x29, #128]
	cmp	x9, #1032
	b.hs	.Lpasetone_BB68_17
	mov	w10, #8
	b	.Lpasetone_BB68_21
.Lpasetone_BB68_12:
	ldur	x8, [x29, #-8]
.Lpasetone_BB68_13:
	mov	x15, xzr
	mov	x12, xzr
	mov	w9, wzr
	mov	w11, wzr
	mov	w13, wzr
	mov	w10, #1
.Lpasetone_BB68_14:
	stp	x15, x12, [x8]
	stp	w10, w9, [x8, #16]
	stp	w11, w13, [x8, #24]
	add	sp, sp, #816
	.cfi_def_cfa wsp, 112
	ldp	x20, x19, [sp, #96]
	ldp	x22, x21, [sp, #80]
	ldp	x24, x23, [sp, #64]
	ldp	x26, x25, [sp, #48]
	ldp	x28, x27, [sp, #32]
	ldp	x29, x30, [sp, #16]
	ldr	d8, [sp], #112
	.cfi_def_cfa_offset 0
	.cfi_restore w19
	.cfi_restore w20
	.cfi_restore w21
	.cfi_restore w22
	.cfi_restore w23
	.cfi_restore w24
	.cfi_restore w25
	.cfi_restore w26
	.cfi_restore w27
	.cfi_restore w28
	.cfi_restore w30
	.cfi_restore w29
	.cfi_restore b8
	ret
.Lpasetone_BB68_15:
	.cfi_restore_state
	ldur	x8, [x29, #-8]
.Lpasetone_BB68_16:
	mov	x15, xzr
	mov	x12, xzr
	mov	w9, wzr
	mov	w11, wzr
	mov	w13, wzr
	b	.Lpasetone_BB68_14
.Lpasetone_BB68_17:
	ldr	x9, [x29, #96]
	cmp	x9, #64
	b.hs	.Lpasetone_BB68_19
	mov	w10, #9
	b	.Lpasetone_BB68_21
.Lpasetone_BB68_19:
	ldr	x9, [x29, #112]
	cmp	x9, #37
	b.hi	.Lpasetone_BB68_29
	mov	w10, #10
.Lpasetone_BB68_21:
	add	x19, sp, #272
	ldr	q2, [sp, #240]
	ldr	w14, [sp, #256]
	ldr	q0, [x19]
	ldur	q1, [x19, #11]
	mov	x12, xzr
	ldp	x3, x2, [sp, #96]
	mov	x9, xzr
	ldr	x4, [sp, #88]
	mov	w11, wzr
	mov	w13, wzr
	str	q0, [x19, #112]
	stur	q1, [x19, #123]
	str	q2, [x19, #80]
	str	w14, [sp, #368]
	mov	w14, #1
	cbz	w14, .Lpasetone_BB68_23
.Lpasetone_BB68_22:
	cbz	x9, .Lpasetone_BB68_24
.Lpasetone_BB68_23:
	ldr	w16, [sp, #48]
	add	x15, x27, x2
	fmov	s1, s8
	stur	w3, [x15, #1]
	ldr	q0, [x19, #112]
	mov	w18, #2143289344
	strb	w16, [x15]
	ldr	x16, [sp, #80]
	stur	w4, [x15, #5]
	stur	x16, [x15, #9]
	ldr	w16, [sp, #52]
	fcmp	s1, s1
	stur	w16, [x15, #17]
	ldp	x17, x16, [sp, #64]
	add	x16, x16, x17
	ldr	x17, [sp, #56]
	stur	x17, [x15, #21]
	ldr	w15, [sp, #20]
	ldp	w0, w17, [sp, #40]
	strb	w15, [x16]
	ldr	w15, [sp, #12]
	stur	q0, [x16, #2]
	ldur	q0, [x19, #123]
	strb	w15, [x16, #1]
	ldr	w15, [sp, #8]
	stur	w17, [x16, #29]
	fmov	w17, s8
	and	w15, w15, #0x1
	stur	q0, [x16, #13]
	ldr	q0, [x19, #80]
	strb	w15, [x16, #37]
	ldr	w15, [sp, #16]
	csel	w17, w18, w17, vs
	stur	w0, [x16, #33]
	and	w15, w15, #0x1
	stur	w17, [x16, #38]
	lsr	x17, x5, #32
	strb	w15, [x16, #50]
	ldr	w15, [sp, #368]
	stur	x26, [x16, #42]
	stur	w15, [x16, #67]
	lsr	x15, x5, #48
	stur	q0, [x16, #51]
	stur	w5, [x16, #71]
	strb	w15, [x16, #77]
	sturh	w17, [x16, #75]
.Lpasetone_BB68_24:
	cbz	w14, .Lpasetone_BB68_27
	cmp	w14, #2
	b.ne	.Lpasetone_BB68_28
	mov	x15, xzr
	mov	w10, #11
	b	.Lpasetone_BB68_14
.Lpasetone_BB68_27:
	mov	w10, w14
	mov	x15, x12
	mov	x12, x10
	mov	w10, w14
	b	.Lpasetone_BB68_14
.Lpasetone_BB68_28:
	mov	x15, xzr
	mov	x12, xzr
	b	.Lpasetone_BB68_14
.Lpasetone_BB68_29:
	ldrb	w8, [sp, #136]
	add	x28, x20, x28
	ldr	w20, [sp, #20]
	ldr	w3, [sp, #40]
	ldrb	w25, [sp, #137]
	add	x0, sp, #304
	str	w8, [sp, #24]
	ldrb	w8, [sp, #138]
	add	x2, x22, x26
	mov	w1, w20
	add	x23, x23, x19
	add	x24, x21, x24
	str	w8, [sp, #28]
	ldrb	w8, [sp, #139]
	add	x21, sp, #488
	mov	x19, x5
	str	w8, [sp, #16]
	bl	"pll::plan_pll"
	mov	x18, x19
	add	x19, sp, #272
	cmp	w25, #0
	ldr	q0, [x19]
	lsr	x8, x18, #48
	ldr	w17, [sp, #12]
	lsr	x9, x18, #32
	ldr	w10, [sp, #256]
	ccmp	w20, #0, #4, ne
	stur	q0, [sp, #145]
	ldur	q0, [x19, #11]
	strb	w8, [sp, #198]
	ldrb	w8, [sp, #304]
	stur	q0, [sp, #156]
	ldr	q0, [sp, #240]
	str	x8, [sp, #32]
	mov	w8, #3
	stur	q0, [sp, #172]
	movi	v0.2d, #0000000000000000
	csel	x3, xzr, x8, eq
	stp	xzr, xzr, [sp, #392]
	str	xzr, [sp, #384]
	stur	wzr, [x19, #135]
	stp	xzr, xzr, [sp, #352]
	str	wzr, [sp, #368]
	stp	xzr, xzr, [x29, #-216]
	stur	xzr, [x29, #-224]
	stur	wzr, [x21, #143]
	stp	xzr, xzr, [x29, #-256]
	stur	wzr, [x29, #-240]
	str	xzr, [sp, #424]
	strb	w17, [sp, #144]
	strh	w9, [sp, #196]
	stp	w10, w18, [sp, #188]
	stur	q0, [sp, #199]
	stur	q0, [sp, #215]
	strb	wzr, [sp, #231]
	stur	q0, [x21, #152]
	stur	q0, [x21, #168]
	stur	q0, [x21, #184]
	stur	q0, [x21, #200]
	stur	q0, [x21, #216]
	stur	xzr, [x29, #-112]
	cbz	w20, .Lpasetone_BB68_32
	cbz	w25, .Lpasetone_BB68_33
	mov	x20, x3
	ldr	w3, [sp, #28]
	sub	x0, x29, #192
	add	x1, sp, #144
	mov	w2, #1
	mov	x4, x23
	mov	x5, x28
	mov	x6, x24
	mov	x25, x23
	mov	x23, x28
	mov	x28, x24
	bl	"driver::path_steps"
	ldurb	w8, [x29, #-138]
	ldurh	w10, [x29, #-140]
	mov	x3, x20
	ldur	w16, [x29, #-144]
	ldur	q0, [x21, #208]
	sub	x20, x29, #64
	orr	w15, w10, w8, lsl #16
	ldur	x14, [x29, #-120]
	ldurb	w12, [x29, #-112]
	ldurb	w11, [x29, #-111]
	ldurh	w9, [x29, #-110]
	ldurb	w10, [x29, #-108]
	ldurb	w8, [x29, #-107]
	orr	x18, x16, x15, lsl #32
	ldurh	w13, [x29, #-106]
	ldurb	w15, [x29, #-137]
	ldurb	w17, [x29, #-192]
	b	.Lpasetone_BB68_34
.Lpasetone_BB68_32:
	ldr	q1, [x19]
	sub	x0, x29, #64
	ldur	q2, [x19, #11]
	ldr	w16, [sp, #256]
	mov	w15, wzr
	mov	w8, wzr
	str	q1, [x0]
	ldr	q1, [sp, #240]
	mov	w10, wzr
	mov	w9, wzr
	mov	w11, wzr
	mov	w12, wzr
	mov	x14, xzr
	mov	w13, wzr
	stur	q2, [x0, #11]
	stur	w16, [x29, #-80]
	sub	x20, x29, #64
	mov	x25, x23
	stur	q1, [x21, #248]
	mov	x23, x28
	mov	x28, x24
	b	.Lpasetone_BB68_35
.Lpasetone_BB68_33:
	ldr	q0, [x19]
	ldur	q1, [x19, #11]
	mov	w15, wzr
	ldr	q2, [sp, #240]
	ldr	w16, [sp, #256]
	mov	w13, wzr
	mov	w8, wzr
	mov	w10, wzr
	mov	w9, wzr
	mov	w11, wzr
	mov	w12, wzr
	mov	x14, xzr
	stur	q0, [x21, #153]
	movi	v0.2d, #0000000000000000
	sub	x20, x29, #64
	stur	q1, [x21, #164]
	mov	x25, x23
	mov	x23, x28
	stur	q2, [x21, #180]
	mov	x28, x24
	stur	w16, [x29, #-148]
.Lpasetone_BB68_34:
	ldur	q1, [x21, #153]
	ldur	q2, [x21, #164]
	ldur	q3, [x21, #180]
	ldur	w16, [x29, #-148]
	str	q1, [x20]
	stur	q2, [x20, #11]
	stur	q3, [x21, #248]
	stur	w16, [x29, #-80]
.Lpasetone_BB68_35:
	strb	w8, [sp, #573]
	ldr	w8, [sp, #20]
	ldr	q1, [x20]
	ldur	w16, [x29, #-80]
	add	x0, sp, #144
	add	x1, sp, #488
	strb	w8, [sp, #424]
	ldr	w8, [sp, #16]
	add	x2, sp, #424
	stur	q1, [x19, #217]
	ldur	q1, [x21, #248]
	add	x4, x23, x3
	and	w8, w8, #0x1
	stur	q0, [x21, #56]
	ldr	x24, [sp, #32]
	strb	w8, [sp, #425]
	add	x8, sp, #304
	ldur	q2, [x20, #11]
	ldur	q0, [x8, #8]
	strb	w17, [sp, #488]
	lsr	x17, x18, #48
	stur	q1, [x19, #244]
	ldur	q1, [x8, #24]
	mov	x3, x25
	str	w16, [sp, #532]
	lsr	x16, x18, #32
	ldur	x8, [x8, #40]
	strh	w9, [sp, #570]
	add	x9, sp, #185
	mov	x5, x28
	stur	q0, [x9, #255]
	add	x9, sp, #201
	stur	q2, [x19, #228]
	str	w18, [sp, #536]
	strb	w17, [sp, #542]
	strh	w16, [sp, #540]
	strb	w15, [sp, #543]
	str	x14, [sp, #560]
	strb	w12, [sp, #568]
	strb	w11, [sp, #569]
	strb	w10, [sp, #572]
	strh	w13, [sp, #574]
	str	x24, [sp, #432]
	stur	q1, [x9, #255]
	stp	x8, x22, [sp, #472]
	bl	"tuning::tune"
	ldp	x5, x9, [sp, #192]
	ldrb	w10, [sp, #208]
	ldr	x12, [sp, #216]
	ldrb	w13, [sp, #228]
	cbz	w24, .Lpasetone_BB68_39
	ldp	x2, x15, [sp, #104]
	ldur	x8, [x29, #-8]
	ldp	x4, x3, [sp, #88]
	cbnz	x10, .Lpasetone_BB68_38
	ldr	w10, [sp, #24]
	mov	x12, #4
	mov	w11, #5
	movk	x12, #257, lsl #16
	add	x14, x28, x9, lsl #4
	tst	w10, #0x1
	ldrb	w10, [x25, x9]
	movk	x12, #21, lsl #32
	csinc	x11, x11, xzr, ne
	orr	x16, x12, #0x100
	cmp	w10, #0
	csel	x12, x16, x12, ne
	cset	w10, ne
	stp	x12, x11, [x14]
	csel	x12, x9, xzr, ne
	add	x9, x9, #1
.Lpasetone_BB68_38:
	ldur	q0, [sp, #145]
	ldur	q1, [sp, #156]
	mov	w16, wzr
	ldur	q2, [sp, #172]
	ldr	w11, [sp, #188]
	mov	x17, x15
	ldrb	w14, [sp, #144]
	stur	q0, [x21, #152]
	stur	q1, [x21, #163]
	str	w14, [sp, #12]
	str	q2, [x20]
	stur	w11, [x29, #-48]
	b	.Lpasetone_BB68_40
.Lpasetone_BB68_39:
	ldr	w8, [sp, #188]
	ldur	q0, [sp, #145]
	mov	x17, xzr
	ldur	q1, [sp, #156]
	ldur	q2, [sp, #172]
	mov	w16, #2
	ldrb	w11, [sp, #144]
	ldp	x2, x15, [sp, #104]
	ldp	x4, x3, [sp, #88]
	stur	w8, [x29, #-48]
	ldur	x8, [x29, #-8]
	stur	q0, [x21, #152]
	stur	q1, [x21, #163]
	str	w11, [sp, #12]
	str	q2, [x20]
.Lpasetone_BB68_40:
	ldur	q0, [x21, #163]
	ldur	q1, [x21, #152]
	lsl	x18, x9, #4
	ldur	w11, [x29, #-48]
	cmp	w24, #0
	mov	w14, #2
	stur	q0, [x21, #131]
	ldr	q0, [x20]
	cset	w0, eq
	stur	q1, [x21, #120]
	cmp	x10, #0
	add	x1, x28, x18
	str	w11, [sp, #368]
	ldur	q1, [x21, #120]
	ldrh	w11, [sp, #226]
	str	q0, [x19, #80]
	ldur	q0, [x21, #131]
	csel	w14, w0, w14, eq
	str	q1, [x19, #112]
	stur	q0, [x19, #123]
	stp	w9, w18, [x1]
	tbz	w13, #0, .Lpasetone_BB68_42
	mov	w18, #1
	str	w18, [sp, #8]
	b	.Lpasetone_BB68_43
.Lpasetone_BB68_42:
	cmp	w11, #10
	ldr	w0, [sp, #8]
	cset	w18, ne
	and	w0, w18, w0
	str	w0, [sp, #8]
.Lpasetone_BB68_43:
	ldr	x18, [sp, #80]
	cmp	w14, #0
	and	w13, w13, #0x1
	csel	x18, x15, x18, eq
	cmp	x10, #0
	csel	x12, x17, x12, eq
	csel	w10, w16, wzr, eq
	str	x18, [sp, #80]
	cbnz	w14, .Lpasetone_BB68_22
	b	.Lpasetone_BB68_23
.Lpasetone_func_end68:
	.size	pasetone_tune_board, .Lpasetone_func_end68-pasetone_tune_board
	.cfi_endproc

	.section	.rodata.cst16,"aM",@progbits,16
	.p2align	4, 0x0
.Lpasetone_CPI69_0:
	.byte	131
	.byte	48
	.byte	117
	.byte	192
	.byte	64
	.byte	214
	.byte	108
	.byte	245
	.byte	99
	.byte	117
	.byte	104
	.byte	108
	.byte	131
	.byte	128
	.byte	0
	.byte	15
	.section	.rodata.cst8,"aM",@progbits,8
	.p2align	3, 0x0
.Lpasetone_CPI69_1:
	.byte	0
	.byte	192
	.byte	48
	.byte	72
	.byte	204
	.byte	96
	.byte	0
	.byte	84
	.section	.text.pasetone_tuner_new,"ax",@progbits
	.globl	pasetone_tuner_new
	.p2align	2
	.type	pasetone_tuner_new,@function
pasetone_tuner_new:
	.cfi_startproc
	mov	x9, #-4294967296
	cmp	x3, #0
	mov	w10, #4096
	add	x9, x2, x9
	mov	x11, #-4294967295
	csel	x10, x10, xzr, eq
	cmp	x9, x11
	b.lo	.Lpasetone_BB69_5
	cbz	x0, .Lpasetone_BB69_6
	cmp	x0, #1
	b.ne	.Lpasetone_BB69_5
	mov	w11, #1
	cmp	x4, #78
	b.hs	.Lpasetone_BB69_7
.Lpasetone_BB69_4:
	mov	w9, #8
	stp	xzr, xzr, [x8]
	stp	w9, wzr, [x8, #16]
	ret
.Lpasetone_BB69_5:
	mov	w9, #1
	stp	xzr, xzr, [x8]
	stp	w9, wzr, [x8, #16]
	ret
.Lpasetone_BB69_6:
	mov	w11, wzr
	cmp	x4, #78
	b.lo	.Lpasetone_BB69_4
.Lpasetone_BB69_7:
	adrp	x12, .Lpasetone_CPI69_0
	add	x10, x3, x10
	ldr	q0, [x12, :lo12:.Lpasetone_CPI69_0]
	strb	w11, [x10]
	adrp	x11, .Lpasetone_CPI69_1
	strb	w1, [x10, #1]
	stur	q0, [x10, #2]
	ldr	d0, [x11, :lo12:.Lpasetone_CPI69_1]
	mov	w11, #19118
	strh	w11, [x10, #26]
	mov	w11, #192
	strb	w11, [x10, #28]
	mov	w11, #6240
	movk	w11, #35, lsl #16
	stur	d0, [x10, #18]
	stur	x11, [x10, #42]
	mov	x11, #72340172838076673
	stur	w2, [x10, #29]
	stur	w2, [x10, #33]
	strb	wzr, [x10, #37]
	stur	wzr, [x10, #38]
	strb	wzr, [x10, #50]
	stur	x11, [x10, #51]
	stur	x11, [x10, #59]
	stur	x11, [x10, #67]
	stur	w11, [x10, #74]
	stp	xzr, xzr, [x8]
	stp	wzr, wzr, [x8, #16]
	ret
.Lpasetone_func_end69:
	.size	pasetone_tuner_new, .Lpasetone_func_end69-pasetone_tuner_new
	.cfi_endproc

	.section	.text.pasetone_unpack_fir,"ax",@progbits
	.globl	pasetone_unpack_fir
	.p2align	2
	.type	pasetone_unpack_fir,@function
pasetone_unpack_fir:
	.cfi_startproc
	mov	w9, #4096
	cmp	x0, #0
	csel	x10, x9, xzr, eq
	cmp	x2, #0
	csel	x11, x9, xzr, eq
	cmp	x1, #20
	b.ne	.Lpasetone_BB70_3
	cmp	x3, #64
	b.hs	.Lpasetone_BB70_4
	mov	w9, #8
	stp	xzr, xzr, [x8]
	stp	w9, wzr, [x8, #16]
	ret
.Lpasetone_BB70_3:
	mov	w9, #7
	stp	xzr, xzr, [x8]
	stp	w9, wzr, [x8, #16]
	ret
.Lpasetone_BB70_4:
	str	x19, [sp, #-16]!
	.cfi_def_cfa_offset 16
	.cfi_offset w19, -16
	add	x10, x0, x10
	add	x11, x2, x11
	mov	w15, #-4096
	ldp	s0, s1, [x10]
	ldrb	w14, [x10, #17]
	ldrb	w1, [x10, #12]
	ldrb	w16, [x10, #16]
	ldrb	w17, [x10, #15]
	sxtb	w5, w14
	ldrb	w18, [x10, #14]
	ldrb	w2, [x10, #11]
	ushll	v0.8h, v0.8b, #0
	ushll	v1.8h, v1.8b, #0
	ldrb	w4, [x10, #9]
	cmn	w5, #1
	lsr	w5, w1, #4
	ldrb	w12, [x10, #19]
	ldrb	w13, [x10, #18]
	ldrb	w0, [x10, #13]
	ldrb	w3, [x10, #10]
	shl	v2.4h, v0.4h, #8
	ushll	v0.4s, v0.4h, #0
	ldrb	w10, [x10, #8]
	sxtb	w6, w18
	lsr	w7, w17, #4
	sxtb	w19, w2
	bfi	w16, w17, #8, #4
	orr	w2, w5, w2, lsl #4
	lsr	w5, w4, #4
	sshr	v2.4h, v2.4h, #8
	lsl	w17, w17, #9
	orr	w18, w7, w18, lsl #4
	sxtb	w7, w10
	bfi	w0, w1, #8, #4
	lsl	w1, w1, #9
	orr	w10, w5, w10, lsl #4
	csel	w5, wzr, w15, gt
	cmn	w6, #1
	cmge	v2.4h, v2.4h, #0
	and	w17, w17, #0x1000
	bfi	w3, w4, #8, #4
	sub	w16, w16, w17
	csel	w17, wzr, w15, gt
	cmn	w19, #1
	lsl	w4, w4, #9
	and	w1, w1, #0x1000
	orr	w17, w18, w17
	sshll	v2.4s, v2.4h, #0
	csel	w18, wzr, w15, gt
	cmn	w7, #1
	stp	w17, w16, [x11, #48]
	orr	w17, w2, w18
	sub	w16, w0, w1
	csel	w15, wzr, w15, gt
	stp	w17, w16, [x11, #40]
	and	w17, w4, #0x1000
	mvn	v2.16b, v2.16b
	lsr	w6, w13, #4
	orr	w10, w10, w15
	sub	w15, w3, w17
	bfi	w12, w13, #8, #4
	stp	w10, w15, [x11, #32]
	lsl	w10, w13, #9
	orr	w14, w6, w14, lsl #4
	bic	v2.4s, #255
	and	w10, w10, #0x1000
	orr	w13, w14, w5
	sub	w10, w12, w10
	orr	v0.16b, v2.16b, v0.16b
	shl	v2.4h, v1.4h, #8
	ushll	v1.4s, v1.4h, #0
	stp	w13, w10, [x11, #56]
	sshr	v2.4h, v2.4h, #8
	cmge	v2.4h, v2.4h, #0
	sshll	v2.4s, v2.4h, #0
	mvn	v2.16b, v2.16b
	bic	v2.4s, #255
	orr	v1.16b, v2.16b, v1.16b
	stp	q0, q1, [x11]
	ldr	x19, [sp], #16
	.cfi_def_cfa_offset 0
	.cfi_restore w19
	stp	xzr, xzr, [x8]
	stp	wzr, wzr, [x8, #16]
	ret
.Lpasetone_func_end70:
	.size	pasetone_unpack_fir, .Lpasetone_func_end70-pasetone_unpack_fir
	.cfi_endproc

	.section	.text.pasetone_version,"ax",@progbits
	.globl	pasetone_version
	.p2align	2
	.type	pasetone_version,@function
pasetone_version:
	.cfi_startproc
	mov	w0, #256
	movk	w0, #7, lsl #16
	ret
.Lpasetone_func_end71:
	.size	pasetone_version, .Lpasetone_func_end71-pasetone_version
	.cfi_endproc

	.section	.rodata.cst8,"aM",@progbits,8
	.p2align	3, 0x0
.Lpasetone_CPI72_0:
	.word	1
	.word	16
	.section	.text.pasetone_write_reg_direct,"ax",@progbits
	.globl	pasetone_write_reg_direct
	.p2align	2
	.type	pasetone_write_reg_direct,@function
pasetone_write_reg_direct:
	.cfi_startproc
	cmp	x3, #0
	mov	w9, #4096
	csel	x10, x9, xzr, eq
	cmp	x5, #0
	csel	x9, x9, xzr, eq
	cmp	x6, #24
	b.hs	.Lpasetone_BB72_2
	mov	w10, #8
	stp	xzr, xzr, [x8]
	stp	w10, wzr, [x8, #16]
	ret
.Lpasetone_BB72_2:
	cbz	x4, .Lpasetone_BB72_4
	ubfiz	x11, x0, #16, #8
	and	w12, w1, #0xffff
	ldrb	w10, [x3, x10]
	add	x9, x5, x9
	orr	x11, x11, x12, lsl #32
	mov	w12, #256
	cmp	w10, #0
	orr	x10, x11, #0x4
	csel	x11, xzr, x12, eq
	adrp	x12, .Lpasetone_CPI72_0
	orr	x10, x10, #0x1000000
	ldr	d0, [x12, :lo12:.Lpasetone_CPI72_0]
	orr	x10, x10, x11
	and	x11, x2, #0xff
	stp	x10, x11, [x9]
	mov	w10, #11
	str	d0, [x9, #16]
	csel	w10, wzr, w10, eq
	mov	w9, #1
	stp	xzr, xzr, [x8]
	stp	w10, w9, [x8, #16]
	ret
.Lpasetone_BB72_4:
	mov	w10, #9
	stp	xzr, xzr, [x8]
	stp	w10, wzr, [x8, #16]
	ret
.Lpasetone_func_end72:
	.size	pasetone_write_reg_direct, .Lpasetone_func_end72-pasetone_write_reg_direct
	.cfi_endproc

	.section	.rodata.cst8,"aM",@progbits,8
	.p2align	3, 0x0
.Lpasetone_CPI73_0:
	.byte	1
	.byte	0
	.byte	19
	.byte	0
	.zero	1
	.zero	1
	.zero	1
	.zero	1
	.section	.text.pasetone_write_settings_1,"ax",@progbits
	.globl	pasetone_write_settings_1
	.p2align	2
	.type	pasetone_write_settings_1,@function
pasetone_write_settings_1:
	.cfi_startproc
	cmp	x6, #0
	mov	w9, #4096
	orr	x12, x1, x0
	mov	x10, xzr
	csel	x11, x9, xzr, eq
	cmp	x12, #1
	mov	w9, #17
	b.hi	.Lpasetone_BB73_4
	cmp	x5, #28
	b.hi	.Lpasetone_BB73_4
	cmp	x7, #23
	b.hs	.Lpasetone_BB73_5
	mov	x10, xzr
	mov	w9, #8
.Lpasetone_BB73_4:
	stp	x10, xzr, [x8]
	stp	w9, wzr, [x8, #16]
	ret
.Lpasetone_BB73_5:
	adrp	x10, .Lpasetone_CPI73_0
	add	x11, x6, x11
	ldr	d0, [x10, :lo12:.Lpasetone_CPI73_0]
	mov	w10, #23
	strb	w0, [x11]
	strb	w1, [x11, #1]
	stur	w2, [x11, #2]
	stur	w3, [x11, #6]
	stur	x4, [x11, #10]
	strb	w5, [x11, #18]
	stur	s0, [x11, #19]
	stp	x10, xzr, [x8]
	stp	wzr, wzr, [x8, #16]
	ret
.Lpasetone_func_end73:
	.size	pasetone_write_settings_1, .Lpasetone_func_end73-pasetone_write_settings_1
	.cfi_endproc

	.section	.rodata.cst8,"aM",@progbits,8
	.p2align	3, 0x0
.Lpasetone_CPI74_0:
	.byte	2
	.byte	0
	.byte	23
	.byte	0
	.zero	1
	.zero	1
	.zero	1
	.zero	1
	.section	.text.pasetone_write_settings_2,"ax",@progbits
	.globl	pasetone_write_settings_2
	.p2align	2
	.type	pasetone_write_settings_2,@function
pasetone_write_settings_2:
	.cfi_startproc
	cmp	x7, #0
	mov	w9, #4096
	orr	x12, x1, x0
	mov	x10, xzr
	csel	x11, x9, xzr, eq
	cmp	x12, #1
	mov	w9, #17
	b.hi	.Lpasetone_BB74_4
	cmp	x5, #28
	b.hi	.Lpasetone_BB74_4
	ldr	x9, [sp]
	cmp	x9, #27
	b.hs	.Lpasetone_BB74_5
	mov	x10, xzr
	mov	w9, #8
.Lpasetone_BB74_4:
	stp	x10, xzr, [x8]
	stp	w9, wzr, [x8, #16]
	ret
.Lpasetone_BB74_5:
	adrp	x10, .Lpasetone_CPI74_0
	add	x11, x7, x11
	ldr	d0, [x10, :lo12:.Lpasetone_CPI74_0]
	mov	w10, #27
	strb	w0, [x11]
	strb	w1, [x11, #1]
	stur	w2, [x11, #2]
	stur	w3, [x11, #6]
	stur	x4, [x11, #10]
	strb	w5, [x11, #18]
	stur	w6, [x11, #19]
	stur	s0, [x11, #23]
	stp	x10, xzr, [x8]
	stp	wzr, wzr, [x8, #16]
	ret
.Lpasetone_func_end74:
	.size	pasetone_write_settings_2, .Lpasetone_func_end74-pasetone_write_settings_2
	.cfi_endproc

	.type	.Lpasetone_static.0,@object
	.section	.rodata..Lpasetone_static.0,"a",@progbits
.Lpasetone_static.0:
	.ascii	"\000\200@\300 \240`\340\020\220P\3200\260p\360\b\210H\310(\250h\350\030\230X\3308\270x\370\004\204D\304$\244d\344\024\224T\3244\264t\364\f\214L\314,\254l\354\034\234\\\334<\274|\374\002\202B\302\"\242b\342\022\222R\3222\262r\362\n\212J\312*\252j\352\032\232Z\332:\272z\372\006\206F\306&\246f\346\026\226V\3266\266v\366\016\216N\316.\256n\356\036\236^\336>\276~\376\001\201A\301!\241a\341\021\221Q\3211\261q\361\t\211I\311)\251i\351\031\231Y\3319\271y\371\005\205E\305%\245e\345\025\225U\3255\265u\365\r\215M\315-\255m\355\035\235]\335=\275}\375\003\203C\303#\243c\343\023\223S\3233\263s\363\013\213K\313+\253k\353\033\233[\333;\273{\373\007\207G\307'\247g\347\027\227W\3277\267w\367\017\217O\317/\257o\357\037\237_\337?\277\177\377"
	.size	.Lpasetone_static.0, 256

	.type	.Lpasetone_static.1,@object
	.section	.rodata..Lpasetone_static.1,"a",@progbits
.Lpasetone_static.1:
	.asciz	"\000\000\000\000\000\000\000\000\377\377\377\377\377\377\377\377\000\000\000\000\000\000\000\000\000\003"
	.size	.Lpasetone_static.1, 27

	.type	.Lpasetone_static.2,@object
	.section	.rodata..Lpasetone_static.2,"a",@progbits
.Lpasetone_static.2:
	.asciz	"\000\000\000\000\000\000\000\000\300\221!\000\000\000\000\000\000t\267\001\000\000\000\000\001\000\001\301\221!\000\000\000\000\000\377s\267\001\000\000\000\000\000t\267\001\000\000\000\000\001\000\000\000t\267\001\000\000\000\000?\377\020\005\000\000\000\000\000\000\000\000\000\000\000\000\000\001\000@\377\020\005\000\000\000\000\000\374\254\006\000\000\000\000\000\000\000\000\000\000\000\000\000\001\001\001\374\254\006\000\000\000\000\377\202@\n\000\000\000\000\000\000\000\000\000\000\000\000\000\001\000\000\203@\n\000\000\000\000\200\240l\016\000\000\000\000\000\000\000\000\000\000\000\000\000\001\001\201\240l\016\000\000\000\000\177\262\346\016\000\000\000\000\000\000\000\000\000\000\000\000\000\001\000\200\262\346\016\000\000\000\000\377\377\377\377\377\377\377\377\000\000\000\000\000\000\000\000\000\002"
	.size	.Lpasetone_static.2, 216

	.type	.Lpasetone_static.5,@object
	.section	.rodata..Lpasetone_static.5,"a",@progbits
	.p2align	1, 0x0
.Lpasetone_static.5:
	.ascii	"\000\000\t\000\016\000\033\000%\000M\000W\000}\000\220\000\235\000\246\000\305\000\317\000\345\000\376\000\030\001)\001H\001R\001l\001t\001\202\001\222\001\245\001\262\001\267\001\275\001\340\001\360\001"
	.size	.Lpasetone_static.5, 58

	.type	.Lpasetone_static.10,@object
	.section	.rodata..Lpasetone_static.10,"a",@progbits
	.p2align	3, 0x0
.Lpasetone_static.10:
	.asciz	"\002\000\000\000\000\000\000\000\000\200\000\000\000\000\000\000\000\000\000\000\000\000\000\000\004\000\000\000\000\000\000\000\000@\000\000\000\000\000\000\000\000\000\000\000\000\000\000\b\000\000\000\000\000\000\000\000 \000\000\000\000\000\000\000\000\000\000\000\000\000\000\020\000\000\000\000\000\000\000\000\020\000\000\000\000\000\000\000\000\000\000\000\000\000\000 \000\000\000\000\000\000\000\000\b\000\000\000\000\000\000\000\000\000\000\000\000\000\000@\000\000\000\000\000\000\000\000\004\000\000\000\000\000\000\000\000\000\000\000\000\000\000\200\000\000\000\000\000\000\000\000\002\000\000\000\000\000\000\000\000\000\000\000\000\000\000\000\001\000\000\000\000\000\000\000\001\000\000\000\000\000\000\000\000\000\000\000\000\000\000\000\002\000\000\000\000\000\000\200\000\000\000\000\000\000\000\000\000\000\000\000\000\000\000\000\004\000\000\000\000\000\000@\000\000\000\000\000\000\000\000\000\000\000\000\000\000\000\000\b\000\000\000\000\000\000 \000\000\000\000\000\000\000\000\000\000\000\000\000\000\000\000\020\000\000\000\000\000\000\020\000\000\000\000\000\000\000\000\000\000\000\000\000\000\000\000 \000\000\000\000\000\000\b\000\000\000\000\000\000\000\000\000\000\000\000\000\000\000\000@\000\000\000\000\000\000\004\000\000\000\000\000\000\000\000\000\000\000\000\000\000\000\000\200\000\000\000\000\000\000\002\000\000\000\000\000\000\000\001\000\000\000\000\000\000\000\000\000\001\000\000\000\000\000\001\000\000\000\000\000\000\000\001\000\000\000\000\000\000"
	.size	.Lpasetone_static.10, 384

	.ident	"rattle logic=dac8208d650f15bf3e2dc313a14fa4c783a3acf887bdfab66e1714b038d9e11b"
	.section	".note.GNU-stack","",@progbits
