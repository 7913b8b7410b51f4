/* In a kernel's place, for the emulator's 32-bit ARM: says that it runs, and switches off. */
	.syntax unified
	.arm
_start:	adr r1, text
	ldr r2, =0x09000000	 @ PL011
1:	ldrb r0, [r1], #1
	cmp r0, #0
	strbne r0, [r2]
	bne 1b
	ldr r0, =0x84000008	 @ PSCI SYSTEM_OFF
	.arch_extension virt
	hvc #0
2:	b 2b
text:	.asciz "PAYLOAD RUNS\r\n"
	.align
	.ltorg
