# For tools/compare: what an archive of the library has, small. Two functions, one that others see; two constants in a
# pool; a table of places; a symbol from elsewhere. run changes one thing at a time.
        .section .text.inner, "ax", @progbits
        .type inner, @function
inner:  movl $7, %eax
        ret
        .size inner, . - inner

        .section .text.outer, "ax", @progbits
        .p2align 4
        .globl outer
        .type outer, @function
outer:  movaps first(%rip), %xmm0
        movaps second(%rip), %xmm1
        leaq places(%rip), %rax
        call inner
        jmp memset@PLT
        .size outer, . - outer

        .section .rodata.outer, "a", @progbits
        .p2align 2
places: .long inner - places
        .long inner + 5 - places

        .section .rodata.cst16, "aM", @progbits, 16
        .p2align 4
first:  .quad 1, 2
second: .quad 3, 4

        .ident "one"
        .section .note.GNU-stack, "", @progbits
