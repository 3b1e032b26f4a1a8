# A function that keeps 512 bytes in one of three ways, to which its second table alone leads: bound.py has to count them.
        .section .text.by_table, "ax", @progbits
by_table:
        cmp $1, %rdi
        je 3f
        lea 1f(%rip), %rcx
        movslq (%rcx,%rsi,4), %rax
        add %rcx, %rax
        jmp *%rax
3:      lea 2f(%rip), %rdx
        movslq (%rdx,%rsi,4), %rax
        add %rdx, %rax
        jmp *%rax
4:      ret
5:      push %rax
        pop %rax
        ret
6:      sub $512, %rsp
        add $512, %rsp
        ret
        .section .rodata.by_table, "a", @progbits
1:      .long 4b - 1b
        .long 5b - 1b
2:      .long 5b - 2b
        .long 6b - 2b
