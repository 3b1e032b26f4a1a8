# Functions of whose stack nothing can be told from their instructions. bound.py has to say so of each of them.
        .text
calls_by_pointer:
        call *%rax
        ret
jumps_by_pointer:
        jmp *%rax
calls_nowhere:
        call nowhere
        ret
recurses:
        call recurses_too
        ret
recurses_too:
        call recurses
        ret
keeps_any_size:
        sub %rax, %rsp
        add %rax, %rsp
        ret
leaves_a_word:
        push %rax
        ret
in_two_places:
        test %rax, %rax
        je 1f
        push %rax
1:      ret
runs_on:
        nop

        .section .text.jumps_out_by_table, "ax", @progbits
jumps_out_by_table:
        lea 1f(%rip), %rcx
        movslq (%rcx,%rdi,4), %rax
        add %rcx, %rax
        jmp *%rax
        .section .rodata.jumps_out_by_table, "a", @progbits
1:      .long jumps_out_by_table - 1b
        .long elsewhere - 1b

        .section .text.elsewhere, "ax", @progbits
elsewhere:
        ret
