/* The ways into the kernel and out of it. Each leaves a struct frame on the kernel stack of the process.
   Gates and SYSCALL turn interrupts off, and only the way out turns them on again. */
    .text
    .global entries, enter_by_call, leave, switch_stacks

/* one for each vector, 16 bytes apart; at some vectors the processor pushes an error code */
    .balign 16
entries:
    .set vector, 0
    .rept 48
    .balign 16
    .if vector != 8 && vector != 17 && (vector < 10 || vector > 14)
    push $0
    .endif
    push $vector
    jmp save
    .set vector, vector + 1
    .endr

/* SYSCALL has put the program's rip into rcx and its flags into r11, and has not changed the stack. */
enter_by_call:
    mov %rsp, stack_of_program(%rip)
    mov task_state + 4(%rip), %rsp  /* the top of the kernel stack */
    push $0x1b                      /* what an interrupt would have pushed: ss, rsp, rflags, cs, rip */
    push stack_of_program(%rip)
    push %r11
    push $0x23
    push %rcx
    push $0                         /* no error code */
    push $256                       /* SYSTEM_CALL */

save:
    .irp register, rax, rbx, rcx, rdx, rsi, rdi, rbp, r8, r9, r10, r11, r12, r13, r14, r15
    push %\register
    .endr
    sub $512, %rsp
    fxsave64 (%rsp)                 /* the library uses the registers of SSE */
    cld
    mov %rsp, %rdi
    call handle

leave:
    fxrstor64 (%rsp)
    add $512, %rsp
    .irp register, r15, r14, r13, r12, r11, r10, r9, r8, rbp, rdi, rsi, rdx, rcx, rbx, rax
    pop %\register
    .endr
    add $16, %rsp
    iretq

/* switch_stacks(where to put this stack pointer, the next process's one): returns in the next process */
switch_stacks:
    .irp register, rbx, rbp, r12, r13, r14, r15
    push %\register
    .endr
    mov %rsp, (%rdi)
    mov %rsi, %rsp
    .irp register, r15, r14, r13, r12, rbp, rbx
    pop %\register
    .endr
    ret

    .bss
    .balign 8
stack_of_program:
    .skip 8
