/* From multiboot, which starts a kernel with 32 bits and without paging, to 64 bits in the upper half.

   This section lies at its physical address. The first gigabyte of memory is mapped twice, by pages of 2 MB:
   at 0, for the few instructions here, and at BASE, where the kernel lives. */
    .section .boot, "awx"
    .code32
    .balign 4
    .long 0x1badb002, 3, -(0x1badb002 + 3)  /* magic; modules begin at pages, the memory's size is wanted */

    .global start
start:
    cli
    mov $root, %eax
    mov %eax, %cr3
    mov $0x620, %eax                /* CR4: PAE, and SSE: the library copies bytes by it */
    mov %eax, %cr4
    mov $0xc0000080, %ecx           /* EFER: system calls, long mode, no-execute */
    rdmsr
    or $0x901, %eax
    wrmsr
    mov $0x80010003, %eax           /* CR0: paging, read-only pages for the kernel too, protection, FPU */
    mov %eax, %cr0
    lgdt table_pointer
    ljmp $8, $in_64_bits

    .code64
in_64_bits:
    mov $0x10, %eax
    mov %eax, %ds
    mov %eax, %es
    mov %eax, %ss
    mov %ebx, %edi                  /* what multiboot passes is the argument of main */
    movabs $boot_stack_end, %rsp
    movabs $main, %rax
    call *%rax

    .balign 8
    .global segments
segments:                           /* of the kernel: code 8, data 0x10; of programs: data 0x18, code 0x20 */
    .quad 0, 0x00af9b000000ffff, 0x00cf93000000ffff, 0x00cff3000000ffff, 0x00affb000000ffff
    .quad 0, 0                      /* the task state segment, which traps.c fills in */
table_pointer:
    .word table_pointer - segments - 1
    .long segments

    .balign 4096
    .global root
root:
    .quad lower + 3
    .fill 510, 8, 0
    .quad upper + 3
lower:
    .quad pages + 3
    .fill 511, 8, 0
upper:
    .fill 510, 8, 0
    .quad pages + 3, 0
pages:
    .set at, 0
    .rept 512
    .quad at + 0x83
    .set at, at + 0x200000
    .endr

    .bss
    .balign 16
    .skip 32768
boot_stack_end:
