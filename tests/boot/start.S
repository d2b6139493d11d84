/* Entry by PVH: 32-bit protected mode, no paging, ebx at the start info. Goes to long mode with SSE on, and runs the machine. */

    .section .note.pvh, "a", @note
    .balign 4
    .long 4, 8, 18              /* name and value lengths; XEN_ELFNOTE_PHYS32_ENTRY */
    .asciz "Xen"
    .quad start

    .section .text.start, "ax"
    .code32
    .globl start
start:
    cli
    cld
    movl $stack_top, %esp
    movl %ebx, %ebp

    /* The first 4 GiB onto themselves, in pages of 2 MiB. */
    movl $page_map + 3, %eax    /* present, writable */
    movl $page_map_pointers, %edi
    movl $pointers_end, %ecx
1:  movl %eax, (%edi)
    addl $4096, %eax
    addl $8, %edi
    cmpl %ecx, %edi
    jne 1b
    movl $0x83, %eax            /* present, writable, 2 MiB */
    movl $page_map, %edi
    movl $page_map_end, %ecx
2:  movl %eax, (%edi)
    addl $0x200000, %eax
    addl $8, %edi
    cmpl %ecx, %edi
    jne 2b
    movl $page_map_pointers + 3, page_root

    movl $page_root, %eax
    movl %eax, %cr3
    movl %cr4, %eax
    orl $0x620, %eax            /* PAE, OSFXSR, OSXMMEXCPT */
    movl %eax, %cr4
    movl $0xC0000080, %ecx      /* EFER */
    rdmsr
    orl $0x100, %eax            /* LME */
    wrmsr
    movl %cr0, %eax
    andl $~0xC, %eax            /* not EM, not TS */
    orl $0x80000003, %eax       /* PG, MP, PE */
    movl %eax, %cr0
    lgdt descriptors_named
    ljmp $8, $long_mode

    .code64
long_mode:
    movl $16, %eax
    movl %eax, %ds
    movl %eax, %es
    movl %eax, %ss
    movl $stack_top, %esp
    movl %ebp, %edi
    xorl %ebp, %ebp
    call machine_main
3:  hlt
    jmp 3b

    .section .rodata
    .balign 8
descriptors:
    .quad 0
    .quad 0x00AF9A000000FFFF    /* code, 64 bits */
    .quad 0x00CF92000000FFFF    /* data */
descriptors_named:
    .word descriptors_named - descriptors - 1
    .long descriptors

    .section .bss
    .balign 4096
page_root:
    .skip 4096
page_map_pointers:
    .skip 32
pointers_end:
    .skip 4096 - 32
page_map:
    .skip 4 * 4096
page_map_end:
stack:
    .skip 65536
stack_top:

    .section .note.GNU-stack, "", @progbits
