/* A stored tree, which TREE names, in the image. */

    .section .rodata
    .balign 8
    .globl machine_tree
machine_tree:
    .incbin TREE
    .globl machine_tree_end
machine_tree_end:

    .section .note.GNU-stack, "", @progbits
