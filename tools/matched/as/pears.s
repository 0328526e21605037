    .text
weigh:
    movv %eax, %ebx
    mov %eax, (%ebx,%ecx,3)
    .warning "soft"
    .byte 300
