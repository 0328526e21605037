weigh:
    movv eax, ebx
    mov eax,,1
