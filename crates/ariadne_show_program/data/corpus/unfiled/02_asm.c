void g(void)
{
    __asm__("nosuch %rax, %rbx\n\tbad2 x");
}
