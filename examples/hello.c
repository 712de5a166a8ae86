/* Writes a line to the standard output and exits with its length. No library is needed. */

/* A call of the system: its number in a7, its arguments from a0 on, its answer in a0. */
static long ask(long number, long first, long second, long third)
{
    register long a0 __asm__("a0") = first;
    register long a1 __asm__("a1") = second;
    register long a2 __asm__("a2") = third;
    register long a7 __asm__("a7") = number;
    __asm__ volatile("ecall" : "+r"(a0) : "r"(a1), "r"(a2), "r"(a7) : "memory");
    return a0;
}

__attribute__((noinline)) static long length(const char *text)
{
    long count = 0;
    while (text[count])
        count++;
    return count;
}

const char line[] = "hello\n";

__attribute__((noreturn, used)) static void begin(void)
{
    long written = ask(64, 1, (long)line, length(line));
    for (;;)
        ask(93, written, 0, 0);
}

/* The linker may reach data through gp, so it is set first. The function has a size, so that its code can be moved. */
__asm__(".globl _start\n"
        ".type _start, @function\n"
        "_start:\n"
        ".option push\n"
        ".option norelax\n"
        "    la gp, __global_pointer$\n"
        ".option pop\n"
        "    call begin\n"
        ".size _start, . - _start\n");
