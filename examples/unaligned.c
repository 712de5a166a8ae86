/* Reads a word of 8 bytes from an odd address, as a packed structure asks for, and exits with it. */
struct __attribute__((packed)) both {
    char first;
    long second;
};

static void leave(long status)
{
    register long a0 __asm__("a0") = status;
    register long a7 __asm__("a7") = 93;
    for (;;)
        __asm__ volatile("ecall" : "+r"(a0) : "r"(a7));
}

void _start(void)
{
    struct both both = {1, 9};
    __asm__ volatile("" : "+m"(both));
    leave(both.second);
}
