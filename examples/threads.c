/* Four threads add up numbers under a lock of their own: clone, futex and atomic instructions, without any library. */

enum { WRITE = 64, EXIT_GROUP = 94, FUTEX = 98 };
enum { WAIT = 0, WAKE = 1 };
enum { THREADS = 4, ROUNDS = 1000 };

static char stacks[THREADS][4096] __attribute__((aligned(16)));

/* Each thread's number as long as it runs, and then 0. */
static int running[THREADS];

/* 0: free, 1: held, 2: held while others may wait. */
static int lock;

static long sum;

/* A call of the system: its number in a7, its arguments from a0 on, its answer in a0. */
static long ask(long number, long first, long second, long third)
{
    register long a0 __asm__("a0") = first;
    register long a1 __asm__("a1") = second;
    register long a2 __asm__("a2") = third;
    register long a3 __asm__("a3") = 0;
    register long a7 __asm__("a7") = number;
    __asm__ volatile("ecall" : "+r"(a0) : "r"(a1), "r"(a2), "r"(a3), "r"(a7) : "memory");
    return a0;
}

/* Takes the lock. The first try is an LR and SC, the others are an AMO. */
static void take(int *lock)
{
    int seen = 0;
    if (__atomic_compare_exchange_n(lock, &seen, 1, 0, __ATOMIC_ACQUIRE, __ATOMIC_RELAXED))
        return;
    while (__atomic_exchange_n(lock, 2, __ATOMIC_ACQUIRE))
        ask(FUTEX, (long)lock, WAIT, 2);
}

static void give(int *lock)
{
    if (__atomic_exchange_n(lock, 0, __ATOMIC_RELEASE) == 2)
        ask(FUTEX, (long)lock, WAKE, 1);
}

__attribute__((noinline)) static void add(long number)
{
    take(&lock);
    sum += number;
    give(&lock);
}

/* What a thread does. */
__attribute__((used)) static void work(long factor)
{
    for (long i = 0; i < ROUNDS; i++)
        add(i * factor);
}

/* Makes a thread that calls work(factor) on this stack. The system tells its number in the word, and clears that at its end. */
long make_thread(long factor, char *stack, int *word);
__asm__(".type make_thread, @function\n"
        "make_thread:\n"
        "    sd a0, -8(a1)\n"
        "    addi a1, a1, -16\n"
        "    mv a4, a2\n"
        "    li a3, 0\n"
        "    li a0, 0x350f00\n" /* memory and all else shared, a thread, and the word told and cleared */
        "    li a7, 220\n"
        "    ecall\n"
        "    beqz a0, 1f\n"
        "    ret\n"
        "1:  ld a0, 8(sp)\n"
        "    call work\n"
        "    li a0, 0\n"
        "    li a7, 93\n"
        "    ecall\n"
        ".size make_thread, . - make_thread\n");

/* Writes a number and a newline. */
static void print(long number)
{
    char text[24];
    char *at = text + sizeof text;
    *--at = '\n';
    do {
        *--at = '0' + number % 10;
        number /= 10;
    } while (number);
    ask(WRITE, 1, (long)at, text + sizeof text - at);
}

__attribute__((used)) static void begin(void)
{
    for (long k = 0; k < THREADS; k++)
        make_thread(k + 1, stacks[k] + sizeof stacks[k], &running[k]);
    for (long k = 0; k < THREADS; k++) {
        int number;
        while ((number = __atomic_load_n(&running[k], __ATOMIC_ACQUIRE)))
            ask(FUTEX, (long)&running[k], WAIT, number);
    }
    print(sum);
    ask(EXIT_GROUP, 0, 0, 0);
}

/* The linker may reach data through gp, so it is set first. The functions have sizes, so that their code can be moved. */
__asm__(".globl _start\n"
        ".type _start, @function\n"
        "_start:\n"
        ".option push\n"
        ".option norelax\n"
        "    la gp, __global_pointer$\n"
        ".option pop\n"
        "    call begin\n"
        ".size _start, . - _start\n");
