/* Keeps return addresses in memory and comes back through them, in three ways: a jump back over calls, two coroutines in turns, and
   a context that was copied byte by byte. Exits with 42. */

/* The return address, the stack pointer and the saved registers s0 to s11. */
struct context { unsigned long words[14]; };

/* Keeps the context of its caller; answers 0, and once more when `resume` comes back to it. */
long save(struct context *here) __attribute__((returns_twice));
void resume(struct context *there, long answer);

/* Keeps the context of its caller in `here` and goes on with `there`. */
void turn(struct context *here, struct context *there);

#define REGISTERS(op) \
    "    " op " ra, 0(a0)\n    " op " sp, 8(a0)\n    " op " s0, 16(a0)\n    " op " s1, 24(a0)\n    " op " s2, 32(a0)\n" \
    "    " op " s3, 40(a0)\n    " op " s4, 48(a0)\n    " op " s5, 56(a0)\n    " op " s6, 64(a0)\n    " op " s7, 72(a0)\n" \
    "    " op " s8, 80(a0)\n    " op " s9, 88(a0)\n    " op " s10, 96(a0)\n    " op " s11, 104(a0)\n"

__asm__(".type save, @function\n"
        "save:\n" REGISTERS("sd")
        "    li a0, 0\n"
        "    ret\n"
        ".size save, . - save\n"
        ".type resume, @function\n"
        "resume:\n" REGISTERS("ld")
        "    mv a0, a1\n"
        "    ret\n"
        ".size resume, . - resume\n"
        ".type turn, @function\n"
        "turn:\n" REGISTERS("sd")
        "    mv a0, a1\n" REGISTERS("ld")
        "    ret\n"
        ".size turn, . - turn\n");

static struct context back, copied, first, second;

static long stack[512];

__attribute__((noinline)) static void deep(long levels)
{
    if (levels == 0)
        resume(&back, 5);
    else
        deep(levels - 1);
    __asm__ volatile(""); /* so that no call above is in a tail */
}

/* Jumps back over ten calls. */
__attribute__((noinline)) static long jump_back(void)
{
    long answer = save(&back);
    if (answer == 0)
        deep(10);
    return answer;
}

/* Comes back by a copy of its context. */
__attribute__((noinline)) static long by_copy(void)
{
    long answer = save(&back);
    if (answer == 0) {
        for (unsigned long k = 0; k < sizeof back; k++)
            ((volatile char *)&copied)[k] = ((volatile char *)&back)[k];
        resume(&copied, 7);
    }
    return answer;
}

static volatile long count;

__attribute__((used)) static void other(void)
{
    for (;;) {
        count += 2;
        turn(&second, &first);
    }
}

/* Gives ten turns to a coroutine that adds two in each, and adds one itself. */
__attribute__((noinline)) static long in_turns(void)
{
    second.words[0] = (unsigned long)other;
    second.words[1] = (unsigned long)(stack + 512);
    for (long k = 0; k < 10; k++) {
        turn(&first, &second);
        count++;
    }
    return count;
}

__attribute__((noreturn, used)) static void begin(void)
{
    register long a0 __asm__("a0") = jump_back() + by_copy() + in_turns();
    register long a7 __asm__("a7") = 93;
    for (;;)
        __asm__ volatile("ecall" : "+r"(a0) : "r"(a7));
}

/* The linker may reach data through gp, so it is set first. The functions have sizes, so that their code can be moved. */
__asm__(".globl _start\n"
        ".type _start, @function\n"
        "_start:\n"
        ".option push\n"
        ".option norelax\n"
        "    la gp, __global_pointer$\n"
        ".option pop\n"
        "    call begin\n"
        ".size _start, . - _start\n");
