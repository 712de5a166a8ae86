/* Comes back by longjmp, once through its buffer and once through a copy that was made byte by byte. */
#include <setjmp.h>

static jmp_buf back, copy;

static void copy_bytes(void)
{
    for (unsigned long k = 0; k < sizeof back; k++)
        ((volatile char *)copy)[k] = ((volatile char *)back)[k];
}

__attribute__((noinline)) static void leave(int times)
{
    if (times == 0)
        longjmp(back, 1);
    copy_bytes();
    longjmp(copy, 2);
}

int main(void)
{
    volatile int times = 0;
    int by = setjmp(back);
    if (by < 2)
        leave(times++);
    return 10 * times + by;
}
