// Sums the prices of many orders: a virtual call an order, and checks whose errors hardly ever come, though the compiler is told to
// expect them. So the code of the errors lies in the middle of the loop, until a profile moves it away. Exits with 163.

struct Order {
    long count;
    long errors;
    virtual long price() = 0;
};

struct Piece : Order {
    long price() override;
};

struct Box : Order {
    long price() override;
};

// Notes an error: which, and in which order.
__attribute__((noinline)) static void note(Order *order, long which)
{
    order->errors = order->errors * 8 + which;
    order->count = 0;
}

#define EXPECTED(test) __builtin_expect(!!(test), 1)

long Piece::price()
{
    if (EXPECTED(count < 0)) {
        note(this, 1);
        return 0;
    }
    if (EXPECTED(count > 1000)) {
        note(this, 2);
        return 1;
    }
    return 3 * count;
}

long Box::price()
{
    if (EXPECTED(count == 0)) {
        note(this, 3);
        return 0;
    }
    return 20 * count + 1;
}

__attribute__((noinline)) static long sum(Order **orders, long rounds)
{
    long sum = 0;
    for (long i = 0; i < rounds; i++) {
        Order *order = orders[i % 4];
        if (EXPECTED(order->errors != 0)) {
            note(order, 4);
            sum -= order->errors;
        }
        sum += order->price();
        if (EXPECTED(sum > 1000000000)) {
            note(order, 5);
            sum = 0;
        }
    }
    return sum;
}

Piece pieces[3];
Box box;
Order *orders[4] = {&pieces[0], &pieces[1], &box, &pieces[2]};

extern "C" void __cxa_pure_virtual() {}

extern "C" __attribute__((used, noreturn)) void begin()
{
    for (long i = 0; i < 3; i++)
        pieces[i].count = i + 1;
    box.count = 2;
    long total = 0;
    for (long i = 0; i < 100; i++)
        total += sum(orders, 100);
    register long a0 __asm__("a0") = total % 251;
    register long a7 __asm__("a7") = 93;
    for (;;)
        __asm__ volatile("ecall" : "+r"(a0) : "r"(a7));
}

// The linker may reach data through gp, so it is set first. The function has a size, so that its code can be moved.
__asm__(".globl _start\n"
        ".type _start, @function\n"
        "_start:\n"
        ".option push\n"
        ".option norelax\n"
        "    la gp, __global_pointer$\n"
        ".option pop\n"
        "    call begin\n"
        ".size _start, . - _start\n");
