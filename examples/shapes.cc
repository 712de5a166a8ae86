// Calls a virtual function in a loop. Compilers may compare the table's entry with the function that they expect.

struct Shape {
    virtual int corners() = 0;
};

struct Square : Shape {
    int corners() override;
};

int Square::corners() { return 4; }

__attribute__((noinline)) int sum(Shape **all, int count)
{
    int sum = 0;
    for (int i = 0; i < count; i++)
        sum += all[i]->corners();
    return sum;
}

Square square;
Shape *shapes[3] = {&square, &square, &square};

extern "C" void __cxa_pure_virtual() {}

extern "C" void _start()
{
    register long a0 __asm__("a0") = sum(shapes, 3);
    register long a7 __asm__("a7") = 93;
    for (;;)
        __asm__ volatile("ecall" : "+r"(a0) : "r"(a7));
}
