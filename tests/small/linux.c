/* A program for Linux without a C library: the tape is standard input. It starts here. */
#include "tape.h"

int main(void);

/* what each processor calls the three things that are asked for, its registers and the asking */
#if defined(__arm__)
enum { READ = 3, WRITE = 4, EXIT = 1 };
#define REGISTER "r"
#define NUMBER "r7"
#define ASK "svc 0"
#elif defined(__aarch64__)
enum { READ = 63, WRITE = 64, EXIT = 93 };
#define REGISTER "x"
#define NUMBER "x8"
#define ASK "svc 0"
#elif defined(__riscv)
enum { READ = 63, WRITE = 64, EXIT = 93 };
#define REGISTER "a"
#define NUMBER "a7"
#define ASK "ecall"
#endif

static long ask(long what, long a, const void *b, long c)
{
    register long first __asm__(REGISTER "0") = a;
    register const void *second __asm__(REGISTER "1") = b;
    register long third __asm__(REGISTER "2") = c;
    register long number __asm__(NUMBER) = what;
    __asm__ volatile(ASK : "+r"(first) : "r"(second), "r"(third), "r"(number) : "memory");
    return first;
}

void board_write(const char *bytes, size_t count)
{
    ask(WRITE, 1, bytes, (long)count);
}

size_t board_read(void *bytes, size_t count)
{
    size_t got = 0;
    while (got < count) {
        long more = ask(READ, 0, (char *)bytes + got, (long)(count - got));
        if (more <= 0) {
            break;
        }
        got += (size_t)more;
    }
    return got;
}

void board_end(int status)
{
    ask(EXIT, status, 0, 0);
}

__attribute__((used)) void start(void)
{
    main();
    board_end(3);
}

/* the stack comes with a boundary of 16 bytes, and `start` with nothing on it */
__asm__(".globl _start\n_start:\n"
#if defined(__arm__) || defined(__aarch64__)
        "    bl start\n"
#else
        "    call start\n"
#endif
);
