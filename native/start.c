/*
 * What a program of this repository calls, for Arm (aarch64) Linux: where it starts, read, write and close, a file by its name, its arguments, why a call failed, that a
 * pipe which nobody reads ends no program, and what a compiler calls by itself. It stands in the place of the C code of rt's kit (the functions with rattle_ in their
 * names) and of the C library, which the kit has for x86-64 alone, so that a program needs nothing else. ./install compiles it with the kit's compiler, which has no
 * headers. As there, the contracts of these functions are believed, not proved.
 */
typedef __SIZE_TYPE__ size;

int main(void);
long write(int file, const void *bytes, size count);
long __write(int file, const void *bytes, size count);
long read(int file, void *bytes, size count);
int close(int file);
int open(const char *path, int flags, unsigned mode);
long __sysv_signal(int number, long what);
const unsigned *__x86_get_cpuid_feature_leaf(unsigned leaf);
int rattle_errno(void);
void rattle_set_errno(int error);
size rattle_arg_count(void);
long rattle_arg(size i, unsigned char *bytes, size room);
void *memcpy(void *to, const void *from, size count);
void *memmove(void *to, const void *from, size count);
void *memset(void *to, int byte, size count);
void started(size *words);

static size count;
static char **arguments;
static int failed;

/* A call of the system; -1 where it refuses, and why is kept. */
static long ask(long what, long a, const void *b, long c, long d)
{
    register long x8 __asm__("x8") = what;
    register long x0 __asm__("x0") = a;
    register const void *x1 __asm__("x1") = b;
    register long x2 __asm__("x2") = c;
    register long x3 __asm__("x3") = d;
    __asm__ volatile("svc 0" : "+r"(x0) : "r"(x8), "r"(x1), "r"(x2), "r"(x3) : "memory", "cc");
    if (x0 < 0) {
        failed = (int)-x0;
        return -1;
    }
    return x0;
}

long read(int file, void *bytes, size room)
{
    return ask(63, file, bytes, (long)room, 0);
}

long write(int file, const void *bytes, size length)
{
    return ask(64, file, bytes, (long)length, 0);
}

long __write(int file, const void *bytes, size length)
{
    return write(file, bytes, length);
}

int close(int file)
{
    return (int)ask(57, file, 0, 0, 0);
}

/* A file of the folder that the program was started in. The flags that the kit names for reading, writing, appending and making a file are the same on Arm. */
int open(const char *path, int flags, unsigned mode)
{
    return (int)ask(56, -100, path, flags, mode);
}

/* How a program starts: it has a signal ignored. What was done before, it does not look at. */
long __sysv_signal(int number, long what)
{
    long action[4] = {what, 0, 0, 0};

    return ask(134, number, action, 0, sizeof action[3]);
}

/* And it asks whether the processor, if it were one of x86-64, can do what its code for that would need: its code for Arm needs nothing of it. */
const unsigned *__x86_get_cpuid_feature_leaf(unsigned leaf)
{
    static const unsigned all[8] = {~0u, ~0u, ~0u, ~0u, ~0u, ~0u, ~0u, ~0u};

    (void)leaf;
    return all;
}

int rattle_errno(void)
{
    return failed;
}

void rattle_set_errno(int error)
{
    failed = error;
}

size rattle_arg_count(void)
{
    return count;
}

/* Puts argument i at the start of the bytes and gives its length; -1 where there is none, -2 where it does not fit, and then the bytes are full. */
long rattle_arg(size i, unsigned char *bytes, size room)
{
    size k = 0;

    if (i >= count || arguments[i] == 0) {
        return -1;
    }
    for (; arguments[i][k] != 0; k++) {
        if (k == room) {
            return -2;
        }
        bytes[k] = (unsigned char)arguments[i][k];
    }
    return (long)k;
}

void *memcpy(void *to, const void *from, size length)
{
    for (size i = 0; i < length; i++) {
        ((char *)to)[i] = ((const char *)from)[i];
    }
    return to;
}

void *memmove(void *to, const void *from, size length)
{
    if ((size)to <= (size)from) {
        return memcpy(to, from, length);
    }
    for (size i = length; i > 0; i--) {
        ((char *)to)[i - 1] = ((const char *)from)[i - 1];
    }
    return to;
}

void *memset(void *to, int byte, size length)
{
    for (size i = 0; i < length; i++) {
        ((char *)to)[i] = (char)byte;
    }
    return to;
}

/* Linux leaves the count of the arguments and the arguments on the stack. */
__attribute__((used)) void started(size *words)
{
    count = words[0];
    arguments = (char **)(words + 1);
    ask(94, main(), 0, 0, 0);
}

__asm__(".globl _start\n_start:\n    mov x29, xzr\n    mov x30, xzr\n    mov x0, sp\n    bl started\n");
