// A program for Linux without a C library, on x86-64 or Arm: its start, what it says, its end, and the two functions that the library calls.
#include <stddef.h>

#ifdef __x86_64__
enum { READ = 0, WRITE = 1, EXIT = 60 };

__asm__(".globl _start\n"
        "_start:\n"
        "    xor %ebp, %ebp\n"
        "    call run");

void *memcpy(void *to, const void *from, size_t n) {
    void *first = to;
    __asm__ volatile("rep movsb" : "+D"(to), "+S"(from), "+c"(n) : : "memory");
    return first;
}

void *memset(void *to, int byte, size_t n) {
    void *first = to;
    __asm__ volatile("rep stosb" : "+D"(to), "+c"(n) : "a"(byte) : "memory");
    return first;
}

static inline long system_call(long which, long a, const void *at, size_t n) {
    __asm__ volatile("syscall" : "+a"(which) : "D"(a), "S"(at), "d"(n) : "rcx", "r11", "memory");
    return which;
}
#else
enum { READ = 63, WRITE = 64, EXIT = 93 };

__asm__(".globl _start\n"
        "_start:\n"
        "    mov x29, #0\n"
        "    bl run");

void *memcpy(void *to, const void *from, size_t n) {
    void *first = to;
    __asm__ volatile("1: cbz %2, 2f\n"
                     "    ldrb w9, [%1], #1\n"
                     "    strb w9, [%0], #1\n"
                     "    sub %2, %2, #1\n"
                     "    b 1b\n"
                     "2:"
                     : "+r"(to), "+r"(from), "+r"(n) : : "x9", "memory");
    return first;
}

void *memset(void *to, int byte, size_t n) {
    void *first = to;
    __asm__ volatile("1: cbz %1, 2f\n"
                     "    strb %w2, [%0], #1\n"
                     "    sub %1, %1, #1\n"
                     "    b 1b\n"
                     "2:"
                     : "+r"(to), "+r"(n) : "r"(byte) : "memory");
    return first;
}

static inline long system_call(long which, long a, const void *at, size_t n) {
    register long x8 __asm__("x8") = which, x0 __asm__("x0") = a;
    register const void *x1 __asm__("x1") = at;
    register size_t x2 __asm__("x2") = n;
    __asm__ volatile("svc #0" : "+r"(x0) : "r"(x8), "r"(x1), "r"(x2) : "memory");
    return x0;
}
#endif

static inline void say(const char *words) {
    size_t n = 0;
    while (words[n])
        n++;
    system_call(WRITE, 1, words, n);
}

// The digits of x, at the end of 24 bytes.
static inline const char *number_in(char *digits, unsigned long x) {
    size_t at = 23;
    digits[at] = 0;
    do
        digits[--at] = '0' + x % 10;
    while (x /= 10);
    return digits + at;
}

static inline void say_number(unsigned long x) {
    char digits[24];
    say(number_in(digits, x));
}

// Fills n bytes from the input; 0 where it has fewer.
static inline int read_all(void *to, size_t n) {
    for (size_t had = 0; had < n;) {
        long got = system_call(READ, 0, (char *)to + had, n - had);
        if (got <= 0)
            return 0;
        had += got;
    }
    return 1;
}

// Eight bytes at once: memory is compared after every call.
static inline int same(const void *a, const void *b, size_t n) {
    typedef unsigned long __attribute__((may_alias, aligned(1))) Eight;
    const char *x = a, *y = b;
    size_t i = 0;
    for (; i + 8 <= n; i += 8)
        if (*(const Eight *)(x + i) != *(const Eight *)(y + i))
            return 0;
    for (; i < n; i++)
        if (x[i] != y[i])
            return 0;
    return 1;
}

static inline void stop(int status) {
    system_call(EXIT, status, 0, 0);
    __builtin_unreachable();
}

int main(void);

// What the start calls.
__attribute__((used)) static void run(void) { stop(main()); }
