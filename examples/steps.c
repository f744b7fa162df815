#include <stdio.h>

static inline __attribute__((always_inline)) long next(long n) {
    return n % 2 ? 3 * n + 1 : n / 2;
}

static __attribute__((noinline)) int steps(long n) {
    int count = 0;
    while (n != 1) {
        n = next(n);
        count++;
    }
    return count;
}

int main(void) {
    printf("%d\n", steps(27));
    return 0;
}
