static inline __attribute__((always_inline)) int f(int x)
{
    return x * x + 1;
}

int g(int x)
{
    return f(x) + 2;
}

/* a.elf is this file in /w, compiled by gcc 12 (-g -gdwarf-5 -O1 -fno-asynchronous-unwind-tables), linked by
   ld (-N -Ttext=0x1000 -e g), without .comment, .note.gnu.property and .debug_loclists. */
