static inline __attribute__((always_inline)) int f(int x)
{
    return x * x + 1;
}

int g(int x)
{
    return f(x) + 2;
}

/* a.o is this file, compiled by gcc 12 (-g -gdwarf-5 -O1 -fno-asynchronous-unwind-tables -ffile-prefix-map=$PWD=.),
   and a.elf the same, linked by ld (-N -Ttext=0x1000 -e g), both without .comment, .note.gnu.property and, in a.elf,
   .debug_loclists. split.elf and split.dwo are made likewise with -gsplit-dwarf, and other.dwo from other.c; cut.dwo
   is the first 700 bytes of split.dwo. symbols.elf is symbols.s, made by as and ld. */
