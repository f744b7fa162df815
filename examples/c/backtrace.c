/* backtrace: a program that prints its own stack, with the calls that are inlined.
 *
 *     cc -g -O2 -o backtrace backtrace.c $(pkg-config --cflags --libs addr2line)
 *     ./backtrace
 *
 * print_stack() is what another program would take over: it maps the program's own file, which has its debug information, and
 * copies nothing. Frames of shared libraries are given by their file's name alone.
 */
#ifndef _GNU_SOURCE
#define _GNU_SOURCE
#endif
#include <addr2line.h>
#include <execinfo.h>
#include <fcntl.h>
#include <inttypes.h>
#include <link.h>
#include <stdio.h>
#include <string.h>
#include <sys/mman.h>
#include <sys/stat.h>
#include <unistd.h>

enum { MOST_FRAMES = 64 };

/* ---- Where an address is */

typedef struct {
    uintptr_t address;
    int number;       /* of the objects so far; the first is the program itself */
    int is_program;
    uintptr_t bias;   /* the difference between where the object is mapped and where it is linked to run */
    const char *name; /* NULL where no object has the address */
} object_of;

static int look_at_object(struct dl_phdr_info *object, size_t size, void *data) {
    object_of *found = (object_of *)data;
    (void)size;
    for (int part = 0; part < object->dlpi_phnum; part++) {
        const ElfW(Phdr) *segment = &object->dlpi_phdr[part];
        if (segment->p_type == PT_LOAD && found->address - object->dlpi_addr - segment->p_vaddr < segment->p_memsz) {
            found->is_program = found->number == 0;
            found->bias = object->dlpi_addr;
            found->name = object->dlpi_name;
            return 1;
        }
    }
    found->number++;
    return 0;
}

/* ---- What is printed */

static void print_name(const char *before, const a2l_text *name) {
    printf("%s%.*s", before, (int)name->len, (const char *)name->ptr);
}

static void print_place(const a2l_location *place) {
    if (place->has_file) print_name(" at ", &place->file);
    if (place->has_line) printf(":%" PRIu32, place->line);
    if (place->has_line && place->has_column) printf(":%" PRIu32, place->column);
    putchar('\n');
}

/* Prints the frames of an address of the program, or its symbol where there is no debug information. */
static void print_frames(a2l_loader *loader, int level, uint64_t address) {
    static const a2l_text unknown = {(const uint8_t *)"??", 2};
    a2l_frame frame = A2L_FRAME_INIT;
    a2l_symbol symbol = A2L_SYMBOL_INIT;
    size_t count = 0;
    a2l_find_frames(loader, address, A2L_DEMANGLED, &count);
    for (size_t number = 0; number < count && a2l_get_frame(loader, number, &frame) == A2L_OK; number++) {
        number == 0 ? (void)printf("#%-3d", level) : (void)printf("    ");
        print_name("", frame.has_function ? &frame.function : &unknown);
        if (number + 1 < count) printf(" (inlined)");
        print_place(&frame.location);
    }
    if (count == 0) {
        printf("#%-3d", level);
        print_name("", a2l_find_symbol(loader, address, A2L_DEMANGLED, &symbol) == A2L_OK ? &symbol.name : &unknown);
        putchar('\n');
    }
}

/* ---- The stack */

/* Maps the program's own file, and opens it, decompressed if it needs that. The map stays as long as the loader. */
static int open_program(a2l_loader *loader, void **map, size_t *size) {
    struct stat about;
    int file = open("/proc/self/exe", O_RDONLY), is_mapped;
    if (file < 0) return 0;
    is_mapped = fstat(file, &about) == 0;
    if (is_mapped) {
        *size = (size_t)about.st_size;
        *map = mmap(NULL, *size, PROT_READ, MAP_PRIVATE, file, 0);
        is_mapped = *map != MAP_FAILED;
    }
    close(file);
    if (!is_mapped) return 0;
    int32_t why = a2l_open_with((const uint8_t *)*map, *size, (const uint8_t *)"", 0, A2L_IN_PLACE | A2L_DECOMPRESS, loader);
    if (why != A2L_OK) munmap(*map, *size);
    return why == A2L_OK;
}

/* Prints the stack of the caller, from the innermost call on. */
static void __attribute__((noinline)) print_stack(void) {
    void *addresses[MOST_FRAMES], *map;
    int count = backtrace(addresses, MOST_FRAMES);
    a2l_loader loader = A2L_LOADER_INIT;
    size_t size;
    if (!open_program(&loader, &map, &size)) {
        puts("no debug information");
        return;
    }
    for (int level = 1; level < count; level++) {
        /* (where a call returns to is the instruction after it) */
        object_of found = {(uintptr_t)addresses[level] - 1, 0, 0, 0, NULL};
        dl_iterate_phdr(look_at_object, &found);
        if (found.is_program)
            print_frames(&loader, level, found.address - found.bias);
        else
            printf("#%-3d?? in %s\n", level, found.name ? found.name : "no file");
    }
    a2l_close(&loader);
    munmap(map, size);
}

/* ---- A stack to print */

static inline __attribute__((always_inline)) int measure(int number) {
    print_stack();
    return number + 1;
}

static inline __attribute__((always_inline)) int measure_twice(int number) {
    return 2 * measure(number);
}

static int __attribute__((noinline)) work(int number) {
    int measured = measure_twice(number);
    return measured + number;
}

int main(int argc, char **argv) {
    (void)argv;
    return work(argc) > 0 ? 0 : 1;
}
