/* For c_interface.sh: calls each function of addr2line.h, over the files of crates/linemap_cases/data, and prints the answers.
 *
 *     c_interface DATA COUNT      COUNT is how often a file is opened and closed, and how many damaged files there are
 *     c_interface PLAIN PACKED SPLIT DWO STEP      PACKED is PLAIN with compressed sections, and DWO the split file of SPLIT so;
 *                                                  each STEPth address is asked
 *
 * Where memory is refused for a call, it is made again, so that the output is the same. It is C and C++.
 */
#include <addr2line.h>
#include <elf.h>
#include <fcntl.h>
#include <inttypes.h>
#include <stdio.h>
#include <stdlib.h>
#include <string.h>
#include <sys/mman.h>
#include <sys/resource.h>
#include <sys/stat.h>
#include <unistd.h>

static const a2l_loader closed = A2L_LOADER_INIT;
static const a2l_text no_text = A2L_TEXT_INIT;
static const a2l_location no_location = A2L_LOCATION_INIT;
static const a2l_frame no_frame = A2L_FRAME_INIT;
static const a2l_range no_range = A2L_RANGE_INIT;
static const a2l_symbol no_symbol = A2L_SYMBOL_INIT;
static const a2l_section no_section = A2L_SECTION_INIT;
static const a2l_load no_load = A2L_LOAD_INIT;
static const uint8_t *const nothing = (const uint8_t *)"";

/* Makes a call again where memory was refused for it. */
static int32_t is_refused(int32_t number) { return number == A2L_E1 || number == A2L_L1; }
#define AGAIN(call) (is_refused(number = (call)) ? (call) : number)

static int fail(const char *what) {
    printf("%s\n", what);
    exit(3);
}

/* ---- Files */

static const char *data;

static a2l_text map_of(const char *path) {
    a2l_text image = no_text;
    struct stat about;
    int file = open(path, O_RDONLY);
    if (file < 0 || fstat(file, &about) != 0) fail(path);
    void *map = mmap(NULL, (size_t)about.st_size, PROT_READ, MAP_PRIVATE, file, 0);
    if (map == MAP_FAILED) fail(path);
    close(file);
    image.ptr = (const uint8_t *)map;
    image.len = (size_t)about.st_size;
    return image;
}

static a2l_text file_of(const char *name) {
    char path[4096];
    snprintf(path, sizeof path, "%s/%s", data, name);
    return map_of(path);
}

static a2l_loader opened(const char *name) {
    a2l_loader loader = closed;
    a2l_text image = file_of(name);
    int32_t number = 0;
    number = AGAIN(a2l_open_in_place(image.ptr, image.len, &loader));
    if (number != A2L_OK || loader.opened != 1) fail(name);
    return loader;
}

/* ---- What is printed */

static void print_text(a2l_text text) { printf("%.*s", (int)text.len, (const char *)text.ptr); }

static void print_number(int32_t number) {
    a2l_text code = no_text;
    if (a2l_error_code(number, &code) == A2L_OK)
        print_text(code);
    else
        printf(number == A2L_OK ? "ok" : "unknown %" PRId32, number);
}

static void print_location(const a2l_location *location) {
    location->has_file ? print_text(location->file) : (void)printf("??");
    location->has_line ? printf(":%" PRIu32, location->line) : printf(":?");
    if (location->has_column) printf(":%" PRIu32, location->column);
    if (location->has_statement) printf(location->statement ? " statement" : " no statement");
    if (location->has_discriminator) printf(" discriminator %" PRIu64, location->discriminator);
    if (!location->has_file && location->file.len) fail("a file that isn't there has a text");
}

static void print_frame(const a2l_frame *frame) {
    frame->has_function ? print_text(frame->function) : (void)printf("??");
    printf(" at ");
    frame->has_location ? print_location(&frame->location) : (void)printf("none");
    if (frame->has_language) printf(" language %" PRIu16, frame->language);
    if (frame->has_entry_offset) printf(" entry");
    printf("\n");
}

static void ask_location(a2l_loader *loader, uint64_t address) {
    a2l_location location = no_location;
    int32_t number = 0;
    number = AGAIN(a2l_find_location(loader, address, &location));
    printf("location of 0x%" PRIx64 ": ", address);
    number == A2L_OK ? print_location(&location) : print_number(number);
    printf("\n");
}

static void ask_frames(a2l_loader *loader, uint64_t address, uint32_t names) {
    a2l_frame frame = no_frame, frames[2] = {no_frame, no_frame};
    size_t count = 7, written = 7;
    int32_t number = 0;
    number = AGAIN(a2l_find_frames(loader, address, names, &count));
    printf("frames of 0x%" PRIx64 ": ", address);
    print_number(number);
    printf(", %zu\n", count);
    for (size_t place = 0; place < count; place++) {
        if (a2l_get_frame(loader, place, &frame) != A2L_OK) fail("a frame is missing");
        printf("  ");
        print_frame(&frame);
        if (a2l_get_frames(loader, place, frames, 2, &written) != A2L_OK) fail("frames are missing");
        if (written != (count - place < 2 ? count - place : 2)) fail("another number of frames");
        if (frames[0].function.len != frame.function.len) fail("other frames");
    }
    if (a2l_get_frame(loader, count, &frame) != A2L_PAST_END) fail("a frame past the last");
    if (a2l_get_frame(loader, SIZE_MAX, &frame) != A2L_PAST_END) fail("a frame of the last number");
    written = 7;
    if (a2l_get_frames(loader, count, frames, 2, &written) != A2L_PAST_END || written != 0) fail("frames past the last");
}

static void ask_symbol(a2l_loader *loader, uint64_t address, uint32_t names) {
    a2l_symbol symbol = no_symbol;
    int32_t number = 0;
    number = AGAIN(a2l_find_symbol(loader, address, names, &symbol));
    printf("symbol of 0x%" PRIx64 ": ", address);
    number == A2L_OK ? print_text(symbol.name) : print_number(number);
    if (number == A2L_OK) printf(" from 0x%" PRIx64, symbol.address);
    printf("\n");
}

static void ask_section(a2l_loader *loader, const char *name) {
    a2l_section section = no_section;
    int32_t number = a2l_find_section(loader, (const uint8_t *)name, strlen(name), &section);
    printf("section '%s': ", name);
    if (number == A2L_OK)
        printf("[0x%" PRIx64 ", 0x%" PRIx64 ")", section.begin, section.end);
    else
        print_number(number);
    printf("\n");
}

/* All ranges between two addresses, some at a time. */
static void ask_ranges(a2l_loader *loader, uint64_t low, uint64_t high, size_t room) {
    a2l_range ranges[4] = {no_range, no_range, no_range, no_range};
    size_t count = 7;
    int32_t number = a2l_find_ranges(loader, low, high);
    printf("ranges from 0x%" PRIx64 " to 0x%" PRIx64 ", %zu at a time: ", low, high, room);
    print_number(number);
    printf("\n");
    for (;;) {
        number = AGAIN(a2l_next_ranges(loader, ranges, room, &count));
        if (number != A2L_OK) break;
        if (count == 0 || count > room) fail("another number of ranges");
        for (size_t place = 0; place < count; place++) {
            printf("  0x%" PRIx64 " %" PRIu64 " ", ranges[place].address, ranges[place].length);
            print_location(&ranges[place].location);
            printf("\n");
        }
    }
    if (count != 0) fail("ranges after the last");
    printf("  ");
    print_number(number);
    printf("\n");
}

/* ---- Loaders that aren't open */

static void call_all(const char *what, a2l_loader loader) {
    static const uint8_t name[] = ".text";
    a2l_location location = no_location;
    a2l_frame frame = no_frame;
    a2l_range range = no_range;
    a2l_symbol symbol = no_symbol;
    a2l_section section = no_section;
    a2l_load load = no_load;
    size_t counts[4] = {7, 7, 7, 7};
    int32_t numbers[] = {
        a2l_find_location(&loader, 0x1000, &location), a2l_find_ranges(&loader, 0, UINT64_MAX),
        a2l_next_ranges(&loader, &range, 1, &counts[0]), a2l_find_frames(&loader, 0x1000, A2L_RAW, &counts[1]),
        a2l_get_frame(&loader, 0, &frame), a2l_get_frames(&loader, 0, &frame, 1, &counts[2]),
        a2l_find_symbol(&loader, 0x1000, A2L_RAW, &symbol), a2l_find_section(&loader, name, 5, &section),
        a2l_find_loads(&loader, 0x1000, &counts[3]), a2l_get_load(&loader, 0, &load),
        a2l_answer_load(&loader, 0, name, 5), a2l_answer_load_in_place(&loader, 0, name, 5),
        a2l_skip_load(&loader, 0), a2l_close(&loader),
    };
    printf("%s:", what);
    for (size_t place = 0; place < sizeof numbers / sizeof *numbers; place++) {
        printf(" ");
        print_number(numbers[place]);
    }
    printf("; counts %zu %zu %zu %zu\n", counts[0], counts[1], counts[2], counts[3]);
}

static void not_open(void) {
    a2l_text image = file_of("a.elf");
    a2l_loader loader = closed, bad = closed;
    int32_t number = 0;
    bad.opened = 2;
    call_all("closed", closed);
    call_all("bad", bad);
    printf("opened twice: ");
    print_number(AGAIN(a2l_open(image.ptr, image.len, &loader)));
    printf(" ");
    print_number(a2l_open(image.ptr, image.len, &loader));
    printf(" ");
    print_number(a2l_open_in_place(image.ptr, image.len, &loader));
    printf(" ");
    print_number(a2l_open_with_sup(image.ptr, image.len, image.ptr, image.len, &loader));
    printf("\nopened bad: ");
    print_number(a2l_open_in_place_with_sup(image.ptr, image.len, image.ptr, image.len, &bad));
    printf("\nclosed twice: ");
    print_number(a2l_close(&loader));
    printf(" ");
    print_number(a2l_close(&loader));
    printf("\n");
    call_all("closed again", loader);
}

/* ---- Files that are refused */

static void refused(void) {
    static const struct {
        const char *name, *bytes;
        size_t len;
    } files[] = {
        {"empty", "", 0}, {"three bytes", "\177EL", 3}, {"a magic number", "\177ELF", 4}, {"a text", "{\"units\":[]}", 12}};
    a2l_text image = file_of("a.elf");
    for (size_t place = 0; place < sizeof files / sizeof *files; place++) {
        const uint8_t *bytes = (const uint8_t *)files[place].bytes;
        a2l_loader loader = closed;
        int32_t number = 0;
        printf("%s: ", files[place].name);
        print_number(AGAIN(a2l_open(bytes, files[place].len, &loader)));
        printf(" ");
        print_number(AGAIN(a2l_open_in_place(bytes, files[place].len, &loader)));
        printf(" as a supplement: ");
        print_number(AGAIN(a2l_open_with_sup(image.ptr, image.len, bytes, files[place].len, &loader)));
        printf(" ");
        if (loader.opened) a2l_close(&loader);
        print_number(AGAIN(a2l_open_in_place_with_sup(image.ptr, image.len, bytes, files[place].len, &loader)));
        if (loader.opened) a2l_close(&loader);
        printf(" opened %" PRIu32 "\n", loader.opened);
    }
}

/* Opens a file and asks what there is to ask; each number must be one of the header's. */
static void ask_all(const uint8_t *bytes, size_t len, size_t *are_open) {
    a2l_loader loader = closed;
    a2l_text code = no_text;
    a2l_location location = no_location;
    a2l_range range = no_range;
    a2l_frame frame = no_frame;
    a2l_symbol symbol = no_symbol;
    size_t count = 0;
    int32_t numbers[8] = {a2l_open_in_place(bytes, len, &loader), 0, 0, 0, 0, 0, 0, 0};
    if (numbers[0] == A2L_OK) {
        *are_open += 1;
        numbers[1] = a2l_find_location(&loader, 0x1003, &location);
        numbers[2] = a2l_find_frames(&loader, 0x1000, A2L_DEMANGLED, &count);
        for (size_t place = 0; place < count; place++)
            if (a2l_get_frame(&loader, place, &frame) != A2L_OK) fail("a frame is missing");
        numbers[3] = a2l_find_symbol(&loader, 0x1003, A2L_DEMANGLED, &symbol);
        numbers[4] = a2l_find_loads(&loader, 0x1003, &count);
        numbers[5] = a2l_find_ranges(&loader, 0, UINT64_MAX);
        for (int turn = 0; turn < 1000 && numbers[6] == A2L_OK; turn++) numbers[6] = a2l_next_ranges(&loader, &range, 1, &count);
        numbers[7] = a2l_close(&loader);
    }
    for (int place = 0; place < 8; place++)
        if (numbers[place] != A2L_OK && a2l_error_code(numbers[place], &code) != A2L_OK) fail("a number without a code");
}

static void damaged(size_t most) {
    a2l_text image = file_of("a.elf");
    uint8_t *bytes = (uint8_t *)malloc(image.len);
    uint64_t state = 1;
    size_t are_open = 0, count = 0;
    if (bytes == NULL) return;
    for (size_t len = 0; len < image.len; len += image.len > most ? image.len / most + 1 : 1, count++) {
        memcpy(bytes, image.ptr, len);
        ask_all(bytes, len, &are_open);
    }
    for (size_t number = 0; number < most; number++) {
        memcpy(bytes, image.ptr, image.len);
        for (size_t change = 0; change <= number % 8; change++) {
            state = state * 6364136223846793005u + 1442695040888963407u;
            bytes[(state >> 33) % image.len] ^= (uint8_t)(1u << (state >> 20) % 8);
        }
        ask_all(bytes, image.len, &are_open);
    }
    free(bytes);
    if (are_open == 0) fail("none of the damaged files is opened");
    printf("damaged files: each is answered or refused\n");
}

/* ---- Files that are answered */

static void answers(void) {
    a2l_loader loader = opened("a.elf"), other = opened("symbols.elf");
    a2l_range range = no_range;
    a2l_frame frame = no_frame;
    size_t count = 7;
    static const uint64_t addresses[] = {0xfff, 0x1000, 0x1003, 0x1006, 0x1007, 0, UINT64_MAX};
    printf("before a walk: ");
    print_number(a2l_next_ranges(&loader, &range, 1, &count));
    printf(" %zu\n", count);
    for (size_t place = 0; place < sizeof addresses / sizeof *addresses; place++) {
        ask_location(&loader, addresses[place]);
        ask_frames(&loader, addresses[place], place % 2 ? A2L_RAW : A2L_DEMANGLED);
        /* (the other is asked in between) */
        ask_symbol(&other, 0x1000 + 4 * place, place % 2 ? A2L_DEMANGLED : 99);
    }
    ask_ranges(&loader, 0, UINT64_MAX, 1);
    ask_ranges(&loader, 0, UINT64_MAX, 4);
    ask_ranges(&loader, 0x1003, 0x1004, 2);
    ask_ranges(&loader, 0x1004, 0x1003, 2);
    ask_ranges(&other, 0, UINT64_MAX, 4);
    a2l_find_ranges(&loader, 0, UINT64_MAX);
    printf("no room: ");
    print_number(a2l_next_ranges(&loader, &range, 0, &count));
    printf(" %zu ", count);
    print_number(a2l_get_frames(&loader, 0, &frame, 0, &count));
    printf(" %zu\n", count);
    ask_section(&loader, ".text");
    ask_section(&loader, "");
    ask_section(&loader, ".text.");
    a2l_close(&other);
    ask_location(&loader, 0x1000);
    a2l_close(&loader);
}

/* What was found stays, and a walk goes on, whatever is asked between. */
static void ask_between(void) {
    a2l_loader loader = opened("a.elf"), split = opened("split.elf");
    a2l_location location = no_location;
    a2l_range range = no_range;
    a2l_frame frame = no_frame;
    a2l_symbol symbol = no_symbol;
    a2l_section section = no_section;
    a2l_load load = no_load;
    size_t frames = 0, ranges = 0, loads = 0;
    int32_t number = 0;
    number = AGAIN(a2l_find_frames(&loader, 0x1000, A2L_RAW, &frames));
    if (number != A2L_OK || frames != 2) fail("other frames");
    a2l_find_ranges(&loader, 0, UINT64_MAX);
    for (uint64_t place = 0; place < 3; place++) {
        number = AGAIN(a2l_next_ranges(&loader, &range, 1, &ranges));
        if (number != A2L_OK || ranges != 1 || range.address != 0x1000 + 3 * place) fail("another range");
        number = AGAIN(a2l_find_location(&loader, 0x1006, &location));
        if (number != A2L_OK || location.line != 9) fail("another location");
        number = AGAIN(a2l_find_symbol(&loader, 0x1003, A2L_DEMANGLED, &symbol));
        if (number != A2L_OK) fail("another symbol");
        if (a2l_find_section(&loader, (const uint8_t *)".text", 5, &section) != A2L_OK) fail("another section");
        number = AGAIN(a2l_find_loads(&loader, 0x1000, &loads));
        if (number != A2L_OK || loads != 0) fail("other loads");
        if (a2l_get_frame(&loader, 1, &frame) != A2L_OK || frame.function.len != 1 || frame.function.ptr[0] != 'g')
            fail("another frame");
    }
    number = AGAIN(a2l_find_loads(&split, 0x1000, &loads));
    if (number != A2L_OK || loads != 1) fail("other loads");
    a2l_find_ranges(&split, 0, UINT64_MAX);
    number = AGAIN(a2l_next_ranges(&split, &range, 1, &ranges));
    number = AGAIN(a2l_find_location(&split, 0x1003, &location));
    if (a2l_get_load(&split, 0, &load) != A2L_OK || load.name.len != 9) fail("another load");
    a2l_close(&split);
    a2l_close(&loader);
    printf("what was found stays, whatever is asked between\n");
}

static void copies(void) {
    a2l_text image = file_of("a.elf");
    uint8_t *bytes = (uint8_t *)malloc(image.len);
    a2l_loader loader = closed;
    int32_t number = 0;
    if (bytes == NULL) bytes = (uint8_t *)malloc(image.len);
    memcpy(bytes, image.ptr, image.len);
    printf("a copy, of bytes that have gone: ");
    print_number(AGAIN(a2l_open(bytes, image.len, &loader)));
    printf("\n");
    memset(bytes, 0xff, image.len);
    free(bytes);
    ask_frames(&loader, 0x1000, A2L_RAW);
    a2l_close(&loader);
}

static void supplements(void) {
    a2l_text image = file_of("refers.elf"), sup = file_of("supplement.elf");
    a2l_loader loader = closed;
    int32_t number = 0;
    for (int way = 0; way < 3; way++) {
        printf("%s: ", way == 0 ? "without its supplement" : way == 1 ? "with it" : "with it, in place");
        print_number(way == 0   ? AGAIN(a2l_open(image.ptr, image.len, &loader))
                     : way == 1 ? AGAIN(a2l_open_with_sup(image.ptr, image.len, sup.ptr, sup.len, &loader))
                                : AGAIN(a2l_open_in_place_with_sup(image.ptr, image.len, sup.ptr, sup.len, &loader)));
        printf("\n");
        if (loader.opened) ask_frames(&loader, 0x40, A2L_RAW);
        if (loader.opened) a2l_close(&loader);
    }
}

/* ---- Files that are opened by flags */

static int32_t open_with(a2l_text image, a2l_text sup, uint32_t flags, a2l_loader *loader) {
    int32_t number = 0;
    return AGAIN(a2l_open_with(image.ptr, image.len, sup.ptr, sup.len, flags, loader));
}

static void flags(void) {
    a2l_text image = file_of("refers.elf"), sup = file_of("supplement.elf"), text = file_of("a.json");
    a2l_loader loader = closed, bad = closed;
    static const uint32_t unknown[] = {8, 9, 16, 0x80000000, UINT32_MAX};
    for (uint32_t flags = 0; flags < 8; flags++) {
        /* (what has no flag isn't read) */
        int32_t number = open_with(image, flags & A2L_SUP ? sup : text, flags, &loader);
        printf("flags %" PRIu32 ": ", flags);
        print_number(number);
        printf("\n");
        ask_frames(&loader, 0x40, A2L_RAW);
        a2l_close(&loader);
    }
    printf("a text: ");
    print_number(open_with(text, no_text, A2L_DECOMPRESS, &loader));
    printf(" as a supplement: ");
    print_number(open_with(image, text, A2L_SUP, &loader));
    printf(" ");
    print_number(open_with(image, text, A2L_SUP | A2L_DECOMPRESS, &loader));
    printf("\nunknown flags:");
    for (size_t place = 0; place < sizeof unknown / sizeof *unknown; place++) {
        printf(" ");
        print_number(a2l_open_with(text.ptr, text.len, nothing, 0, unknown[place], &loader));
        if (loader.opened) fail("opened by an unknown flag");
    }
    printf("\nnot closed: ");
    print_number(open_with(image, no_text, A2L_IN_PLACE, &loader));
    printf(" ");
    print_number(a2l_open_with(image.ptr, image.len, nothing, 0, 8, &loader));
    bad.opened = 2;
    printf(" ");
    print_number(a2l_open_with(image.ptr, image.len, nothing, 0, 0, &bad));
    printf(" ");
    print_number(a2l_close(&loader));
    printf("\n");
}

/* ---- Files whose sections are compressed */

static int is_same_text(a2l_text one, a2l_text other) { return one.len == other.len && memcmp(one.ptr, other.ptr, one.len) == 0; }

static int is_same_place(const a2l_location *one, const a2l_location *other) {
    return is_same_text(one->file, other->file) && one->line == other->line && one->column == other->column &&
           one->has_file == other->has_file && one->has_line == other->has_line && one->discriminator == other->discriminator;
}

/* Both have the same places, frames, symbols and stretches; the number of frames. */
static size_t compare_answers(a2l_loader *one, a2l_loader *other, uint64_t step) {
    a2l_section text = no_section, other_text = no_section;
    size_t sum = 0;
    if (a2l_find_section(one, (const uint8_t *)".text", 5, &text) != A2L_OK) fail("no .text");
    if (a2l_find_section(other, (const uint8_t *)".text", 5, &other_text) != A2L_OK) fail("no .text where it was compressed");
    if (text.begin != other_text.begin || text.end != other_text.end) fail("another .text");
    for (uint64_t address = text.begin; address < text.end; address += step) {
        a2l_location place = no_location, other_place = no_location;
        a2l_symbol symbol = no_symbol, other_symbol = no_symbol;
        size_t count = 0, other_count = 0;
        int32_t number = 0, of_one = AGAIN(a2l_find_location(one, address, &place));
        int32_t of_other = AGAIN(a2l_find_location(other, address, &other_place));
        if (of_one != of_other || !is_same_place(&place, &other_place)) fail("another place");
        of_one = AGAIN(a2l_find_frames(one, address, A2L_RAW, &count));
        of_other = AGAIN(a2l_find_frames(other, address, A2L_RAW, &other_count));
        if (of_one != of_other || count != other_count) fail("other frames");
        for (size_t place_in = 0; place_in < count; place_in++) {
            a2l_frame frame = no_frame, other_frame = no_frame;
            if (a2l_get_frame(one, place_in, &frame) != A2L_OK) fail("a frame is missing");
            if (a2l_get_frame(other, place_in, &other_frame) != A2L_OK) fail("another frame is missing");
            if (!is_same_text(frame.function, other_frame.function)) fail("another function");
            if (!is_same_place(&frame.location, &other_frame.location)) fail("another place of a frame");
            sum += frame.has_function;
        }
        of_one = a2l_find_symbol(one, address, A2L_RAW, &symbol);
        of_other = a2l_find_symbol(other, address, A2L_RAW, &other_symbol);
        if (of_one != of_other || !is_same_text(symbol.name, other_symbol.name)) fail("another symbol");
    }
    return sum;
}

/* The first section that is compressed. */
static Elf64_Shdr *compressed_section(uint8_t *image) {
    Elf64_Ehdr *header = (Elf64_Ehdr *)image;
    Elf64_Shdr *sections = (Elf64_Shdr *)(image + header->e_shoff);
    for (size_t place = 0; place < header->e_shnum; place++)
        if (sections[place].sh_flags & SHF_COMPRESSED) return &sections[place];
    fail("no section is compressed");
    return NULL;
}

/* A file is damaged where its sections are compressed, refused, and opened once it is mended. */
static void damage_packed(a2l_text packed) {
    static const char *const damage[] = {"none", "stream", "size", "header", "past the end", "zstd", "another kind"};
    uint8_t *bytes = NULL;
    while (bytes == NULL) bytes = (uint8_t *)malloc(packed.len);
    for (int kind = 0; kind < 7; kind++) {
        a2l_loader loader = closed;
        a2l_text image = {bytes, packed.len};
        memcpy(bytes, packed.ptr, packed.len);
        Elf64_Shdr *section = compressed_section(bytes);
        Elf64_Chdr *header = (Elf64_Chdr *)(bytes + section->sh_offset);
        if (kind == 1) bytes[section->sh_offset + sizeof *header] ^= 0xff;
        if (kind == 2) header->ch_size = UINT64_MAX / 2;
        if (kind == 3) section->sh_size = sizeof *header - 1;
        if (kind == 4) section->sh_size = packed.len;
        if (kind == 5) header->ch_type = 2;
        if (kind == 6) header->ch_type = 99;
        printf("damage: %s: ", damage[kind]);
        print_number(open_with(image, no_text, A2L_DECOMPRESS, &loader));
        printf(" ");
        if (loader.opened) a2l_close(&loader);
        print_number(open_with(image, no_text, A2L_DECOMPRESS | A2L_IN_PLACE, &loader));
        printf(" as a supplement: ");
        if (loader.opened) a2l_close(&loader);
        print_number(open_with(packed, image, A2L_DECOMPRESS | A2L_SUP, &loader));
        if (loader.opened) a2l_close(&loader);
        printf(" without the flag: ");
        print_number(open_with(image, no_text, 0, &loader));
        printf("\n");
        if (loader.opened) fail("opened without the flag");
        if (open_with(packed, no_text, A2L_DECOMPRESS, &loader) != A2L_OK) fail("not opened once it is mended");
        a2l_close(&loader);
    }
    free(bytes);
}

static void compressed(const char *plain_path, const char *packed_path, uint64_t step) {
    a2l_text plain = map_of(plain_path), packed = map_of(packed_path);
    static const uint32_t ways[] = {A2L_DECOMPRESS, A2L_DECOMPRESS | A2L_IN_PLACE};
    a2l_loader one = closed, other = closed;
    printf("compressed: ");
    print_number(open_with(packed, no_text, 0, &other));
    printf(" ");
    print_number(open_with(packed, no_text, A2L_IN_PLACE, &other));
    printf("\n");
    if (open_with(plain, no_text, 0, &one) != A2L_OK) fail(plain_path);
    for (size_t way = 0; way < 4; way++) {
        uint32_t flags = ways[way % 2];
        a2l_text image = way < 2 ? packed : plain;
        uint8_t *bytes = NULL;
        if (!(flags & A2L_IN_PLACE)) {
            while (bytes == NULL) bytes = (uint8_t *)malloc(image.len);
            memcpy(bytes, image.ptr, image.len);
            image.ptr = bytes;
        }
        if (open_with(image, no_text, flags, &other) != A2L_OK) fail(packed_path);
        if (bytes) memset(bytes, 0xff, image.len);
        free(bytes);
        if (compare_answers(&one, &other, step) == 0) fail("no function has a name");
        a2l_close(&other);
    }
    a2l_close(&one);
    printf("the same answers, compressed or not\n");
    damage_packed(packed);
}

/* A unit's split file, compressed. */
static void compressed_split(const char *path, const char *packed_path) {
    a2l_text image = map_of(path), packed = map_of(packed_path);
    for (uint32_t flags = 0; flags <= A2L_DECOMPRESS; flags += A2L_DECOMPRESS)
        for (int is_in_place = 0; is_in_place < 2; is_in_place++) {
            a2l_loader loader = closed;
            a2l_range range = no_range;
            size_t count = 0, written = 0;
            int32_t number = open_with(image, no_text, flags | A2L_IN_PLACE, &loader);
            if (number != A2L_OK) fail(path);
            a2l_find_ranges(&loader, 0, UINT64_MAX);
            number = AGAIN(a2l_next_ranges(&loader, &range, 1, &written));
            number = AGAIN(a2l_find_loads(&loader, range.address, &count));
            if (number != A2L_OK || count != 1) fail("no load");
            printf("a split file that is compressed, flags %" PRIu32 ": ", flags);
            print_number(is_in_place ? AGAIN(a2l_answer_load_in_place(&loader, 0, packed.ptr, packed.len))
                                     : AGAIN(a2l_answer_load(&loader, 0, packed.ptr, packed.len)));
            number = AGAIN(a2l_find_frames(&loader, range.address, A2L_RAW, &count));
            a2l_frame frame = no_frame;
            a2l_get_frame(&loader, 0, &frame);
            printf(frame.has_function ? ", and has functions\n" : "\n");
            a2l_close(&loader);
        }
}

static void split_file(const char *brought, int is_in_place) {
    a2l_loader loader = opened("split.elf");
    a2l_load load = no_load;
    size_t count = 7;
    int32_t number = 0;
    number = AGAIN(a2l_find_loads(&loader, 0x1000, &count));
    printf("loads of 0x1000: ");
    print_number(number);
    printf(", %zu\n", count);
    for (size_t place = 0; place < count; place++) {
        number = a2l_get_load(&loader, place, &load);
        printf("  ");
        print_number(number);
        printf(" '");
        if (load.has_directory) print_text(load.directory);
        printf("' '");
        if (load.has_name) print_text(load.name);
        printf("' 0x%" PRIx64 "\n", load.id);
    }
    printf("  past the last: ");
    print_number(a2l_get_load(&loader, count, &load));
    printf(" ");
    print_number(a2l_skip_load(&loader, count));
    printf(" ");
    print_number(a2l_answer_load(&loader, count, nothing, 0));
    printf("\n  empty: ");
    print_number(AGAIN(a2l_answer_load_in_place(&loader, 0, nothing, 0)));
    if (brought) {
        a2l_text bytes = file_of(brought);
        printf("\n  %s: ", brought);
        print_number(is_in_place ? AGAIN(a2l_answer_load_in_place(&loader, 0, bytes.ptr, bytes.len))
                                 : AGAIN(a2l_answer_load(&loader, 0, bytes.ptr, bytes.len)));
    } else {
        printf("\n  skipped: ");
        print_number(AGAIN(a2l_skip_load(&loader, 0)));
    }
    printf("\n");
    ask_frames(&loader, 0x1000, A2L_RAW);
    ask_location(&loader, 0x1003);
    number = AGAIN(a2l_find_loads(&loader, 0x1000, &count));
    printf("loads after it: %zu\n", count);
    a2l_close(&loader);
}

/* Both texts of a number; where it has none, none is written. */
static void ask_texts(int32_t number) {
    a2l_text code = no_text, sentence = no_text;
    int32_t found = a2l_error_text(number, &code, &sentence);
    printf("texts of %" PRId32 ": ", number);
    print_number(found);
    if (found == A2L_OK) {
        printf(", '");
        print_text(code);
        printf("' '");
        print_text(sentence);
        printf("'");
    } else if (code.ptr != no_text.ptr || sentence.ptr != no_text.ptr) {
        fail("a text is written");
    }
    printf("\n");
}

/* Each refusal has a code and a sentence, no other number has. */
static void refusals(void) {
    static const int32_t kinds[] = {A2L_OK, A2L_CLOSED, A2L_E16, A2L_L6, A2L_L8 + 16, A2L_Z9, A2L_L8, -1};
    a2l_text code = no_text, sentence = no_text, code_of_both = no_text, sentence_of_both = no_text;
    int last = -1000, count = 0;
    for (size_t place = 0; place < sizeof kinds / sizeof *kinds; place++) ask_texts(kinds[place]);
    for (int32_t number = -500; number <= 500; number++) {
        int has_code = a2l_error_code(number, &code) == A2L_OK;
        int has_sentence = a2l_error_sentence(number, &sentence) == A2L_OK;
        int has_both = a2l_error_text(number, &code_of_both, &sentence_of_both) == A2L_OK;
        if (has_code != has_sentence || has_code != has_both) fail("a code without a sentence");
        if (!has_code) continue;
        if (!is_same_text(code, code_of_both) || !is_same_text(sentence, sentence_of_both)) fail("two texts of a number");
        if (sentence.len < 8 || sentence.ptr[sentence.len - 1] == '.') fail("no sentence");
        if (number != last + 1) printf("%" PRId32 " ", number);
        last = number;
        count++;
    }
    printf("begin the numbers with a sentence, %d in all\n", count);
    if (a2l_error_code(INT32_MIN, &code) != A2L_NOT_FOUND || a2l_error_sentence(INT32_MAX, &code) != A2L_NOT_FOUND)
        fail("a text for an extreme number");
}

static long peak_memory(void) {
    struct rusage usage;
    return getrusage(RUSAGE_SELF, &usage) == 0 ? usage.ru_maxrss : 0;
}

static void many(size_t count) {
    a2l_text image = file_of("a.elf");
    a2l_loader loader = closed;
    size_t frames = 0;
    int32_t number = 0;
    long peak = 0;
    for (size_t turn = 0; turn < count; turn++) {
        if (turn == count / 10) peak = peak_memory();
        number = turn % 2 ? AGAIN(a2l_open(image.ptr, image.len, &loader))
                          : AGAIN(a2l_open_in_place(image.ptr, image.len, &loader));
        if (number != A2L_OK) fail("not opened");
        number = AGAIN(a2l_find_frames(&loader, 0x1000, A2L_RAW, &frames));
        if (number != A2L_OK || frames != 2) fail("other frames");
        if (a2l_close(&loader) != A2L_OK || loader.opened) fail("not closed");
    }
    if (peak_memory() > peak + 8192) fail("memory grows");
    printf("opened and closed again and again\n");
}

int main(int argc, char **argv) {
    if (argc == 6) {
        compressed(argv[1], argv[2], strtoul(argv[5], NULL, 10));
        compressed_split(argv[3], argv[4]);
        return 0;
    }
    if (argc != 3) return 2;
    data = argv[1];
    size_t count = strtoul(argv[2], NULL, 10);
    not_open();
    refused();
    answers();
    ask_between();
    copies();
    supplements();
    flags();
    split_file("split.dwo", 0);
    split_file("split.dwo", 1);
    split_file("other.dwo", 0);
    split_file("cut.dwo", 1);
    split_file(NULL, 0);
    refusals();
    if (count > 0) damaged(count / 4 + 1);
    if (count > 0) many(count);
    return 0;
}
