/* addr2line: the files, lines and functions of addresses of an ELF file, as `linemap lookup` prints them.
 *
 *     cc -O2 -o addr2line addr2line.c $(pkg-config --cflags --libs addr2line)
 *     ./addr2line -e FILE [-afipsC] [--all | ADDRESS..]
 *
 * Addresses are hexadecimal, and come from the standard input where none is given; then each answer is written before
 * the program waits for more, as `perf` needs it. The file is mapped, and nothing of it is copied unless sections of it are
 * compressed (gcc -gz): these are always decompressed. Split files (.dwo) are looked for where the file says, mapped, and
 * decompressed too. `--all` prints all places of the file, one for each address that begins one.
 *
 * The form is that of GNU's command of this name. What differs from it: -C demangles names of Rust's legacy mangling alone, and
 * none of C++; the last function of an address has the name of the symbol that holds it; where nothing is known, -pf prints
 * `?? at ??:0`, where GNU's prints `?? ??:0`; -a prints 16 digits also for files of 32 bits.
 */
#include <addr2line.h>
#include <errno.h>
#include <fcntl.h>
#include <getopt.h>
#include <inttypes.h>
#include <stdio.h>
#include <stdlib.h>
#include <string.h>
#include <sys/mman.h>
#include <sys/stat.h>
#include <unistd.h>

static const struct option LONG_OPTIONS[] = {
    {"exe", required_argument, NULL, 'e'}, {"addresses", no_argument, NULL, 'a'}, {"functions", no_argument, NULL, 'f'},
    {"inlines", no_argument, NULL, 'i'},   {"pretty-print", no_argument, NULL, 'p'}, {"basenames", no_argument, NULL, 's'},
    {"demangle", optional_argument, NULL, 'C'}, {"all", no_argument, NULL, 'A'},  {NULL, 0, NULL, 0},
};

static struct {
    const char *file;
    int addresses, functions, inlines, pretty, basenames, all;
    uint32_t names;
} options = {"a.out", 0, 0, 0, 0, 0, 0, A2L_RAW};

static a2l_loader loader = A2L_LOADER_INIT;

/* ---- Refusals */

static void say_refusal(const char *what, int32_t why) {
    a2l_text code = A2L_TEXT_INIT, sentence = A2L_TEXT_INIT;
    a2l_error_text(why, &code, &sentence);
    fprintf(stderr, "addr2line: %s: %.*s: %.*s\n", what, (int)code.len, (const char *)code.ptr, (int)sentence.len,
            (const char *)sentence.ptr);
}

static void say_refused_address(uint64_t address, int32_t why) {
    char what[24];
    snprintf(what, sizeof what, "0x%" PRIx64, address);
    say_refusal(what, why);
}

/* ---- Files */

/* Maps a file. Nothing is ever unmapped: the loader reads it until the program ends. */
static int map_file(const char *path, a2l_text *image) {
    static const a2l_text empty = A2L_TEXT_INIT;
    struct stat about;
    int file = open(path, O_RDONLY | O_NONBLOCK);
    *image = empty;
    if (file < 0) return 0;
    int is_regular = fstat(file, &about) == 0 && S_ISREG(about.st_mode);
    if (is_regular && about.st_size > 0) {
        void *map = mmap(NULL, (size_t)about.st_size, PROT_READ, MAP_PRIVATE, file, 0);
        is_regular = map != MAP_FAILED;
        if (is_regular) {
            image->ptr = (const uint8_t *)map;
            image->len = (size_t)about.st_size;
        }
    }
    if (!is_regular && errno == 0) errno = S_ISDIR(about.st_mode) ? EISDIR : EINVAL;
    close(file);
    return is_regular;
}

/* Answers a split file that an address waits for by its bytes, if they are found, or else by none. A refusal of what is in
 * them comes again with the frames, but for that of memory. */
static void bring_load(size_t number) {
    a2l_load load = A2L_LOAD_INIT;
    a2l_text image;
    char path[4096];
    if (a2l_get_load(&loader, number, &load) != A2L_OK) return;
    int is_absolute = load.name.len > 0 && load.name.ptr[0] == '/';
    int directory = is_absolute || !load.has_directory ? 0 : (int)load.directory.len;
    int length = snprintf(path, sizeof path, "%.*s%s%.*s", directory, (const char *)load.directory.ptr, directory ? "/" : "",
                          (int)load.name.len, (const char *)load.name.ptr);
    if (load.has_name && length > 0 && (size_t)length < sizeof path && map_file(path, &image)) {
        int32_t why = a2l_answer_load_in_place(&loader, number, image.ptr, image.len);
        if (why == A2L_E1) say_refusal(path, why);
        if (why != A2L_WRONG_FILE) return;
    }
    a2l_skip_load(&loader, number);
}

static void bring_loads(uint64_t address) {
    size_t count = 0;
    int32_t why = a2l_find_loads(&loader, address, &count);
    if (why != A2L_OK) say_refused_address(address, why);
    for (size_t number = 0; number < count; number++) bring_load(number);
}

/* ---- Printing */

/* Text that is still to be written. (`printf` of a place takes longer than finding it.) */
static struct {
    char bytes[65536];
    size_t len;
} text_out;

static void write_out(void) {
    fwrite(text_out.bytes, 1, text_out.len, stdout);
    fflush(stdout);
    text_out.len = 0;
}

static void put_bytes(const void *bytes, size_t len) {
    if (len > sizeof text_out.bytes - text_out.len) write_out();
    if (len > sizeof text_out.bytes) {
        fwrite(bytes, 1, len, stdout);
        return;
    }
    memcpy(text_out.bytes + text_out.len, bytes, len);
    text_out.len += len;
}

static void put_text(a2l_text text) { put_bytes(text.ptr, text.len); }

static void put_string(const char *text) { put_bytes(text, strlen(text)); }

/* A number of at least so many digits. */
static void put_number(uint64_t number, unsigned base, size_t digits) {
    char text[20], *first = text + sizeof text;
    do {
        *--first = "0123456789abcdef"[number % base];
        number /= base;
    } while (number > 0 || first > text + sizeof text - digits);
    put_bytes(first, (size_t)(text + sizeof text - first));
}

static void put_file(a2l_text file) {
    for (size_t at = file.len; options.basenames && at > 0; at--)
        if (file.ptr[at - 1] == '/' && at < file.len) {
            file.ptr += at;
            file.len -= at;
            break;
        }
    put_text(file);
}

/* The place of a frame or an address, where there is one. */
static void put_place(const a2l_location *place) {
    if (place == NULL) {
        put_string("??:0\n");
        return;
    }
    place->has_file ? put_file(place->file) : put_string("??");
    put_string(":");
    place->has_line ? put_number(place->line, 10, 1) : put_string("?");
    if (place->has_discriminator && place->discriminator > 0) {
        put_string(" (discriminator ");
        put_number(place->discriminator, 10, 1);
        put_string(")");
    }
    put_string("\n");
}

static void put_address(uint64_t address) {
    if (!options.addresses) return;
    put_string("0x");
    put_number(address, 16, 16);
    put_string(options.pretty ? ": " : "\n");
}

static void put_name(const a2l_text *name) {
    if (!options.functions) return;
    name ? put_text(*name) : put_string("??");
    put_string(options.pretty ? " at " : "\n");
}

/* ---- Answers */

/* A frame. The last one has the name of the symbol that holds the address, if there is one: that of a linker is whole where a
 * compiler's may be cut short. What a call lends stays until the next call, so the name is printed before the place is asked. */
static void put_frame(uint64_t address, size_t number, int is_last) {
    static const a2l_frame none = A2L_FRAME_INIT;
    static const a2l_symbol no_symbol = A2L_SYMBOL_INIT;
    a2l_frame frame = none;
    a2l_symbol symbol = no_symbol;
    int32_t why = A2L_NOT_FOUND;
    if (options.functions && is_last) why = a2l_find_symbol(&loader, address, options.names, &symbol);
    if (why == A2L_E1) say_refused_address(address, why);
    if (why == A2L_OK) put_name(&symbol.name);
    int has_frame = a2l_get_frame(&loader, number, &frame) == A2L_OK;
    if (why != A2L_OK) put_name(has_frame && frame.has_function ? &frame.function : NULL);
    put_place(has_frame && frame.has_location ? &frame.location : NULL);
}

static void answer_frames(uint64_t address) {
    size_t count = 0, number = 0;
    bring_loads(address);
    int32_t why = a2l_find_frames(&loader, address, options.names, &count);
    if (why != A2L_OK) say_refused_address(address, why);
    do {
        if (number > 0 && options.pretty) put_string(" (inlined by) ");
        put_frame(address, number, number + 1 >= count);
    } while (options.inlines && ++number < count);
}

static void answer_place(uint64_t address) {
    a2l_location place = A2L_LOCATION_INIT;
    int32_t why = a2l_find_location(&loader, address, &place);
    if (why != A2L_OK && why != A2L_NOT_FOUND) say_refused_address(address, why);
    put_place(why == A2L_OK ? &place : NULL);
}

/* What is printed where a word is no address, or no file is open. */
static void answer_nothing(void) {
    if (options.functions || options.inlines) put_name(NULL);
    put_place(NULL);
}

static void answer(const char *word) {
    char *end;
    size_t digits = strspn(word, "0123456789abcdefABCDEFx");
    errno = 0;
    uint64_t address = strtoull(word, &end, 16);
    int is_address = *word != '\0' && word[digits] == '\0' && *end == '\0' && errno == 0;
    put_address(is_address ? address : 0);
    if (!is_address || !loader.opened)
        answer_nothing();
    else
        options.functions || options.inlines ? answer_frames(address) : answer_place(address);
}

static void answer_words(int count, char **words) {
    for (int number = 0; number < count; number++) answer(words[number]);
}

/* Answers each line of the input. What was answered is written before more is waited for. */
static void answer_lines(void) {
    char text[65536];
    size_t length = 0;
    ssize_t more;
    do {
        write_out();
        more = read(STDIN_FILENO, text + length, sizeof text - 1 - length);
        length += more > 0 ? (size_t)more : 0;
        char *line = text, *end = text + length;
        *end = '\0';
        for (char *feed; (feed = (char *)memchr(line, '\n', (size_t)(end - line))) != NULL; line = feed + 1) {
            *feed = '\0';
            if (feed > line && feed[-1] == '\r') feed[-1] = '\0';
            answer(line);
        }
        /* (a line that is longer than there is room for is no address) */
        length = line == text && length == sizeof text - 1 ? 0 : (size_t)(end - line);
        memmove(text, line, length);
    } while (more > 0 || (more < 0 && errno == EINTR));
    text[length] = '\0';
    if (length > 0) answer(text);
}

/* The place of each address at which a stretch begins that is above all before it. */
static void answer_all(void) {
    static a2l_range ranges[256];
    static const a2l_range none = A2L_RANGE_INIT;
    uint64_t next = 0;
    size_t count = 0;
    for (size_t number = 0; number < 256; number++) ranges[number] = none;
    int32_t why = a2l_find_ranges(&loader, 0, UINT64_MAX);
    while (why == A2L_OK && (why = a2l_next_ranges(&loader, ranges, 256, &count)) == A2L_OK)
        for (size_t number = 0; number < count; number++)
            if (ranges[number].address >= next) {
                put_address(ranges[number].address);
                put_place(&ranges[number].location);
                next = ranges[number].address + 1;
            }
    if (why != A2L_PAST_END) say_refusal("--all", why);
}

/* Maps the file and opens it, decompressed if it needs that, or says why it isn't opened. */
static int open_file(void) {
    a2l_text image;
    errno = 0;
    if (!map_file(options.file, &image)) {
        fprintf(stderr, "addr2line: %s: %s\n", options.file, strerror(errno));
        return 0;
    }
    uint32_t flags = A2L_IN_PLACE | A2L_DECOMPRESS;
    int32_t why = a2l_open_with(image.ptr, image.len, (const uint8_t *)"", 0, flags, &loader);
    if (why != A2L_OK) say_refusal(options.file, why);
    return why == A2L_OK;
}

int main(int argc, char **argv) {
    int option;
    while ((option = getopt_long(argc, argv, "e:afipsC", LONG_OPTIONS, NULL)) != -1) switch (option) {
        case 'e': options.file = optarg; break;
        case 'a': options.addresses = 1; break;
        case 'f': options.functions = 1; break;
        case 'i': options.inlines = 1; break;
        case 'p': options.pretty = 1; break;
        case 's': options.basenames = 1; break;
        case 'C': options.names = A2L_DEMANGLED; break;
        case 'A': options.all = 1; break;
        default: return 2;
        }
    if (options.all && optind < argc) {
        fputs("addr2line: --all takes no addresses\n", stderr);
        return 2;
    }
    int is_open = open_file();
    if (is_open && options.all)
        answer_all();
    else if (is_open && optind < argc)
        answer_words(argc - optind, argv + optind);
    else if (!options.all && optind >= argc)
        /* (each line has an answer, also without a file: `perf` would end with this program) */
        answer_lines();
    if (is_open) a2l_close(&loader);
    write_out();
    if (!ferror(stdout)) return is_open ? 0 : 1;
    perror("addr2line");
    return 1;
}
