/* addr2line.h: which file, line and function an address of an ELF file belongs to, from its
 * debug information (DWARF).
 *
 *   a2l_loader loader = A2L_LOADER_INIT;
 *   a2l_location place = A2L_LOCATION_INIT;
 *   if (a2l_open_in_place(map, map_len, &loader) == A2L_OK) {
 *     if (a2l_find_location(&loader, 0x1234, &place) == A2L_OK && place.has_file)
 *       printf("%.*s:%u\n", (int)place.file.len, (const char *)place.file.ptr, place.line);
 *     a2l_close(&loader);
 *   }
 *
 * A program is built by `cc prog.c $(pkg-config --cflags --libs addr2line)`.
 *
 * Rules for all calls
 *
 * - Each returns A2L_OK or another number of those below. Nothing is written through `out`,
 *   `count`, `code` or `sentence` unless the call returns A2L_OK, except that a2l_find_frames,
 *   a2l_get_frames, a2l_next_ranges and a2l_find_loads set `*count` to 0 otherwise.
 * - No pointer may be NULL: with a length of 0 pass any other address, such as "". What a call
 *   writes through is memory of the caller that nothing else reads or writes during the call; a
 *   struct is initialized by its A2L_..._INIT before its first use.
 * - Texts are UTF-8 with a length, and without a NUL at their end. A text of length 0 is not NULL.
 * - What a call lends (each text) stays until the next call with the same loader, whichever it is,
 *   a2l_close included. Copy what is needed longer.
 * - Addresses are those that the file is linked to run at. In a running program subtract the
 *   difference between where the file is mapped and where it is linked to run.
 * - A loader belongs to the thread that opened it: all calls with it come from there, one at a
 *   time, none from a signal handler. Loaders share nothing, so each thread can open its own.
 *   a2l_error_text, a2l_error_code and a2l_error_sentence take no loader, and can be called from
 *   any thread.
 * - Any bytes, addresses and numbers may be passed: a damaged file leads to a refusal, never to a
 *   crash. Out of memory is A2L_L1 where a file is opened and A2L_E1 elsewhere, and leaves the
 *   loader usable: the same call can be made again.
 */
#ifndef ADDR2LINE_H
#define ADDR2LINE_H

#include <stddef.h>
#include <stdint.h>

#ifdef __cplusplus
extern "C" {
#endif

/* The number in the soname of the shared library. */
#define A2L_VERSION 1

/* ---- What calls return */

enum {
  A2L_OK = 0,
  /* There is no such thing: no location, symbol or section. */
  A2L_NOT_FOUND = 1,
  /* A number past the last frame or load, or no stretch is left. */
  A2L_PAST_END = 2,
  /* The room for results has a length of 0. */
  A2L_NO_ROOM = 3,
  /* The loader is closed. */
  A2L_CLOSED = 4,
  /* `opened` of the loader is neither 0 (closed) nor 1 (open): it was not initialized, or was
   * overwritten. No other damage to a loader is noticed. */
  A2L_BAD_LOADER = 5,
  /* The loader to be opened is open. */
  A2L_ALREADY_OPEN = 6,
  /* The bytes are no split file of the unit that waits. */
  A2L_WRONG_FILE = 7,
  /* a2l_open_with has no such flag. */
  A2L_UNKNOWN_FLAG = 8,

  /* E1 to E33: why debug information can't be read. a2l_error_text says what each means. */
  A2L_E1 = 101, /* out of memory */
  A2L_E2 = 102,
  A2L_E3 = 103,
  A2L_E4 = 104,
  A2L_E5 = 105,
  A2L_E6 = 106,
  A2L_E7 = 107,
  A2L_E8 = 108,
  A2L_E9 = 109,
  A2L_E10 = 110,
  A2L_E11 = 111,
  A2L_E12 = 112,
  A2L_E13 = 113,
  A2L_E14 = 114,
  A2L_E15 = 115,
  A2L_E16 = 116,
  A2L_E17 = 117,
  A2L_E18 = 118,
  A2L_E19 = 119,
  A2L_E20 = 120,
  A2L_E21 = 121,
  A2L_E22 = 122,
  A2L_E23 = 123,
  A2L_E24 = 124,
  A2L_E25 = 125,
  A2L_E26 = 126,
  A2L_E27 = 127,
  A2L_E28 = 128,
  A2L_E29 = 129,
  A2L_E30 = 130,
  A2L_E31 = 131,
  A2L_E32 = 132,
  A2L_E33 = 133,

  /* L1 to L8: why a file isn't opened. */
  A2L_L1 = 201, /* out of memory */
  A2L_L2 = 202, /* the file can't be read; no call here returns it */
  A2L_L3 = 203, /* not an ELF file */
  A2L_L4 = 204, /* an ELF file of a class, byte order or header size that isn't supported */
  A2L_L5 = 205, /* the file ends before a header, a section or a table does */
  A2L_L6 = 206, /* a section of debug information is compressed */
  A2L_L7 = 207, /* a linker has yet to fill in addresses of debug information */
  A2L_L8 = 300, /* the debug information can't be read: 300 + n for En, 302 to 333 */

  /* Z1 to Z12: why compressed sections can't be decompressed. */
  A2L_Z1 = 401, /* the section headers overlap the file's header */
  A2L_Z2 = 402, /* a section overlaps the section headers */
  A2L_Z3 = 403, /* the file ends before a section does */
  A2L_Z4 = 404, /* a section holds names and is compressed */
  A2L_Z5 = 405, /* a section ends in its compression header */
  A2L_Z6 = 406, /* a section is compressed by zstd */
  A2L_Z7 = 407, /* a section is compressed in a way that isn't known */
  A2L_Z8 = 408, /* a section is too small for the size that it claims */
  A2L_Z9 = 409, /* a section has an invalid stream */
  A2L_Z10 = 410, /* the decompressed file is too large for its class */
  A2L_Z11 = 411, /* a section holds more than the names of sections, which change */
  A2L_Z12 = 412 /* the name of a section doesn't end */
};

/* ---- What crosses */

/* A loader of one file, in the caller's memory. Zeroed is closed. It is never copied while it is
 * open, and its fields are not written: `opened` is 1 only where a call has opened it, and `at`,
 * which is then taken as it is, leads to what it owns. */
typedef struct {
  uint32_t opened;
  void *at;
} a2l_loader;
#define A2L_LOADER_INIT {0, NULL}

/* UTF-8, `len` bytes from `ptr` on, and no NUL after them. `ptr` is never NULL. */
typedef struct {
  const uint8_t *ptr;
  size_t len;
} a2l_text;
#define A2L_TEXT_INIT {(const uint8_t *)"", 0}

/* A place in the source. A field counts only where its `has_` is 1, and is 0 or empty where that
 * is 0. */
typedef struct {
  a2l_text file;
  uint64_t discriminator; /* which of the blocks of its line; 0 where there is only one */
  uint32_t line;          /* from 1 on */
  uint32_t column;        /* from 1 on; 0 is the left edge of the line */
  uint8_t has_file;
  uint8_t has_line;
  uint8_t has_column;
  uint8_t has_statement;
  uint8_t statement; /* 1: at the beginning of a statement, a good place for a breakpoint */
  uint8_t has_discriminator;
} a2l_location;
#define A2L_LOCATION_INIT {A2L_TEXT_INIT, 0, 0, 0, 0, 0, 0, 0, 0, 0}

/* A function, or a call that is inlined. In the innermost frame `location` is the place of the
 * address; in each frame after it, the place of the call to the one before. */
typedef struct {
  a2l_text function;
  a2l_location location;
  /* where the entry of the function or call begins, in bytes from its unit's header on */
  uint64_t entry_offset;
  uint16_t language; /* the language of the unit (DW_LANG_*) */
  uint8_t has_function;
  uint8_t has_location;
  uint8_t has_entry_offset;
  uint8_t has_language;
} a2l_frame;
#define A2L_FRAME_INIT {A2L_TEXT_INIT, A2L_LOCATION_INIT, 0, 0, 0, 0, 0, 0}

/* A stretch of addresses of one place: `length` of them, from `address` on. */
typedef struct {
  a2l_location location;
  uint64_t address;
  uint64_t length;
} a2l_range;
#define A2L_RANGE_INIT {A2L_LOCATION_INIT, 0, 0}

/* A symbol: its name, and the address of its first byte. */
typedef struct {
  a2l_text name;
  uint64_t address;
} a2l_symbol;
#define A2L_SYMBOL_INIT {A2L_TEXT_INIT, 0}

/* The addresses of a section, from `begin` to before `end`. */
typedef struct {
  uint64_t begin;
  uint64_t end;
} a2l_section;
#define A2L_SECTION_INIT {0, 0}

/* A split file (a .dwo file; DWARF 5, 3.1.3) that a unit's functions are in. The name is relative
 * to the directory, unless it is absolute. Here the texts are bytes as the file has them, which may
 * not be UTF-8. */
typedef struct {
  a2l_text directory;
  a2l_text name;
  uint64_t id; /* the identifier that the unit and its split file share */
  uint8_t has_directory;
  uint8_t has_name;
} a2l_load;
#define A2L_LOAD_INIT {A2L_TEXT_INIT, A2L_TEXT_INIT, 0, 0, 0}

/* How names of functions and symbols are given. Any other number is taken for A2L_DEMANGLED. */
enum {
  /* As the file has them, each sequence that isn't UTF-8 as U+FFFD. */
  A2L_RAW = 0,
  /* Names as Rust's legacy mangling has them (_ZN..E) as paths. All others stay as they are, such
   * as those of C++'s functions, and so do all in units of another language than Rust. */
  A2L_DEMANGLED = 1
};

/* ---- Opening and closing */

/* Opens a closed loader over a copy of the bytes of an ELF file, which may be freed after the
 * call. Refused by A2L_ALREADY_OPEN or A2L_BAD_LOADER, and by L1 to L8; the loader then stays as
 * it is. Sections, symbols and units are found here; lines and functions are read of each unit by
 * the first call that needs them, and kept. */
int32_t a2l_open(const uint8_t *image, size_t image_len, a2l_loader *loader);

/* The same with a supplementary file (DWARF 5, 7.3.6), which is copied too. */
int32_t a2l_open_with_sup(const uint8_t *image, size_t image_len, const uint8_t *sup,
                          size_t sup_len, a2l_loader *loader);

/* Opens a closed loader over bytes that stay where they are, mapped and unchanged, until it is
 * closed. Nothing is copied, and only what is needed is read. Otherwise as a2l_open. Where someone
 * else cuts a mapped file short, reading it ends the process (SIGBUS), as with any map. */
int32_t a2l_open_in_place(const uint8_t *image, size_t image_len, a2l_loader *loader);

/* The same with a supplementary file, whose bytes stay too. */
int32_t a2l_open_in_place_with_sup(const uint8_t *image, size_t image_len, const uint8_t *sup,
                                   size_t sup_len, a2l_loader *loader);

/* What a2l_open_with does; flags are added. */
enum {
  /* The bytes stay where they are, mapped and unchanged, until the loader is closed. Without this
   * flag they are copied. */
  A2L_IN_PLACE = 1,
  /* There is a supplementary file. Without this flag `sup` isn't read, but may not be NULL. */
  A2L_SUP = 2,
  /* Compressed sections that lookups read are decompressed: of the file, of its supplementary
   * file, and of split files that are brought. A file that has none is used as it is. */
  A2L_DECOMPRESS = 4
};

/* Opens a closed loader as the flags say: what the four calls above do. With A2L_DECOMPRESS it
 * also opens files whose sections are compressed by zlib. Those calls refuse such files by L6, or,
 * where the sections have the older names .zdebug_*, open them without these sections. A file with
 * compressed sections takes memory for itself and for their texts. Refused, in this order, by
 * A2L_ALREADY_OPEN or A2L_BAD_LOADER; by A2L_UNKNOWN_FLAG, before any bytes are read; by L1 to L8,
 * or Z1 to Z12. The loader then stays as it is. */
int32_t a2l_open_with(const uint8_t *image, size_t image_len, const uint8_t *sup, size_t sup_len,
                      uint32_t flags, a2l_loader *loader);

/* Closes an open loader, and frees what it owns. It can be opened again. A2L_CLOSED or
 * A2L_BAD_LOADER otherwise. */
int32_t a2l_close(a2l_loader *loader);

/* All calls below with a loader return A2L_CLOSED where its `opened` is 0, and A2L_BAD_LOADER
 * where that is neither 0 nor 1. */

/* ---- Places */

/* The place of an address. A2L_NOT_FOUND where there is none; refused by E1 to E33. The file's
 * text is lent. */
int32_t a2l_find_location(a2l_loader *loader, uint64_t address, a2l_location *out);

/* Begins a walk over the stretches of addresses from `low` to before `high`, with their
 * places, in place of the walk before. Nothing is searched yet. Where units overlap, an address
 * can be in several stretches, and they are not in order. Where `low` isn't below `high`, there
 * are none. */
int32_t a2l_find_ranges(a2l_loader *loader, uint64_t low, uint64_t high);

/* The next stretches of the walk, as many as there is room for: from the first after those that
 * the last call gave. `*count` says how many were written, at least 1 where the call returns
 * A2L_OK; fewer than there is room for are no sign of the end. A2L_PAST_END where none is left, or
 * no walk was begun; A2L_NO_ROOM where `room` is 0. A refusal (E1 to E33) comes once those before
 * it are given, and again at each further call; after A2L_E1 the walk goes on once there is memory,
 * and no stretch is lost. The texts of all of `out` are lent together. */
int32_t a2l_next_ranges(a2l_loader *loader, a2l_range *out, size_t room, size_t *count);

/* ---- Frames */

/* Finds the frames of an address: the calls that are inlined there, the innermost first, and last
 * the function itself; of an address in no function, the place alone, if it has one. `*count`
 * says how many there are, also 0. The loader keeps them until the next a2l_find_frames, so that
 * reading one searches nothing. Split files that the address waits for and that were not brought
 * (see a2l_find_loads) are taken as missing from then on. Refused by E1 to E33, after which there
 * are no frames. `names` is A2L_RAW or A2L_DEMANGLED. */
int32_t a2l_find_frames(a2l_loader *loader, uint64_t address, uint32_t names, size_t *count);

/* The frame of a number, of those that the last a2l_find_frames found; 0 is the innermost.
 * A2L_PAST_END where there is none. Its texts are lent. */
int32_t a2l_get_frame(a2l_loader *loader, size_t number, a2l_frame *out);

/* The frames from a number on, as many as there is room for; `*count` says how many were written.
 * A2L_PAST_END where there is none of that number, A2L_NO_ROOM where `room` is 0. The texts of all
 * of `out` are lent together. */
int32_t a2l_get_frames(a2l_loader *loader, size_t first, a2l_frame *out, size_t room,
                       size_t *count);

/* ---- Symbols and sections */

/* The symbol that holds an address: of several the one that begins last. One of the size 0 holds
 * all addresses from its own on, so that also those after the last section may have a symbol, such
 * as `_end`. A2L_NOT_FOUND where there is none; A2L_E1 only for a name that is demangled. The name
 * is lent. `names` is A2L_RAW or A2L_DEMANGLED. */
int32_t a2l_find_symbol(a2l_loader *loader, uint64_t address, uint32_t names, a2l_symbol *out);

/* The addresses of the first section of a name. A2L_NOT_FOUND where there is none. */
int32_t a2l_find_section(a2l_loader *loader, const uint8_t *name, size_t name_len,
                         a2l_section *out);

/* ---- Split files */

/* Finds the split files that the frames of an address wait for: those of its units that were
 * neither answered nor skipped yet. `*count` says how many there are, also 0. The loader keeps
 * them until the next a2l_find_loads. Without this call a2l_find_frames takes them as missing.
 * The only refusal is A2L_E1, after which there are none. */
int32_t a2l_find_loads(a2l_loader *loader, uint64_t address, size_t *count);

/* The split file of a number, of those that the last a2l_find_loads found. A2L_PAST_END where
 * there is none. Its texts are lent. */
int32_t a2l_get_load(a2l_loader *loader, size_t number, a2l_load *out);

/* Brings the split file of a number, of those that the last a2l_find_loads found, as a copy of its
 * bytes. It is decompressed where the loader was opened with A2L_DECOMPRESS. A2L_PAST_END where
 * there is none of that number; A2L_WRONG_FILE where the bytes are not that unit's split file, or
 * can't be read or decompressed: the unit then still waits. Else it is decided for good: A2L_OK,
 * or the refusal (E2 to E33) that lookups in it return from then on. A unit that was decided
 * before stays so. */
int32_t a2l_answer_load(a2l_loader *loader, size_t number, const uint8_t *bytes, size_t len);

/* The same over bytes that stay where they are, mapped and unchanged, until the loader is closed.
 * Nothing is copied that isn't decompressed. */
int32_t a2l_answer_load_in_place(a2l_loader *loader, size_t number, const uint8_t *bytes,
                                 size_t len);

/* Says that the split file of a number is missing. The unit is then decided for good, as by
 * a2l_answer_load, and what the file itself has of its functions counts. A2L_PAST_END where there
 * is none of that number; A2L_E1, after which the unit still waits; the refusal (E2 to E33) of a
 * unit that was refused before; else A2L_OK. */
int32_t a2l_skip_load(a2l_loader *loader, size_t number);

/* ---- Refusals */

/* What a call returned, in two texts: its letter and number, as "E16", "L6", "L8 E16" or "Z9", and
 * for 1 to 8 as "C4"; and a sentence that says what it means, in English, without a full stop.
 * A2L_NOT_FOUND for A2L_OK and for a number that has no meaning, such as 300. The texts are
 * never freed. */
int32_t a2l_error_text(int32_t number, a2l_text *code, a2l_text *sentence);

/* The letter and number alone. */
int32_t a2l_error_code(int32_t number, a2l_text *out);

/* The sentence alone. */
int32_t a2l_error_sentence(int32_t number, a2l_text *out);

#ifdef __cplusplus
}
#endif

#endif
