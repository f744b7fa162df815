#!/usr/bin/env bash
# Calls the static library as programs in C, C++ and Python do: what tools/install makes of it, the callers in examples/,
# and c_interface.c, which tries each call. What they print is compared with c_interface.txt, where a line `$ ..` is what
# the shell runs, and with what `linemap lookup` prints. All of it is built by each compiler that there is, and run as it is,
# by sanitizers, by valgrind, and with each allocation refused in turn.
#
#     tests/c_interface.sh
#
# LIBRARY names another archive than that of `tools/build addr2line_c`, and LINEMAP another program than that of
# `tools/build`. Without the archive or a C compiler nothing is tried, and the status is 77. What else isn't there is named.
set -uo pipefail
top="$(dirname "$(dirname "$(readlink -f "$0")")")"
export LIBRARY="$(readlink -f "${LIBRARY:-$top/crates/addr2line_c/out/libaddr2line_c.a}")"
export LINEMAP="$(readlink -f "${LINEMAP:-$top/crates/linemap_program/out/linemap_program}")"
data="$top/crates/linemap_cases/data"
skip() { echo "$1"; exit 77; }
[ -f "$LIBRARY" ] || skip "there is no archive: tools/build addr2line_c makes it"
[ -x "$LINEMAP" ] || skip "there is no program: tools/build makes it"
for tool in cc rt ld objcopy ar nm; do
    type -P "$tool" > /dev/null || skip "$tool isn't installed"
done
work="$(mktemp -d)"
trap 'rm -rf "$work"' EXIT
cd "$work" || exit 2
passed=0 failed=0 lacking=()

# Counts a check, and says which failed.
check() { # WHAT COMMAND..
    if "${@:2}" > "$work/said" 2>&1; then
        passed=$((passed + 1))
    else
        failed=$((failed + 1))
        echo "FAILED: $1"
        tail -n 30 "$work/said" | sed 's/^/  /'
    fi
}
has() {
    type -P "$1" > /dev/null && return
    lacking+=("$1")
    return 1
}

# ---- What tools/install makes

prefix="$work/prefix"
check "tools/install" "${INSTALL:-$top/tools/install}" "$prefix"
check "tools/install over what is there" "${INSTALL:-$top/tools/install}" "$prefix"
export PKG_CONFIG_PATH="$prefix/lib/pkgconfig" ADDR2LINE_LIBRARY="$prefix/lib/libaddr2line.so.1"
if has pkg-config; then
    flags="$(pkg-config --cflags --libs addr2line)"
else
    flags="-I$prefix/include -L$prefix/lib -Wl,-rpath,$prefix/lib -laddr2line"
fi
check "the header beside the sources and the archive" python3 "$top/tests/header.py" "$prefix/lib/libaddr2line.a"
cat > loads.c <<'C'
#include <dlfcn.h>
int main(int argc, char **argv) { return argc == 2 && dlopen(argv[1], RTLD_NOW) ? 0 : 1; }
C
cc -o loads loads.c && check "the shared library loads" ./loads "$prefix/lib/libaddr2line.so"

# ---- What they print

case_of() {
    printf '$ %s\n' "$1"
    bash -c "$1" 2> "$work/err" < /dev/null
    local status=$?
    sed 's/^/! /' "$work/err"
    printf '= %s\n' "$status"
}

# The programs of a folder, on files that are the same everywhere. Columns differ by compiler, and files' folders.
cases() { # FOLDER
    export PATH="$work/$1:$PATH" DATA="$data"
    case_of 'c_interface "$DATA" 0'
    cd "$data" || return
    case_of 'addr2line -e a.elf 0x1000 1003 0x1007 0x zz'
    case_of 'addr2line -e a.elf -afip 0x1000'
    case_of 'addr2line -e a.elf -a -f -i 0x1000'
    case_of 'addr2line -e a.elf -fs 0x1000 0xfff'
    case_of 'addr2line -e a.elf -i 0x1000'
    case_of 'addr2line -e a.elf --all -ap'
    case_of 'addr2line -e a.elf --all 0x1000'
    case_of 'printf "1000\r\n,\n0x1003" | addr2line -e a.elf -a -i -f'
    case_of 'addr2line -e split.elf -fi 0x1000'
    case_of 'addr2line -e symbols.elf -f 0x1004 0x1008'
    case_of 'addr2line -e missing 0x1000'
    case_of 'addr2line -e a.json 0x1000'
    case_of 'printf "1000\n,\n" | addr2line -e a.json -fi'
    case_of 'addr2line -e . 0x1000'
    case_of 'addr2line -e a.elf 0x1000 > /dev/full'
    case_of 'addr2line -x'
}

# A sanitizer has calls of its own on the stack.
stack_cases() { # FOLDER
    export PATH="$work/$1:$PATH"
    case_of 'backtrace | sed -n "s|/[^ ]*/||; s/:[0-9]*$//; /backtrace.c/p"'
}

# A program and its split file, and the same with compressed sections.
pack() { # PROGRAM
    mkdir -p packing
    cp "$1" packing/plain
    objcopy --compress-debug-sections=zlib packing/plain packing/packed || return
    objcopy --compress-debug-sections=zlib-gnu packing/plain packing/packed_gnu || return
    (
        cd packing || exit
        cc -g -gsplit-dwarf -O1 -c -o split.o "$top/tests/c_interface.c" $flags && cc -o split split.o $flags || exit
        objcopy --compress-debug-sections=zlib split.dwo packed.dwo
    )
}

compressed_cases() { # FOLDER
    export PATH="$work/$1:$PATH"
    cd "$work/packing" || return
    case_of 'c_interface plain packed split packed.dwo 1'
}

# Each answer comes before the next line is written.
turns() { # FOLDER
    local line
    rm -f words answers
    mkfifo words answers
    "$1/addr2line" -e "$data/a.elf" < words > answers &
    exec 3> words 4< answers
    for word in 0x1000 0xfff; do
        echo "$word" >&3
        read -r -t 10 line <&4 || return 1
        echo "$line"
    done
    exec 3>&- 4<&-
    wait
}

python_cases() {
    export PYTHONPATH="$top/examples/python" PYTHONDONTWRITEBYTECODE=1
    cd "$data" || return
    case_of 'printf "1000 1004\n1000;1004\n1003\nff000\n" | python3 "$PYTHONPATH/fold.py" a.elf'
    case_of 'printf "1000\nmain\n" | python3 "$PYTHONPATH/fold.py" a.elf'
    case_of 'printf "1004 1000\n" | python3 "$PYTHONPATH/fold.py" a.elf --outermost-first --exact'
    case_of 'printf "1\n" | python3 "$PYTHONPATH/fold.py" a.json 2>&1 | tail -n 1'
    case_of "python3 -c '
import addr2line
with addr2line.open(\"a.elf\") as image:
    print(image.location(0x1000), image.location(0))
    print(*image.frames(0x1000), sep=\"; \")
    print(*((hex(it.begin), hex(it.end), str(it.location)) for it in image))
    print(image.symbol(0x1003), image.section(\".text\"), image.section(\"none\"))
    first, second = image.ranges(), image.ranges(0x1003)
    print(next(second).location)
    try:
        next(first), next(second)
    except RuntimeError as error:
        print(error)
image.close()
with addr2line.open(\"split.elf\") as image:
    print(*image.frames(0x1000), sep=\"; \")
with open(\"a.elf\", \"rb\") as file, addr2line.open(file.read()) as image:
    print(image.location(0x1003))
with addr2line.open(\"refers.elf\", \"supplement.elf\") as image:
    print(*image.frames(0x40))
for bytes in b\"\", b\"ELF\":
    try:
        addr2line.open(bytes)
    except addr2line.Refused as error:
        print(error.code, error.number)
try:
    image.location(0)
except addr2line.Refused as error:
    print(error.code)
'"
}

# Python opens a file with compressed sections.
python_packed() { # FILE
    PYTHONPATH="$top/examples/python" PYTHONDONTWRITEBYTECODE=1 python3 -c '
import sys, addr2line
with addr2line.open(sys.argv[1]) as image:
    print(next(iter(image)))' "$1"
}

# Compares what a group of cases prints with its part of c_interface.txt.
compare() { # GROUP FOLDER
    (trap - EXIT; "$1" "${2:-}") > "$work/printed.$1"
    sed "1,/^# $1\$/d; /^# /,\$d" "$top/tests/c_interface.txt" | diff -u - "$work/printed.$1"
}

# What the caller prints is what the program does.
is_lookup() { # FOLDER FILE [WORD..]
    local words status=0
    for words in "" -a -f -i -fi -afip -afis -fiC --all; do
        "$LINEMAP" lookup -e "$2" "${@:3}" $words < addresses > wanted 2> /dev/null
        "$1/addr2line" -e "$2" $words < addresses > found 2> /dev/null
        cmp wanted found || { status=1; echo "addr2line -e $2 $words"; diff wanted found | head -n 5; }
    done
    return "$status"
}

# ---- Each compiler

build() { # FOLDER COMPILER.. (compiles each source as its own language)
    mkdir -p "$1"
    local source
    for source in examples/c/addr2line examples/c/backtrace tests/c_interface; do
        "${@:2}" -g -Wall -Wextra -Werror -o "$1/$(basename "$source")" "$top/$source.c" -x none $flags || return 1
    done
}

printf '%x\n' $(seq 0 $((0x1400))) > addresses
for compiler in gcc g++ clang; do
    has "$compiler" || continue
    words=("$compiler" -O2)
    [ "$compiler" != g++ ] || words+=(-x c++)
    check "$compiler builds the callers" build "by-$compiler" "${words[@]}"
    check "what the callers print, by $compiler" compare cases "by-$compiler"
    check "a program's own stack, by $compiler" compare stack_cases "by-$compiler"
    check "answers in turn, by $compiler" turns "by-$compiler"
done
flags_of_shared="$flags" flags="-I$prefix/include $prefix/lib/libaddr2line.a"
check "cc builds the callers over the archive" build by-archive cc -O2
check "what the callers print, over the archive" compare cases by-archive
flags="$flags_of_shared"
first=by-gcc
[ -d "$first" ] || first=by-clang
[ -d "$first" ] || first=by-archive
cc -g -O1 -o steps "$top/examples/steps.c"
for file in steps "$data"/a.elf "$data"/split.elf "$data"/symbols.elf "$first/addr2line"; do
    check "addr2line as linemap lookup: $(basename "$file")" is_lookup "$first" "$file"
done
packing="packing/plain packing/packed packing/split packing/packed.dwo"
check "compressed sections" pack "$first/c_interface"
check "what is answered where sections are compressed" compare compressed_cases "$first"
# (these programs are larger)
printf '%x\n' $(seq 0 7 $((0x6000))) > addresses
check "addr2line as linemap lookup: compressed" is_lookup "$first" packing/packed --decompress
check "addr2line as linemap lookup: .zdebug_*" is_lookup "$first" packing/packed_gnu --decompress
cp packing/packed.dwo packing/split.dwo
check "addr2line as linemap lookup: a compressed split file" is_lookup "$first" packing/split --decompress
if has python3; then
    check "what the callers in Python print" compare python_cases
    check "compressed sections, in Python" python_packed packing/packed
fi
check "ten thousand files opened and closed" "$first/c_interface" "$data" 10000

# ---- Sanitizers, valgrind, and refused memory

flags="-I$prefix/include $prefix/lib/libaddr2line.a"
sanitized=(cc -O1 -fsanitize=address,undefined -fno-sanitize-recover=all)
echo 'int main(void) { return 0; }' > nothing.c
if "${sanitized[@]}" -o nothing nothing.c > said 2>&1 && ./nothing >> said 2>&1; then
    check "cc builds the callers with sanitizers" build sanitized-by-cc "${sanitized[@]}"
    # (what is freed is given back soon, so that memory doesn't grow)
    check "c_interface with sanitizers" env ASAN_OPTIONS=quarantine_size_mb=1 sanitized-by-cc/c_interface "$data" 400
    check "what the callers print, with sanitizers" compare cases sanitized-by-cc
    check "compressed sections, with sanitizers" sanitized-by-cc/c_interface $packing 1
    check "a program's own stack, with sanitizers" sanitized-by-cc/backtrace
else
    lacking+=("sanitizers ($(head -n 1 said))")
fi
if has valgrind && ! { cc -o nothing nothing.c && valgrind -q ./nothing; } > said 2>&1; then
    lacking+=("valgrind ($(head -n 1 said))")
elif type -P valgrind > /dev/null; then
    for words in "c_interface $data 100" "c_interface $packing 97" "addr2line -e $data/split.elf -afip 0x1000 0x1003 zz" \
        "addr2line -e steps --all" backtrace; do
        check "valgrind: ${words%% *}" valgrind -q --leak-check=full --show-leak-kinds=definite,possible --error-exitcode=9 \
            --errors-for-leak-kinds=definite,possible "$first/"$words
    done
fi

# Refuses each allocation in turn: what is printed stays the same, since each call is made again.
refuse_each() { # WORD..
    local number=0 status
    "$@" > wanted
    while :; do
        number=$((number + 1))
        rm -f refused
        LD_PRELOAD="$work/refuse.so" REFUSE="$number" REFUSED="$work/refused" "$@" > found
        status=$?
        [ -e refused ] || break
        [ "$status" = 0 ] && cmp wanted found || { echo "allocation $number: status $status"; return 1; }
    done
    echo "$((number - 1)) allocations, each refused once"
    [ "$number" -gt 100 ]
}

# The same, in a folder, for a caller that doesn't ask again: it must say why it stops or leaves something out.
refuse_some() ( # FOLDER WORD..
    cd "$1" || exit
    shift
    number=0
    "$@" > wanted
    while :; do
        number=$((number + 1))
        rm -f refused
        LD_PRELOAD="$work/refuse.so" REFUSE="$number" REFUSED="$PWD/refused" "$@" > found 2> err
        status=$?
        [ -e refused ] || break
        [ "$status" -le 1 ] || { echo "allocation $number: status $status"; exit 1; }
        cmp -s wanted found || grep -qE '(E1|L1): ' err || { echo "allocation $number"; exit 1; }
    done
    echo "$((number - 1)) allocations, each refused once"
)
cc -O2 -shared -fPIC -o refuse.so "$top/bench/refuse.c"
check "each allocation refused: c_interface" refuse_each "$first/c_interface" "$data" 0
allocations="$(tail -n 1 said)"
check "each allocation refused: compressed sections" refuse_each "$first/c_interface" $packing 997
mkdir brought
cp "$data"/split.{elf,dwo} brought
check "each allocation refused: addr2line" refuse_some brought "$work/$first/addr2line" -e split.elf -afipC 0x1000 0x1003 0xfff

[ ${#lacking[@]} = 0 ] || echo "left out, since it isn't there: ${lacking[*]}"
echo "c_interface: $passed checks passed, $failed failed; $allocations"
[ "$failed" = 0 ]
