#!/usr/bin/env bash
# Runs the program's subcommands as a user does, over files, pipes, a full disk and a closed pipe, and compares what it
# prints with programs.txt and, where there is gcc, with programs-gcc.txt. There a line `$ ..` is what the shell runs;
# then comes what goes to the standard output, what goes to the error stream, each line after `! `, and the exit status
# after `= `.
#
#     tests/programs.sh [PROGRAM]      PROGRAM is ../linemap where none is given
#
# Where LARGE is set, a table that is too large is tried too (programs-large.txt): 0.5 GB of disk, 2.1 GB of memory.
set -uo pipefail
here="$(dirname "$(readlink -f "$0")")"
program="$(readlink -f "${1:-$here/../linemap}")"
"$program" --help >/dev/null || exit 2
work="$(mktemp -d)"
trap 'rm -rf "$work"' EXIT
mkdir "$work/bin" "$work/files"
ln -s "$program" "$work/bin/linemap"
export PATH="$work/bin:$PATH"
cd "$work/files" || exit 2
cp "$here"/../examples/{a,c}.json .

# One unit, [0x1000, end), with one row.
table_up_to() {
    cat <<JSON
{"units":[{"directory":"/w","name":"a.c","ranges":[[4096,$1]],"files":[{"directory":"src","name":"a.c"}],
"functions":[],"sequences":[{"rows":[{"address":4096,"file":0,"line":5,"column":1}],"end":$1}]}]}
JSON
}
table_up_to 4294967293 > below.json
table_up_to 4294967294 > above.json
echo '{' > cut.json
echo '{"units":[],"more":1}' > shape.json
sed 's/\[\[4112,4128\]\]/[[4112,4152]]/' c.json > outside.json
printf 'ELF' > three
printf '\177ELF' > magic
# Images whose split files are a device without end, and a pipe into which nothing is written.
python3 "$here"/../bench/hostile.py make skeletons-of-no-end 2 endless > /dev/null
python3 "$here"/../bench/hostile.py make skeletons 2 waiting > /dev/null
mkfifo no
# A core file of a 64-bit machine, with no sections.
{ printf '\177ELF\2\1\1'; head -c 9 /dev/zero; printf '\4\0\76\0\1\0\0\0'; head -c 28 /dev/zero
  printf '\100\0\0\0\0\0\100\0\0\0\0\0'; } > core

case_of() {
    printf '$ %s\n' "$1"
    bash -c "$1" > "$work/out" 2> "$work/err" < /dev/null
    local status=$?
    cat "$work/out"
    sed 's/^/! /' "$work/err"
    printf '= %s\n' "$status"
}

# Each answer comes before the next line is written.
turns() {
    printf '$ (turns)\n'
    trap '' PIPE
    mkfifo words answers
    linemap lookup -e c.elf < words > answers &
    local pid=$! word line
    exec 3> words 4< answers
    for word in 0x1018 0x1000 0xfff; do
        echo "$word" >&3
        if read -r -t 10 line <&4; then echo "$line"; else echo "(no answer)"; fi
    done
    exec 3>&- 4<&-
    wait "$pid"
    printf '= %s\n' "$?"
    trap - PIPE
}

cases() {
    # Tables
    case_of 'linemap ask a.json 0x100f'
    case_of 'linemap ask a.json 0x1030 fff +1010 1Z'
    case_of 'linemap ask missing.json 1'
    case_of 'linemap ask . 1'
    case_of 'linemap ask cut.json 1'
    case_of 'linemap ask shape.json 1'
    case_of 'linemap ask outside.json 1'
    # Images
    case_of 'linemap emit c.json c.elf'
    case_of 'linemap lookup -e c.elf -a -p -f -i 0x1018 0x zz'
    case_of "printf '0x1018\\n0x\\r\\nzz' | linemap lookup -e c.elf -apfi"
    case_of 'linemap emit c.json 2.elf --dwarf 2 && linemap lookup -e 2.elf -fi 1018'
    case_of 'linemap emit c.json 3.elf --dwarf 3 --bits 64 --size 4 --big && linemap lookup -e 3.elf -fi 1018'
    case_of 'linemap emit c.json 5.elf --dwarf 5 --bits 64 --size 8 --big && linemap lookup -e 5.elf -fi 1018'
    case_of 'linemap emit below.json below.elf --size 4 && linemap lookup -e below.elf 0x1000'
    # Refused, in the order of the checks; nothing is written
    case_of 'linemap emit missing.json no.elf --dwarf 6'
    case_of 'linemap emit c.json no.elf --dwarf 2 --bits 64'
    case_of 'linemap emit c.json no.elf --size 260'
    case_of 'linemap emit missing.json no.elf'
    case_of 'linemap emit outside.json no.elf'
    case_of 'linemap emit above.json no.elf --size 4'
    case_of 'test ! -e no.elf'
    case_of 'linemap emit c.json missing/c.elf'
    case_of 'linemap emit c.json .'
    case_of 'linemap emit c.json /dev/full'
    # What is printed
    case_of 'linemap lookup -e c.elf 0x1018'
    case_of 'linemap lookup -e c.elf -f 0x1018'
    case_of 'linemap lookup -e c.elf -i 0x1018'
    case_of 'linemap lookup -e c.elf -fis 0x1018'
    case_of 'linemap lookup -e c.elf -a 0x1018'
    case_of 'linemap lookup -e c.elf --llvm -a 0x1018 0xfff'
    case_of 'linemap lookup -e c.elf -fpa 0xfff'
    case_of 'linemap lookup -fipCa -e c.elf 0x1018'
    case_of 'linemap lookup -e c.elf --sup c.elf 0x1018'
    case_of 'linemap lookup -e c.elf -j .debug_str 0x1018'
    case_of 'linemap lookup -e c.elf --all'
    case_of 'linemap lookup -e c.elf < /dev/null'
    case_of "printf '0x1018\\n\\377\\n0x1018\\n' | linemap lookup -e c.elf"
    turns
    # Files without what is needed
    case_of 'linemap lookup -e core 0x1000'
    case_of 'timeout 10 linemap lookup -e endless -fi 0x1000'
    case_of 'timeout 10 linemap lookup -e waiting -fi 0x1000'
    case_of 'linemap lookup -e missing 1'
    case_of 'linemap lookup -e . 1'
    case_of 'linemap lookup -e three 1'
    case_of 'linemap lookup -e a.json 1'
    case_of 'linemap lookup -e magic 1'
    case_of 'head -c -1 c.elf > short.elf; linemap lookup -e short.elf 1'
    case_of 'linemap lookup -e c.elf --sup missing 1'
    case_of 'linemap lookup -e c.elf --sup three 1'
    case_of 'linemap lookup -e c.elf -j .nothing 1'
    # Output that fails
    case_of 'linemap ask a.json 0x100f > /dev/full'
    case_of 'linemap lookup -e c.elf 0x1018 > /dev/full'
    case_of 'linemap --help > /dev/full'
    case_of '{ sleep 0.5; linemap ask a.json 0x100f; echo "status $?" >&2; } | true'
    case_of '{ sleep 0.5; linemap lookup -e c.elf 0x1018; echo "status $?" >&2; } | true'
    # What refusals mean: of each code something that begins with it, and says what to do
    case_of 'linemap explain L6'
    case_of 'linemap explain B20'
    case_of 'linemap explain l6'
    case_of 'linemap explain E34; linemap explain E0; linemap explain E01; linemap explain B; linemap explain ""'
    case_of 'for code in E{1..33} W{1..10} B{1..20} M{1..2} L{1..8}; do
    linemap explain $code > meaning && head -n 1 meaning | grep -q "^$code: " && grep -q "^Usual cause: " meaning \
        && tail -n 2 meaning | grep -q "^What to do: " || echo "$code isn'"'"'t explained"
done'
    case_of 'linemap explain L6 > /dev/full'
    # The command line
    case_of 'linemap lookup -e c.elf --all 0x1018'
    case_of 'linemap emit c.json no.elf --dwarf 65536'
    case_of 'linemap lookup 0x1018'
    case_of 'linemap look'
    case_of 'linemap lookup -e c.elf "$(printf "\\377")"'
    case_of 'linemap lookup --help | head -n 3'
    case_of 'linemap ask --help | sed -n "/^Example/,\$p"'
    case_of 'linemap emit --help | sed -n "/^Example/,\$p"'
    case_of 'linemap lookup --help | sed -n "/^Example/,\$p"'
}

# Files of a C compiler: with debug information, without any, without symbols too, compressed, not linked, and split.
compiled_cases() {
    cat > hello.c <<'C'
static int twice(int x) {
    return x + x;
}

int main(int argc, char **argv) {
    return twice(argc);
}
C
    echo 'linemap lookup -e "$1" -fs "$(nm "$2" | sed -n "s/ T main//p")"' > main_of
    case_of 'gcc -g -o hello hello.c && bash main_of hello hello'
    case_of 'strip -g -o symbols hello && bash main_of symbols hello'
    case_of 'strip -o stripped hello && bash main_of stripped hello'
    case_of 'objcopy --compress-debug-sections hello packed && bash main_of packed hello'
    case_of 'objcopy --decompress-debug-sections packed unpacked && bash main_of unpacked hello'
    case_of 'gcc -g -c hello.c && linemap lookup -e hello.o 0'
    case_of 'gcc -g -gsplit-dwarf -o split hello.c && bash main_of split split'
}

# A table of one unit with a name of 2^29 bytes, each of which weighs four.
large_cases() {
    { printf '{"units":[{"directory":"/w","name":"'
      head -c 536870912 /dev/zero | tr '\0' n
      printf '","ranges":[[4096,4097]],"files":[],"functions":[],"sequences":[]}]}'; } > large.json
    case_of 'linemap emit large.json no.elf'
    case_of 'linemap ask large.json 0x1000'
    case_of 'test ! -e no.elf'
    rm large.json
}

# Compares what a group of cases prints with a file.
compare() {
    "$1" > "$work/printed"
    diff -u "$here/$2" "$work/printed" || return 1
    echo "$(grep -c '^\$' "$work/printed") cases, as in $2"
}

failed=0
compare cases programs.txt || failed=1
if type gcc nm strip objcopy >/dev/null 2>&1; then
    compare compiled_cases programs-gcc.txt || failed=1
else
    echo "no gcc, nm, strip or objcopy: the cases in programs-gcc.txt are left out"
fi
[ -z "${LARGE:-}" ] || compare large_cases programs-large.txt || failed=1
exit "$failed"
