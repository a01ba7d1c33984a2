# Sourced by the scripts here, on top of tests/outside/common.sh: the folder in which
# all is built, the library to measure, and counting instructions.
# Sets bench, folder, emulate, archive and standin; `set -u` is on from here.
# The folder is gone at the end, unless bench/hold lends one by BENCH_FOLDER: what
# stands there already is not built again. The emulator is used on x86-64 too, and
# always as the same processor: by that the C library chooses how it copies memory,
# which makes one or two in a hundred of the library's instructions.
set -u
. "$(dirname "${BASH_SOURCE[0]}")/../tests/outside/common.sh"
bench=$root/bench
install_missing gcc gcc libc6-dev
install_missing qemu-x86_64 qemu-user
emulate=("$(command -v qemu-x86_64)" -cpu max)
folder=${BENCH_FOLDER:-}
if [ -z "$folder" ]; then
    folder=$(mktemp -d)
    trap 'rm -rf "$folder"' EXIT
fi
link_with "$folder"

# build PROGRAM SOURCE..
build() {
    local program=$1
    shift
    [ -e "$folder/$program" ] || $cc "${flags[@]}" $link -I "$outside" -o "$folder/$program" "$@" || exit 2
}

# build_plain: the independent implementation, to link with, to plain.o.
build_plain() {
    [ -e "$folder/plain.o" ] || build_standin "$folder" "$folder/plain.o" || exit 2
}

# make_logs: the logs that are measured, and the sample night. From here on logs are
# named without .log.
make_logs() {
    build make_logs "$bench/make_logs.c" "$outside/ref.c"
    [ -e "$folder/mixed.log" ] || $emulator "$folder/make_logs" "$folder" || exit 2
    : >"$folder/empty.log"
    cp "$root/samples/night.log" "$folder/night.log"
}

# base_of LOG: the log that has no such frames, and all that comes before them.
base_of() {
    case $1 in
        type-5) echo orbits ;;
        night) echo empty ;;
        *) echo base ;;
    esac
}

# count NAME PROGRAM ARGUMENT..: one run of a program of the folder, unless NAME was
# counted before. Its instructions go to counted[NAME], what it prints to
# printed[NAME]. It is run without environment, whose length would shift the stack:
# copying and clearing memory there takes some instructions more or less as it lies.
declare -A counted printed
count() {
    local name=$1
    shift
    [ -z "${counted[$name]:-}" ] || return 0
    [ -e "$folder/insn.so" ] || gcc -shared -fPIC -O2 -o "$folder/insn.so" "$bench/insn.c" || exit 2
    printed[$name]=$(cd "$folder" && env -i "${emulate[@]}" -plugin ./insn.so "./$1" "${@:2}" 2>count) ||
        { echo "${0##*/}: $name: the run failed" >&2; cat "$folder/count" >&2; exit 2; }
    counted[$name]=$(sed -n 's/^instructions //p' "$folder/count")
}

# count_log WHO LOG PROGRAM ARGUMENT..: what the frames of a log cost WHO, whose runs
# are those of the program with the log as its last argument: sets frames to how many
# they are, and cost to the instructions of all of them, a run over the log less one
# over its base. The log always has the same name, for its length shifts the stack too.
count_log() {
    local who=$1 log=$2 base
    shift 2
    base=$(base_of "$log")
    ln -sf "$log.log" "$folder/log"
    count "$who $log" "$@" log
    ln -sf "$base.log" "$folder/log"
    count "$who $base" "$@" log
    frames=$((($(stat -c %s "$folder/$log.log") - $(stat -c %s "$folder/$base.log") + 124) / 125))
    cost=$((${counted[$who $log]} - ${counted[$who $base]}))
}

# figure NAME NUMBER: a figure of the library, which bench/hold reads.
figure() {
    printf '%s %s %.0f\n' "${0##*/}" "$1" "$2" >>"$folder/figures"
}
