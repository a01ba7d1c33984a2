# Sourced by the scripts here and by bench/common.sh: the compiler for x86-64, the
# emulator where the machine is another, and the archive to link with.
# Sets cc, objcopy, link, flags, emulator; `link_with` sets archive and standin.

root=$(cd "$(dirname "${BASH_SOURCE[0]}")/../.." && pwd)
outside=$root/tests/outside
flags=(-std=gnu11 -O2 -Wall -Wextra -Wpedantic -Wconversion -Wshadow -Wstrict-prototypes -Wmissing-prototypes
    -I "$root/include")

# The calls of the library's C boundary, as include/quieuvodan.h declares them.
boundary=$(sed -n 's/^uint[0-9]*_t \(qvd_[a-z0-9_]*\)(.*/\1/p' "$root/include/quieuvodan.h")

# install_missing COMMAND PACKAGE..: installs Debian packages if the command is
# missing, and says so before; QUIEUVODAN_INSTALL=0 forbids it.
install_missing() {
    local command=$1
    shift
    command -v "$command" >/dev/null && return
    local sudo=
    [ "$(id -u)" = 0 ] || sudo='sudo -n'
    [ "${QUIEUVODAN_INSTALL:-1}" != 0 ] || { echo "${0##*/}: $command is missing: install $* first" >&2; exit 1; }
    echo "... installing $*" >&2
    { $sudo apt-get update -q && DEBIAN_FRONTEND=noninteractive $sudo apt-get install -q -y --no-install-recommends "$@"; } \
        >/dev/null 2>&1 </dev/null ||
        { echo "${0##*/}: $command is missing and could not be installed: install $* first" >&2; exit 1; }
}

if [ "$(uname -m)" = x86_64 ]; then
    install_missing gcc gcc libc6-dev
    cc=gcc objcopy=objcopy emulator=
else
    install_missing x86_64-linux-gnu-gcc gcc-x86-64-linux-gnu libc6-dev-amd64-cross
    install_missing qemu-x86_64 qemu-user
    cc=x86_64-linux-gnu-gcc objcopy=x86_64-linux-gnu-objcopy emulator=qemu-x86_64
fi
link="-static"

# build_standin FOLDER OUT [SOURCES [NAMES]]: the stand-in as one object that shows
# nothing but the boundary, so that it can be linked beside the independent
# implementation. SOURCES is where ref.c, words.c, cnav1.c, sheet.c, forms.c, table.c and standin.c are taken from;
# with NAMES only these are compiled, and the other objects are in FOLDER already.
standin_names='ref words cnav1 sheet forms table standin'
build_standin() {
    local folder=$1 out=$2 sources=${3:-$outside} names=${4:-$standin_names} name
    local objects=() keep=()
    for name in $names; do
        $cc "${flags[@]}" -c -o "$folder/standin-$name.o" "$sources/$name.c" || return
    done
    for name in $standin_names; do objects+=("$folder/standin-$name.o"); done
    for name in $boundary; do keep+=(-G "$name"); done
    $cc -nostdlib -r -o "$out" "${objects[@]}" && $objcopy "${keep[@]}" "$out"
}

# link_with FOLDER: what the programs are linked with goes to $archive.
# The library if there is one, else the stand-in; QVD_STANDIN=1 asks for the
# stand-in, QVD_ARCHIVE=FILE for an archive that is already built.
link_with() {
    local folder=$1 built=$root/target/staticlib/libquieuvodan.a
    standin=no
    if [ "${QVD_STANDIN:-0}" != 1 ] && [ -n "${QVD_ARCHIVE:-}" ]; then
        archive=$QVD_ARCHIVE
    elif [ "${QVD_STANDIN:-0}" != 1 ] && [ -d "$root/crates/quieuvodan" ]; then
        if [ ! -f "$built" ] || [ -n "$(find "$root"/crates/*/src -newer "$built" -print -quit)" ]; then
            echo "building the library" >&2
            "$root/tools/staticlib" >"$folder/staticlib.log" 2>&1 ||
                { tail -n 20 "$folder/staticlib.log" >&2; echo "the library was not built" >&2; exit 2; }
        fi
        cp "$built" "$folder/libquieuvodan.a"
        archive=$folder/libquieuvodan.a
    else
        standin=yes
        build_standin "$folder" "$folder/standin.o" || exit 2
        archive=$folder/standin.o
    fi
}

# loud_if_standin: says on standard output that the library was not there.
loud_if_standin() {
    [ "$standin" = yes ] || return 0
    echo "************************************************************************"
    echo "*** STAND-IN: the independent implementation is run against itself;  ***"
    echo "*** this says nothing about the library.                             ***"
    echo "************************************************************************"
}
