# Sourced by run: the launcher over a program and a toolchain that stand in for the
# true ones, in a repository of two crates, for what the true ones do seldom: every
# status, no status, a crash, sources that are newer, a check that fails, a machine
# of another kind, programs in dist/ of these sources and of others.
stand=$folder/stand
mkdir -p "$stand/crates/tool/src" "$stand/crates/ground/src" "$stand/crates/apart/src" "$stand/tools"
cp "$root/quieuvodan" "$root/KIT-ID" "$stand/"
printf '# layers\nground:\napart:\ntool: ground io\n' >"$stand/crates.txt"
printf '%s\n' '// tool [-x] WHAT: does what it is told.' '// -x: more of it.' '//' '// WHAT is a word.' 'mod tool;' '// not this' \
    >"$stand/crates/tool/src/main.rt"
: >"$stand/crates/ground/src/lib.rt"
: >"$stand/crates/apart/src/lib.rt"
cat >"$stand/program" <<'END'
#!/usr/bin/env bash
[ "$1" = --status-on ] || { echo "tool: no descriptor" >&2; exit 0; }
on=$2
shift 2
case $1 in
    status) echo done && printf %s "$2" >&"$on" ;;
    said) echo 'usage: tool' >&2 && echo '... far' >&2 && printf 0 >&"$on" ;;
    words) printf '<%s>' "$@" && printf 0 >&"$on" ;;
    crash) kill -s SEGV $$ ;;
    late) printf 0 >&"$on" && kill -s SEGV $$ ;;
esac
END
cat >"$stand/tools/rt" <<'END'
#!/usr/bin/env bash
name=${PWD##*/}
echo "$*" >>../../rt-called
sleep "${SLOW:-0}"
echo "logic=proved functions=1"
sleep "${SLOW:-0}"
[ -z "${FAIL:-}" ] || { echo "error: a fact" && echo "logic=not-proved" && exit 1; }
echo "logic=proved functions=2"
mkdir -p out && cp ../../program "out/$name" && chmod +x "out/$name"
END
# The program that stands in is a script: no emulator may run it, whatever machine this is.
printf '#!/bin/sh\necho x86_64\n' >"$stand/tools/uname"
chmod +x "$stand/tools/rt" "$stand/tools/uname"

# stand ARGS..: as call, in the repository that stands in; progress is kept. What it has in dist/ is run, if it has.
stand() {
    (cd "$stand" && unset QUIEUVODAN_DIST && PATH=$stand/tools:$PATH ./quieuvodan "$@") >"$folder/out" 2>"$folder/err"
    status=$? why=
}
# calls NUMBER: how often the toolchain was called since this was asked last.
calls() {
    [ "$(cat "$stand/rt-called" 2>/dev/null | wc -l)" = "$1" ] || why="$why the toolchain was not called $1 times;"
    rm -f "$stand/rt-called"
}
# says TEXT: what is on standard error, save which crate is being proved.
says() { [ "$(grep -v '^\.\.\. proving ' "$folder/err")" = "$1" ] || why="$why standard error is not as it should be;"; }

SLOW=2.5 stand tool status 0
status_is 0
calls 1
says '... building tool'
[ "$(grep '^\.\.\. proving ' "$folder/err")" = '... proving ground (1 of 2)
... proving tool (2 of 2)' ] || why="$why it does not say which crate is being proved;"
verdict "launcher: a program that is not built" "$why"
for digit in 0 1 2 3; do
    stand tool status $digit
    status_is $digit
    calls 0
    says ''
    verdict "launcher: status $digit" "$why"
done
stand tool said
status_is 0
says 'usage: tool
... far'
verdict "launcher: standard error is the program's affair" "$why"
stand tool words 'a b' '' '*' --help -- -
status_is 0
[ "$(cat "$folder/out")" = '<words><a b><><*><--help><--><->' ] || why="$why other words;"
verdict "launcher: words as they are" "$why"
stand tool nothing
status_is 1
says_one_line '^quieuvodan: tool .'
verdict "launcher: no status" "$why"
for end in crash late; do
    stand tool $end
    status_is 139
    says_one_line '^quieuvodan: tool .* signal 11$'
    verdict "launcher: a $end by signal 11" "$why"
done
stand tool --help
status_is 0
calls 0
[ "$(cat "$folder/out")" = 'usage: ./quieuvodan tool [-x] WHAT
does what it is told.
-x: more of it.

WHAT is a word.' ] || why="$why another text;"
verdict "launcher: --help is the head of the program's main" "$why"

# Sources that are newer than the program, and others.
for source in crates/tool/src/main.rt crates/ground/src/lib.rt crates.txt crates/ground/src; do
    sleep 0.1
    touch "$stand/$source"
    stand tool status 0
    status_is 0
    calls 1
    says '... building tool'
    stand tool status 0
    calls 0
    verdict "launcher: $source is newer" "$why"
done
touch "$stand/crates/apart/src/lib.rt"
stand tool status 0
status_is 0
calls 0
verdict "launcher: a crate that the program does not stand on is newer" "$why"

# Programs that are there. The one of dist/ says so.
mkdir -p "$stand/dist/bin"
sed 's/echo done/echo from dist/' "$stand/program" >"$stand/dist/bin/tool"
chmod +x "$stand/dist/bin/tool"
# manifest: dist/MANIFEST of the sources that stand there now.
manifest() {
    (cd "$stand" && echo "machine x86_64" &&
        echo "program tool $(sha256sum <dist/bin/tool | cut -d' ' -f1) $(./quieuvodan --sources tool | cut -d' ' -f2) 0123456789ab") >"$stand/dist/MANIFEST"
}
manifest
# ran WHERE CALLS NAME: where the program that ran is from, and how often the toolchain was called.
ran() {
    status_is 0
    [ "$(cat "$folder/out")" = "$1" ] || why="$why it is not the program that ran;"
    calls "$2"
    verdict "launcher: $3" "$why"
}
touch "$stand/crates.txt"
stand tool status 0
says ''
ran 'from dist' 0 "dist has the program of these sources"
stand --which tool
ran "$stand/dist/bin/tool" 0 "--which of what dist has"
stand --prove tool status 0
says '... building tool'
ran 'done' 1 "--prove, whatever dist has"
(export QUIEUVODAN_DIST=0 && cd "$stand" && PATH=$stand/tools:$PATH ./quieuvodan tool status 0) >"$folder/out" 2>"$folder/err"
status=$? why=
ran 'done' 0 "QUIEUVODAN_DIST=0"
echo '// another line' >>"$stand/crates/apart/src/lib.rt"
stand tool status 0
ran 'from dist' 0 "a crate that the program of dist does not stand on has changed"
mkdir "$stand/crates/ground/proofs"
for source in crates/ground/src/lib.rt crates/ground/proofs/Law.antt crates/tool/src/main.rt crates.txt KIT-ID; do
    cp "$stand/$source" "$folder/source" 2>/dev/null || : >"$folder/source"
    case $source in
        crates.txt) sed -i 's/^ground:/ground: io/' "$stand/$source" ;;
        *) echo '// another line' >>"$stand/$source" ;;
    esac
    touch "$stand/crates/tool/out/tool"
    sleep 0.1
    touch "$stand/$source"
    stand tool status 0
    ran 'done' 1 "$source is not what dist was made of"
    cp "$folder/source" "$stand/$source"
    [ -s "$stand/$source" ] || [ "$source" != crates/ground/proofs/Law.antt ] || rm "$stand/$source"
    stand tool status 0
    ran 'from dist' 0 "$source is again what dist was made of"
done
mv "$stand/tools/rt" "$stand/rt"
stand tool status 0
ran 'from dist' 0 "dist has the program, and there is no toolchain"
mv "$stand/rt" "$stand/tools/rt"
echo '# another byte' >>"$stand/dist/bin/tool"
touch "$stand/crates.txt"
stand tool status 0
says '... dist/bin/tool is not the file of dist/MANIFEST, and is left alone
... building tool'
ran 'done' 1 "a file in dist that is not the one of its manifest"
rm -r "$stand/dist"
touch "$stand/crates.txt"
FAIL=1 stand tool status 0
status_is 1
writes_nothing
says '... building tool
logic=proved functions=1
error: a fact
logic=not-proved
quieuvodan: tool could not be built'
verdict "launcher: a check that fails" "$why"
rm "$stand/tools/rt"
for name in bash env dirname readlink awk sed sort cut find cat sha256sum xargs; do ln -s "$(command -v $name)" "$stand/tools/$name"; done
(cd "$stand" && PATH=$stand/tools ./quieuvodan tool status 0) >"$folder/out" 2>"$folder/err"
status=$? why=
status_is 1
says_one_line '^quieuvodan: .* rt'
writes_nothing
verdict "launcher: no toolchain" "$why"

# A newcomer's first command, where there is no toolchain: of the tree as it stands, if dist/ was made of it.
if [ "$(sed -n 's/^crate //p' "$root/dist/MANIFEST" 2>/dev/null)" = "$(cd "$root" && ./quieuvodan --sources)" ]; then
    mkdir "$folder/new" "$folder/few"
    cp -R "$root"/{quieuvodan,KIT-ID,crates.txt,crates,dist,samples} "$folder/new/"
    for name in bash env dirname readlink awk sed sort cut find cat sha256sum xargs uname qemu-x86_64 rm; do
        ! file=$(command -v $name) || ln -s "$file" "$folder/few/$name"
    done
    (cd "$folder/new" && unset QUIEUVODAN_DIST && PATH=$folder/few ./quieuvodan night "${whole[@]}") >"$folder/out" 2>"$folder/err"
    status=$? why=
    status_is 0
    writes samples/night-1-2.expected
    says_nothing
    verdict "launcher: the first command, without a toolchain" "$why"
else
    echo "skipped: the first command without a toolchain: dist/ is not of the sources that stand here"
fi

# A machine of another kind, without an emulator, where nothing may be installed.
touch "$stand/crates/tool/out/tool"
printf '#!/bin/sh\necho riscv64\n' >"$stand/tools/uname"
printf '#!/bin/sh\necho 0\n' >"$stand/tools/id"
printf '#!/bin/sh\necho "$*" >>%s/apt-called\nexit 1\n' "$stand" >"$stand/tools/apt-get"
chmod +x "$stand/tools/uname" "$stand/tools/id" "$stand/tools/apt-get"
(cd "$stand" && QUIEUVODAN_INSTALL=0 PATH=$stand/tools ./quieuvodan tool status 0) >"$folder/out" 2>"$folder/err"
status=$? why=
status_is 1
says_one_line '^quieuvodan: qemu-user .*install'
[ ! -e "$stand/apt-called" ] || why="$why something was installed;"
verdict "launcher: nothing may be installed" "$why"
(cd "$stand" && PATH=$stand/tools ./quieuvodan tool status 0) >"$folder/out" 2>"$folder/err"
status=$? why=
status_is 1
[ "$(head -n 1 "$folder/err")" = '... installing qemu-user' ] || why="$why it is not said before;"
[ -s "$stand/apt-called" ] || why="$why nothing was installed;"
verdict "launcher: what is missing is named before it is installed" "$why"
