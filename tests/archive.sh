# What ./install and the tests that link the archive share; they source it from the repository's root.
#
# The archive is what `rt lib` makes of crates/abi_c. It is for x86-64, as rt's kit is. Where that runs on another processor there are two ways to use the archive:
#   cross  Debian's cross compilers and Debian's emulator: the archive itself, slowly
#   own    the same LLVM code, compiled for this processor by the kit's compiler: not the archive, but times mean something
# On x86-64 both are the archive itself. After `archive_for cross` or `archive_for own` the rest of this file builds and runs for it, and
# ARCHIVE is it under the name that a program links, libgcf.a. `archive_target` compiles the same code for any processor.

archive_machine=$(uname -m)
archive_root=$PWD
archive_kit=$(dirname "$(dirname "$(readlink -f "$(command -v rt)")")")
archive_tools=$archive_kit/toolchain

# what is told of its building as it happens: who wants to tell it names a command that reads what rt says
archive_tell=(cat)

# Debian's packages for `cross`; nothing is asked of the network where they are there
archive_cross_tools() {
    if command -v x86_64-linux-gnu-gcc >/dev/null && [ -f /usr/x86_64-linux-gnu/include/stdio.h ] && [ -d /usr/lib/rustlib/x86_64-unknown-linux-gnu ]; then
        return 0
    fi
    [ "$(id -u)" = 0 ] || return 1
    {
        dpkg --add-architecture amd64 && apt-get update &&
            DEBIAN_FRONTEND=noninteractive apt-get install -y --no-install-recommends \
                gcc-x86-64-linux-gnu libc6-dev-amd64-cross rustc libstd-rust-dev:amd64
    } >target/cross.log 2>&1
}

# the kit's compiler for this processor
archive_clang=("$archive_tools/bin/clang" --target="$archive_machine-unknown-linux-gnu" --no-default-config -Wno-override-module)

# The same code without what is x86-64's own: the processor that each function names, which a compiler for another one would take for one that can do
# nothing special. A struct that is given is written where a first pointer says, which needs its mark, since Arm has a register of its own for it, and does
# not come back. A byte or a bool that is returned fills its register with zeros, which RISC-V and Arm of 32 bits ask for.
archive_unnamed() { # FILE OUT
    "${archive_clang[@]}" -S -emit-llvm -Xclang -disable-llvm-passes -x ir "$1" -o "$2" &&
        sed -i -E -e '/^attributes /s/ "(target-cpu|target-features|tune-cpu)"="[^"]*"//g' \
            -e '/^define noundef ptr @gcf_/,/^}/ { s/^define noundef ptr (@[a-z_]+\(ptr noundef) /define void \1 sret(i8) /; s/^  ret ptr %a0$/  ret void/ }' \
            -e 's/^define noundef (i1|i8) @/define noundef zeroext \1 @/' "$2"
}

# What the kit's compiler is called with for a target. Rust's name of a RISC-V microcontroller says what the processor can do, clang's does not.
archive_flags() { # TRIPLE
    case $1 in
    riscv32imac-unknown-none-elf) echo --target=riscv32-unknown-elf -march=rv32imac -mabi=ilp32 ;;
    *) echo "--target=$1" ;;
    esac
}

# Whether a target is a microcontroller, where bytes of code and of stack count.
archive_is_small() { case $1 in thumbv* | riscv32*) ;; *) return 1 ;; esac; }

# The same code as a target takes it. A struct that is handed over by value has a mark, which on Arm of 32 bits says that its words come one by one, as C there
# has it; elsewhere a pointer to it comes, which is what is left without the mark. On a microcontroller each function is to be short.
archive_as() { # TRIPLE
    case $1 in
    arm* | thumb*) cat target/own/code.ll ;;
    *) sed -E '/^define /s/ byval\([^)]*\)//g' target/own/code.ll ;;
    esac | if archive_is_small "$1"; then sed -E 's/^(attributes #[0-9]+ = \{ nounwind) "/\1 optsize "/'; else cat; fi
}

# Of LLVM text on standard input, one function with all that it reaches. What it reaches is seen by nobody else, so that the compiler fits it to this one use.
archive_reached() { # NAME
    awk -v keep="@$1" '
        function note(line,    name) {
            while (match(line, /@("[^"]*"|[A-Za-z0-9_.$]+)/)) {
                name = substr(line, RSTART, RLENGTH)
                if (!(name in wanted)) { wanted[name]; todo[++last] = name }
                line = substr(line, RSTART + RLENGTH)
            }
        }
        {
            text[NR] = $0
            if (match($0, /^(define |declare |@)/)) {
                inside = $0
                sub(/^[^@]*/, "", inside)
                match(inside, /^@("[^"]*"|[A-Za-z0-9_.$]+)/)
                inside = substr(inside, 1, RLENGTH)
                from[inside] = NR
            }
            owner[NR] = inside
            if (inside != "") to[inside] = NR
            if ($0 ~ /^(}|declare |@)/) inside = ""
        }
        END {
            note(keep)
            for (k = 1; k <= last; k++) for (i = from[todo[k]]; i && i <= to[todo[k]]; i++) note(text[i])
            for (i = 1; i <= NR; i++) if (owner[i] == "" || owner[i] in wanted) print text[i]
        }'
}

# What the archive is made from, as one number: the kit, and the code of `abi_c` and of the crates that it stands on.
archive_stamp() {
    local crate folders=()
    for crate in abi_c $(python3 tests/lib/kit.py below abi_c); do folders+=("crates/$crate/src"); done
    { rt version && sed -n '/^abi_c /p' crates.txt && find "${folders[@]}" -type f -print0 | sort -z | xargs -0 sha256sum; } | sha256sum
}

# The libraries below it: those that `rt ci` has left, where .ci/run says in target/proved that they are of this code, or else what `rt lib` makes.
archive_libraries() { # FOLDER
    if [ "$(archive_stamp)" = "$(cat target/proved 2>/dev/null)" ] && python3 tests/lib/kit.py built abi_c; then return 0; fi
    (set -o pipefail && cd crates/abi_c && rt lib </dev/null 2>&1 | tee "$1/log" | (cd "$archive_root" && { [ "${archive_tell[0]}" != cat ] || exec >/dev/null; "${archive_tell[@]}"; }))
}

# The kit's toolchain, but for a compiler that also keeps the code it is handed and the words it is called with.
archive_keeping_tools() { # FOLDER NAME
    local tools=$1/tools.$2 part
    rm -rf "$tools" && mkdir -p "$tools/bin" || return 1
    for part in "$archive_tools"/*; do [ "${part##*/}" = bin ] || ln -s "$part" "$tools/" || return 1; done
    for part in "$archive_tools"/bin/*; do [ "${part##*/}" = clang ] || ln -s "$part" "$tools/bin/" || return 1; done
    cat >"$tools/bin/clang" <<END
#!/bin/sh
for word in "\$@"; do case \$word in *.bc) cp "\$word" "$1/$2.bc" && printf '%s\\n' "\$@" >"$1/$2.words" ;; esac; done
exec "$archive_tools/bin/clang" "\$@"
END
    chmod +x "$tools/bin/clang"
}

# What `rt lib` and `rt run` make of a crate, over the libraries that are built, by that compiler: FOLDER/NAME.bc and FOLDER/NAME.words are its code and the words.
archive_build() { # FOLDER NAME OUT
    local words
    mapfile -t words < <(python3 tests/lib/kit.py words "$2")
    [ ${#words[@]} != 0 ] && archive_keeping_tools "$1" "$2" || return 1
    (cd "crates/$2" && "$archive_kit/bin/rattle" build "${words[@]}" --jobs 2 --toolchain "$1/tools.$2" --backend llvm -o "$3" </dev/null) >"$1/$2.log" 2>&1 && [ -f "$1/$2.bc" ]
}

# The archive and its code, once for each stamp, whoever asks first: target/own/libabi_c.a, target/own/abi_c.bc and target/own/abi_c.words. One at a time, and not
# beside a gcf or an ./install that builds.
archive_made() {
    local here=$PWD/target/own
    mkdir -p "$here" || return 1
    ! archive_is_made "$here" || return 0
    (
        flock 7 || exit 1
        ! archive_is_made "$here" || exit 0
        rm -f "$here/stamp" "$here/abi_c.bc" "$here/code.ll" "$here/log"
        stamp=$(archive_stamp)
        archive_libraries "$here" && archive_build "$here" abi_c "$here/libabi_c.a" && printf '%s\n' "$stamp" >"$here/stamp"
    ) 7>target/gcf.lock
}
archive_is_made() { [ -f "$1/libabi_c.a" ] && [ -f "$1/abi_c.words" ] && [ "$(archive_stamp)" = "$(cat "$1/stamp" 2>/dev/null)" ]; } # FOLDER

# The same code without the processor that it names: target/own/code.ll.
archive_ll() {
    local here=$PWD/target/own part
    archive_made || return 1
    [ ! -f "$here/code.ll" ] || return 0
    part=$(mktemp "$here/code.ll.XXXXXXXX") && archive_unnamed "$here/abi_c.bc" "$part" >>"$here/log" 2>&1 && mv "$part" "$here/code.ll"
}

# The exported functions.
archive_exported() { sed -nE 's/^define [^@]*@(gcf_[a-z_]+)\(.*/\1/p' target/own/code.ll; }

# How a microcontroller's code is compiled: for size, but with calls taken in as for speed. That is shorter here, and halves the stack: what is handed to a call
# stands in memory, and what is taken in does not.
archive_small_words=(-Os -mllvm -inline-threshold=225 -ffunction-sections -fdata-sections)

# It compiled for a microcontroller, as FOLDER/libgcf.a, a member for each function: a program takes the members that it calls, and in each what that function
# reaches is fitted to it. The members stay beside it, as FOLDER/NAME.o, with the frames of each as FOLDER/NAME.su.
archive_small() { # TRIPLE FOLDER
    local name compiler=("$archive_tools/bin/clang" $(archive_flags "$1") --no-default-config -Wno-override-module "${archive_small_words[@]}" -fstack-usage)
    archive_ll && archive_as "$1" >"$2/all.ll" || return 1
    for name in $(archive_exported); do
        archive_reached "$name" <"$2/all.ll" | "${compiler[@]}" -c -x ir - -o "$2/$name.o" || return 1
    done
    "$archive_tools/bin/llvm-ar" crs "$2/libgcf.a" "$2"/gcf_*.o
}

# What an archive or an object asks of others. The kit's compiler is all of LLVM's tools, by the name that it is called.
archive_asked() { # FILE
    (exec -a llvm-nm "$archive_tools/bin/clang" -u --just-symbol-name "$1" 2>/dev/null) | sed -n '/^[^ :]*$/p' | sed '/^$/d' | sort -u
}

# It compiled for a processor, as FOLDER/libgcf.a. The archive is taken as it is for x86-64 Linux. It is put in its place whole, since tests that link
# it run side by side.
archive_target() { # TRIPLE FOLDER
    local log=$PWD/target/archive.log part
    mkdir -p "$2" && part=$(mktemp -d "$2/part.XXXXXXXX") || return 1
    if [ "$1" = x86_64-unknown-linux-gnu ]; then
        archive_made && cp target/own/libabi_c.a "$part/libgcf.a" || return 1
    elif archive_is_small "$1"; then
        archive_small "$1" "$part" >"$log" 2>&1 || return 1
    else
        archive_ll || return 1
        # blocks that are jumped to begin at 16 bytes: what a loop takes would else hang, by a seventh, on what stands before it
        archive_as "$1" | "$archive_tools/bin/clang" $(archive_flags "$1") --no-default-config -Wno-override-module -O3 -fPIC -ffunction-sections -fdata-sections \
            -mllvm -align-all-nofallthru-blocks=4 -c -x ir - -o "$part/gcf.o" >"$log" 2>&1 || return 1
        "$archive_tools/bin/llvm-ar" crs "$part/libgcf.a" "$part/gcf.o" || return 1
    fi
    mv "$part/libgcf.a" "$2/libgcf.a" && rm -r "$part"
}

# The code of programs, as target/own/NAME.bc, one at a time. Each is built by rt before, and with it what it stands on.
archive_programs() { # NAME..
    local here=$PWD/target/own
    mkdir -p "$here" || return 1
    (
        flock 5 || exit 1
        for name in "$@"; do
            made=crates/$name/out/$name
            [ -f "$here/$name.bc" ] && [ -x "$made" ] && [ "$here/$name.bc" -nt "$made" ] || { rm -f "$here/$name.bc" && archive_build "$here" "$name" "$here/$name.x86.o" || exit 1; }
        done
    ) 5>target/own/programs.lock
}

# One of them compiled and linked for Arm, with what it calls. It needs no C library, and nothing of the kit.
archive_native() { # NAME OUT
    local here=$PWD/target/own compiler=("$archive_tools/bin/clang" --target=aarch64-unknown-linux-gnu --no-default-config -Wno-override-module -O3)
    archive_unnamed "$here/$1.bc" "$here/$1.ll" &&
        "${compiler[@]}" -ffunction-sections -fdata-sections -c -x ir "$here/$1.ll" -o "$here/$1.o" &&
        "${compiler[@]}" -std=c99 -Wall -Wextra -Werror -ffreestanding -fno-builtin -c "$archive_root/native/start.c" -o "$here/$1.start.o" &&
        "$archive_tools/bin/ld.lld" --gc-sections "$here/$1.start.o" "$here/$1.o" -o "$2"
}

# That code as text for x86-64, compiled by the words that made the archive: target/own/abi_c.s.
archive_text() {
    local here=$PWD/target/own word words=()
    archive_made || return 1
    while IFS= read -r word; do
        case $word in
        -c) word=-S ;;
        *.bc) word=$here/abi_c.bc ;;
        *.o) word=$here/abi_c.s ;;
        esac
        words+=("$word")
    done <"$here/abi_c.words"
    "$archive_tools/bin/clang" "${words[@]}" >>"$here/log" 2>&1
}

# The same for another processor.
archive_text_for() { # TRIPLE FILE
    archive_ll && archive_as "$1" | "$archive_tools/bin/clang" $(archive_flags "$1") --no-default-config -Wno-override-module -O3 -fPIC -S -x ir - -o "$2" >>target/own/log 2>&1
}

archive_for() { # cross | own
    mkdir -p target
    local machine=$archive_machine part
    [ "$1" != cross ] || machine=x86_64
    ARCHIVE=$PWD/target/link/$machine/libgcf.a
    archive_target "$machine-unknown-linux-gnu" "${ARCHIVE%/*}" || return 1
    CC=(gcc)
    archive_run=()
    archive_rust=(rustc)
    if [ "$archive_machine" != x86_64 ] && [ "$1" = cross ]; then
        archive_cross_tools || return 1
        CC=(x86_64-linux-gnu-gcc)
        archive_run=(qemu-x86_64 "$archive_tools/lib/ld-linux-x86-64.so.2" --library-path "$archive_tools/lib")
        # a Rust program asks for its stack's bounds when it starts, which the emulator cannot tell; it does without where the call fails
        part=$(mktemp target/start.XXXXXXXX) && echo 'int pthread_getattr_np(void) { return 38; }' | x86_64-linux-gnu-gcc -O2 -c -x c - -o "$part" && mv "$part" target/start.o || return 1
        archive_rust=(/usr/bin/rustc --target x86_64-unknown-linux-gnu -C linker=x86_64-linux-gnu-gcc -C "link-arg=$PWD/target/start.o")
    fi
}

# the archive itself, or, where it cannot be run, the same code compiled for this processor
archive_ready() {
    archive_for cross && return
    echo 'the archive cannot be run here (target/archive.log, target/cross.log): the same code, compiled for this processor, is tried'
    archive_for own
}

# runs a program that was built so
run_it() { # FILE [WORD..]
    "${archive_run[@]}" "$@"
}

# Builds a program of second/against, which calls the archive, by the bindings, and the second program: AGAINST/NAME. It, and what it stands on, is built once for
# each stamp, one at a time.
build_against() { # NAME
    AGAINST=${ARCHIVE%/*}/against
    mkdir -p "$AGAINST" || return 1
    (
        flock 6 || exit 1
        words=(--extern "second=$AGAINST/libsecond.rlib" --extern "gcf=$AGAINST/libgcf.rlib")
        stamp=$({ "${archive_rust[@]}" --version && find "$ARCHIVE" second/src second/against/src bindings/rust/src -type f -print0 | sort -z | xargs -0 sha256sum; } | sha256sum)
        if [ "$stamp" != "$(cat "$AGAINST/stamp" 2>/dev/null)" ]; then
            rm -f "$AGAINST"/*stamp
            archive_rust_to "$AGAINST" second rlib second/src/lib.rs &&
                archive_rust_to "$AGAINST" gcf rlib bindings/rust/src/lib.rs &&
                archive_rust_to "$AGAINST" against rlib second/against/src/lib.rs "${words[@]}" &&
                printf '%s\n' "$stamp" >"$AGAINST/stamp" || exit 1
        fi
        [ ! -f "$AGAINST/$1.stamp" ] || exit 0
        # what is timed is compiled once more as a whole, so that the plain side loses nothing between its parts
        [ "$1" != benchmarks ] || words+=(-C lto)
        archive_rust_to "$AGAINST" "$1" bin "second/against/src/bin/$1.rs" "${words[@]}" --extern "against=$AGAINST/libagainst.rlib" && : >"$AGAINST/$1.stamp"
    ) 6>"$AGAINST/lock"
}

archive_rust_to() { # FOLDER NAME KIND FILE [WORD..]
    local out=$1 name=$2 kind=$3 file=$4
    shift 4
    "${archive_rust[@]}" --edition 2021 -C opt-level=3 -C codegen-units=1 --out-dir "$out" -L "dependency=$out" -L "native=${ARCHIVE%/*}" \
        --crate-name "$name" --crate-type "$kind" "$file" "$@"
}
