# Shared by run, watched and power: what is needed, and how the parts are compiled. `here`, `top` and `work` are set by who reads it.

stop() {
    echo "attack: $*" >&2
    exit 2
}

need() {
    command -v "$1" >/dev/null || stop "$1 is needed (Debian package $2)"
}

# A clang that has libFuzzer and the sanitizers.
find_clang() {
    for clang in ${CLANG:-clang-14 clang}; do
        command -v "$clang" >/dev/null || continue
        echo 'int LLVMFuzzerTestOneInput(const unsigned char *d, unsigned long n) { (void)d; (void)n; return 0; }' >"$work/try.c"
        "$clang" -fsanitize=fuzzer,address,undefined "$work/try.c" -o "$work/try" 2>/dev/null && return
    done
    stop "a clang with libFuzzer and sanitizers is needed (Debian packages clang-14 and libclang-rt-14-dev)"
}

find_sources() {
    : "${THRU_SRC:=$top/../shared/docs/src}"
    THRU_SRC=$(cd "$THRU_SRC" 2>/dev/null && pwd) || stop "the Rust's source folder is not there (set THRU_SRC, see judge/README.md)"
    [ -d "$THRU_SRC/rpc/abi" ] || stop "THRU_SRC does not hold the sources: $THRU_SRC/rpc/abi is missing"
    export THRU_SRC
}

# The Rattle toolchain's own folder, and its clang; false where it is not here or has another form.
find_kit() {
    rt=$(command -v rt) || return
    kit=$(dirname "$(dirname "$(readlink -f "$rt")")")
    kit_clang=$kit/toolchain/bin/clang
    [ -x "$kit_clang" ] && [ -x "$kit/bin/rattle" ]
}

# compile_watched MODULE OBJECT: a module's text with counters for edges and checks of addresses, its calls renamed.
compile_watched() {
    awk -f "$here/watched.awk" "$1" >"$work/watched.ll" || return
    grep -q '^attributes .*noinline nounwind sanitize_address' "$work/watched.ll" || return
    "$kit_clang" --target=x86_64-unknown-linux-gnu -march=x86-64 -fPIC -O1 -mllvm -trap-unreachable -mllvm -no-trap-after-noreturn \
        -fsanitize=address -fsanitize-coverage=inline-8bit-counters,pc-table -c -x ir "$work/watched.ll" -o "$work/plain.o" || return
    nm "$work/plain.o" | sed -n 's/^.* T \(ciztarmo_.*\)$/\1 watched_\1/p' >"$work/names"
    objcopy --redefine-syms="$work/names" "$work/plain.o" "$2"
}

# The driver with counters for its edges. With --target, so that build scripts are not instrumented.
build_driver() {
    counters='-C passes=sancov-module -C llvm-args=-sanitizer-coverage-level=4'
    counters="$counters -C llvm-args=-sanitizer-coverage-inline-8bit-counters -C llvm-args=-sanitizer-coverage-pc-table"
    RUSTFLAGS=$counters CARGO_TARGET_DIR=$work/driver cargo build --offline --quiet --release --locked \
        --target x86_64-unknown-linux-gnu --manifest-path "$here/driver/Cargo.toml" >&2 || stop "the driver does not compile"
    driver=$work/driver/x86_64-unknown-linux-gnu/release/libattack_driver.a
}

# compile_fuzzer WATCHED: the C parts. WATCHED is an object, or a file that is not there.
compile_fuzzer() {
    flags='-std=c11 -O1 -g -Wall -Wextra -Wpedantic -Werror -fsanitize=address,undefined -fno-sanitize-recover=all'
    [ ! -f "$1" ] || flags="$flags -DATTACK_WATCHED"
    objects=
    for object in attack counts input lent blocks fresh mutate; do
        # shellcheck disable=SC2086
        "$clang" $flags ${ATTACK_FLAGS:-} -c "$here/$object.c" -o "$work/$object.o" || stop "$object.c does not compile"
        objects="$objects $work/$object.o"
    done
}

# link_fuzzer ARCHIVE WATCHED PROGRAM
link_fuzzer() {
    watched=
    [ ! -f "$2" ] || watched=$2
    # shellcheck disable=SC2086
    "$clang" -no-pie -fsanitize=fuzzer,address,undefined -Wl,--gc-sections,-z,start-stop-gc $objects $watched "$driver" "$1" \
        -lpthread -ldl -lm -o "$3" || stop "the fuzzer is not linked"
}

build_seeds() {
    "$clang" -std=c11 -O1 -Wall -Wextra -Wpedantic -Werror "$here/seeds.c" "$here/limits.c" "$here/damage.c" "$here/blocks.c" \
        "$here/input.c" -o "$work/seeds-of" || stop "seeds.c does not compile"
    rm -rf "$work/seeds" "$work/once" "$work/blocks"
    mkdir -p "$work/seeds/short" "$work/seeds/long" "$work/once/short" "$work/once/long" "$work/blocks" "$work/corpus" "$work/corpus-long"
    # The inputs that take long: small ones and ones with full registries are mutated, those of 65,000 bytes are tried once.
    "$top/judge/run" slow "$work/blocks" || stop "the judge does not write the inputs that take long"
    seeds=$("$work/seeds-of" "$work/seeds" "$top/judge/vectors/answers.bin" "$top/examples/trip" \
        "$work/blocks"/small-* "$work/blocks"/one-*) || stop "there are no seeds"
    "$work/seeds-of" --blocks "$work/once" "$work/blocks"/full-* "$work/blocks"/types-* "$work/blocks"/layout-* \
        "$work/blocks"/long-* >"$work/once-count" || stop "there are no long seeds"
}

# Everything but the fuzzer itself. The Rust and the watched code take more stack than what is usual.
prepare() {
    mkdir -p "$work"
    need cargo cargo
    need nm binutils
    find_clang
    find_sources
    lib=$("$top/archive")
    "$here/watched" "$lib/libciztarmo.a" "$work" || stop "the watched code could not be made"
    build_driver
    ulimit -s 1000000 2>/dev/null || ulimit -s "$(ulimit -H -s)"
    ASAN_OPTIONS=detect_leaks=0:malloc_context_size=2
    export ASAN_OPTIONS
}
