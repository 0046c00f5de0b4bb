# Builds the program that has both readers in it: sourced by run, show, time, cases and sample, which set `beside` to
# this folder. README.md says what is built from what. Exit status: 1 our library was not proved; 2 something is missing.
root=$(cd "$beside/.." && pwd -P)
folder=${RUST_TEXT:-$root/../shared}
case $folder in /*) ;; *) folder=$PWD/$folder ;; esac
build=$root/target/beside

say() {
    printf 'beside: %s\n' "$*" >&2
}

stop() { # STATUS WORDS
    status=$1
    shift
    say "$*"
    exit "$status"
}

# ---- the customer's Rust: drom.rs as it is, the items that it needs cut out of util.rs as text, and our stand-ins

# Prints the item that begins with a line START, from its attributes to the closing brace at a line's front.
item() { # FILE START
    START=$2 awk '
        /^#\[/ { attributes = attributes $0 "\n"; next }
        index($0, ENVIRON["START"]) == 1 { found++; inside = 1; printf "%s", attributes }
        { attributes = "" }
        inside { print }
        inside && /^}/ { inside = 0; print "" }
        END { exit found != 1 || inside }' "$1" || stop 2 "cannot cut '$2' out of $1"
}

copy_rust() {
    rm -rf "$build/tbtools"
    mkdir "$build/tbtools"
    cp "$beside"/standins/*.rs "$build/tbtools/"
    cp "$drom" "$build/tbtools/drom.rs"
    for start in 'macro_rules! genmask_t {' 'pub fn crc8(' 'pub fn crc32(' 'pub fn bytes_to_utf16_ascii('; do
        item "$util" "$start"
    done >"$build/tbtools/util.rs"
}

compile_rust() {
    rustc -O --edition 2024 --crate-name tbtools --crate-type rlib --cap-lints allow \
        -o "$build/libtbtools.rlib" "$build/tbtools/lib.rs" || stop 2 "rustc refused the customer's Rust"
}

# ---- our library: the crate capi_c, proved, as libcapi.a

# Writes libcapi.a, and to the file `ours` what it is. The toolchain runs on x86-64 alone, and writes for it.
build_ours() {
    "$root/bindings/library" || stop $? "our library was not built"
    cp "$root/target/staticlib/libcapi.a" "$build/libcapi.a"
    echo "ours: libcapi.a (x86-64)" >"$build/ours"
}

# ---- both, in one program

compile_driver() {
    rustc -O --edition 2024 --crate-name drom --crate-type rlib -L "native=$build" -l static=capi \
        -o "$build/libdrom.rlib" "$root/bindings/rust/src/lib.rs" || stop 2 "rustc refused bindings/rust"
    rustc -O --edition 2024 --crate-name beside --extern "tbtools=$build/libtbtools.rlib" \
        --extern "drom=$build/libdrom.rlib" -o "$build/driver" "$beside/driver/main.rs" ||
        stop 2 "rustc refused the driver"
}

# All that files are built from, in one number.
sum_of() { # FILES, from the repository's root
    { rustc -V && rt version && (cd "$root" && find "$@" -name out -prune -o -type f -print | LC_ALL=C sort | xargs cksum); } | cksum
}

# Whether a PART was built from what has this SUM. If not, what is there of it is forgotten, also if the build stops.
is_built() { # PART SUM
    [ "$(cat "$build/$1.sum" 2>/dev/null)" = "$2" ] || {
        rm -f "$build/$1.sum"
        return 1
    }
}

# Writes the program to target/beside/driver. What is there and is built from what has not changed is not built again.
build_driver() {
    command -v rustc >/dev/null || stop 2 "rustc is missing: without it the customer's Rust cannot be run"
    command -v rt >/dev/null || stop 2 "rt is missing: without it our library cannot be built"
    drom=$folder/src--src--drom.rs.txt
    util=$folder/src--src--util.rs.txt
    [ -r "$drom" ] && [ -r "$util" ] || stop 2 "no drom.rs and util.rs in $folder: RUST_TEXT names their folder"
    mkdir -p "$build"
    sum=$(sum_of crates.txt crates bindings/library)
    if ! is_built ours "$sum"; then
        say "proving and building our library, which takes minutes"
        build_ours
        echo "$sum" >"$build/ours.sum"
    fi
    sum="$sum $(sum_of bindings/rust/src beside/build.sh beside/driver beside/standins) $(cat "$drom" "$util" | cksum)"
    if ! is_built driver "$sum"; then
        say "building the program with both in it"
        copy_rust
        compile_rust
        compile_driver
        echo "$sum" >"$build/driver.sum"
    fi
}
