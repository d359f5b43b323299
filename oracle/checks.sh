# What oracle/run and oracle/live/run share. Sourced from a script whose first lines set `here`, the folder of oracle/; works in that
# folder afterwards. Without cargo or the original's text one line says what was not compared, and the script ends well.
if ! command -v cargo > /dev/null; then
    echo "not compared: cargo is not here, so the original Rust was not run"
    exit 0
fi
docs=${PASETONE_DOCS_SRC:-$here/../../shared/docs/src}
if [ ! -f "$docs/src/lib.rs" ]; then
    echo "not compared: the original Rust is not here (../shared/docs/src, or the folder that PASETONE_DOCS_SRC names)"
    exit 0
fi
PASETONE_DOCS_SRC=$(cd "$docs" && pwd)
export PASETONE_DOCS_SRC
cd "$here" || exit 1

work=$(mktemp -d) || exit 1
trap 'rm -rf "$work"' EXIT

fail() {
    echo "oracle: FAILED: $1"
    exit 1
}
# passed NAME COUNT: one program has run to its end, and this many things in it were looked at.
passed() {
    [ "${2:-0}" -gt 0 ] || fail "$1 looked at nothing"
    echo "oracle: $2 checks passed"
    echo "PASS $1"
}
build() {
    cargo build --offline --locked --quiet --target-dir target "$@" || fail "cargo build $*"
}
# tidy PACKAGE: its layout and lints, where cargo has them. The stand-ins and the original's text are not asked: they are as they were published, or no more than that needs.
tidy() {
    if cargo fmt --version > /dev/null 2>&1; then
        cargo fmt --check --package "$1" || fail "cargo fmt --check, $1"
        echo "PASS $1-fmt"
    else
        echo "not compared: rustfmt is not here"
    fi
    if cargo clippy --version > /dev/null 2>&1; then
        cargo clippy --offline --locked --quiet --target-dir target --all-targets --no-deps --package "$1" -- -D warnings || fail "cargo clippy, $1"
        echo "PASS $1-clippy"
    else
        echo "not compared: clippy is not here"
    fi
}
# checked NAME PROGRAM ARGUMENTS: a program that counts its checks and exits 1 on a fault.
checked() {
    local name=$1
    shift
    "$@" > "$work/out" || { cat "$work/out"; fail "$name"; }
    cat "$work/out"
    passed "$name" "$(sed -n 's/^[a-z]*: \([0-9]*\) checks, 0 faults.*/\1/p' "$work/out")"
}
