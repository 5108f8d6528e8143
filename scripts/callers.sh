#!/bin/sh
# Runs the programs that this formatter is made for, where they are there, and formats what they make: a second run has to change nothing, and
# rustc has to make the same items of both (scripts/same_items.py).
#
# usage: callers.sh [COMMAND [FRONT]]
#
# COMMAND is the proved one where none is named, and FRONT the crate's froesaffron. The programs are
# bindgen, lalrpop, protoc with protoc-gen-rust (Debian's packages bindgen, lalrpop,
# protobuf-compiler and protobuf-codegen), and rustc, whose expanded macros are formatted. It needs
# Python and rustc.
#
# What callers of a rustfmt make by FRONT has to be, byte for byte, what FRONT makes of their
# unformatted output: of bindgen, also of those that scripts/bindgens.sh has fetched; of cargo fmt;
# and of generators that have their files formatted in place, or in a pipe.
set -eu
. "$(dirname "$0")/usage.sh"
words 0 2 "$@"
top=$(cd "$(dirname "$0")/.." && pwd)
command=$(realpath "${1:-$top/crates/lay_fmt/out/lay_fmt}")
front=$(realpath -m "${2:-$top/rust/target/release/froesaffron}")
bindgens=${XDG_CACHE_HOME:-$HOME/.cache}/froesaffron/bindgens
made=$(mktemp -d)
trap 'rm -rf "$made"' EXIT
cd "$made"

there() {
    for program; do
        command -v "$program" >/dev/null || {
            echo "callers: $program isn't there"
            return 1
        }
    done
}

# The command as the program that a caller runs to format, under its own name.
mkdir bin
ln -s "$command" bin/lay_fmt
ln -s "$front" bin/froesaffron
PATH=$made/bin:$PATH:$bindgens

if there bindgen; then
    printf '#include <%s>\n' stdio.h stdlib.h string.h sys/socket.h > headers.h
    RUSTFMT=lay_fmt bindgen headers.h > bindings.rs
    bindgen --no-rustfmt-bindings headers.h > unformatted.rs
    lay_fmt -- unformatted.rs > formatted.rs
    # bindgen writes its own first lines around what is formatted.
    grep -v '^/\* automatically generated' bindings.rs | lay_fmt | cmp - formatted.rs
    python3 "$top/scripts/same_items.py" "$command" unformatted.rs
fi
if there lalrpop; then
    cat > calculator.lalrpop <<'END'
grammar;

pub Sum: i64 = {
    <left:Sum> "+" <right:Product> => left + right,
    <left:Sum> "-" <right:Product> => left - right,
    Product,
};

Product: i64 = {
    <left:Product> "*" <right:Atom> => left * right,
    Atom,
};

Atom: i64 = {
    r"[0-9]+" => <>.parse().unwrap(),
    "(" <Sum> ")",
};
END
    lalrpop --force calculator.lalrpop
    # rustc stops at a crate that isn't there, and goes on where names aren't.
    sed -i 's/extern crate lalrpop_util as /extern crate core as /' calculator.rs
    python3 "$top/scripts/same_items.py" "$command" calculator.rs
fi
if there protoc protoc-gen-rust; then
    cat > shapes.proto <<'END'
syntax = "proto3";
package shapes;
enum Kind { CIRCLE = 0; SQUARE = 1; }
message Point { double x = 1; double y = 2; }
message Shape { Kind kind = 1; repeated Point points = 2; map<string, int64> sizes = 3; oneof label { string name = 4; bytes raw = 5; } }
END
    protoc --rust_out=. shapes.proto
    python3 "$top/scripts/same_items.py" "$command" shapes.rs
fi
if there rustc; then
    cat > derived.rs <<'END'
#[derive(Clone, Debug, Default, PartialEq, Eq, PartialOrd, Ord, Hash)]
pub struct Point<T> { pub x: T, pub y: Option<T> }
#[derive(Clone, Copy, Debug, PartialEq)]
pub enum Shape { Circle(f64), Square { side: f64 }, None }
pub fn told(shape: &Shape) -> String { assert!(*shape != Shape::None); format!("{:?} of {}", shape, vec![1, 2].len()) }
END
    RUSTC_BOOTSTRAP=1 rustc --edition 2021 --crate-type lib -Zunpretty=expanded derived.rs > expanded.rs
    python3 "$top/scripts/same_items.py" "$command" expanded.rs
fi

# What a bindgen writes by the front: its own first lines, and behind them the very bytes that the front makes of what it doesn't format.
by_bindgen() {
    bindgen=$1
    shift
    RUSTFMT=froesaffron "$bindgen" "$@" headers.h > bindings.rs
    size=$(wc -c < formatted.rs)
    tail -c "$size" bindings.rs | cmp - formatted.rs
    if head -c "-$size" bindings.rs | grep -v -e '^/\* automatically generated' -e '^$'; then
        echo "callers: $bindgen writes these lines before what is formatted"
        return 1
    fi
}

if there froesaffron; then
    printf '#include <%s>\n' stdio.h stdlib.h string.h sys/socket.h > headers.h
    for bindgen in bindgen bindgen-0.71.1 bindgen-0.72.1; do
        there "$bindgen" || continue
        # Up to 0.60 the flag had another name.
        "$bindgen" --formatter none headers.h > unformatted.rs 2> errors ||
            "$bindgen" --no-rustfmt-bindings headers.h > unformatted.rs
        froesaffron < unformatted.rs > formatted.rs
        froesaffron --check formatted.rs
        touch "$made/rustfmt.toml"
        by_bindgen "$bindgen"
        by_bindgen "$bindgen" --rustfmt-configuration-file "$made/rustfmt.toml"
        echo "callers: $("$bindgen" --version) gives the bytes of a direct run"
    done
    if there cargo-fmt cargo; then
        mkdir -p package/src direct
        printf '[package]\nname = "package"\nversion = "0.1.0"\nedition = "2021"\n' > package/Cargo.toml
        echo 'fn main( ){ println ! ("{}",1 + 1) ; }' | tee package/src/main.rs > package/build.rs
        echo 'pub struct A{a:u8,}' > package/src/lib.rs
        cp package/build.rs package/src/*.rs direct
        froesaffron direct/*.rs
        if (cd package && RUSTFMT=froesaffron cargo fmt --check > ../diffs); then
            echo "callers: cargo fmt --check takes what isn't formatted"
            exit 1
        fi
        (cd package && RUSTFMT=froesaffron cargo fmt && RUSTFMT=froesaffron cargo fmt --check)
        for file in build.rs src/main.rs src/lib.rs; do
            cmp "package/$file" "direct/$(basename "$file")"
        done
        echo "callers: cargo fmt gives the bytes of a direct run"
    fi
    # The words of tonic-build and prost-build before 0.11, of generators that name files alone, and of wayland-scanner.
    for file in one two three; do
        echo 'pub fn f ( ) { g ( 1 ) }' > $file.rs
    done
    froesaffron < one.rs > text.rs
    froesaffron --emit=stdout --edition=2018 < one.rs | cmp - text.rs
    froesaffron --emit files --edition 2018 one.rs
    froesaffron two.rs three.rs
    for file in one two three; do
        cmp $file.rs text.rs
    done
fi
echo "callers: passed"
