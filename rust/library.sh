# Sourced by scripts at the repository's root: makes the proved static library anew from the sources, and names it in `library`, so
# that a script may then go elsewhere. Where the library can't be made, the script goes no further.
library=$(pwd)/crates/cp1610/out/libcp1610.a

mkdir -p target
echo "making crates/cp1610/out/libcp1610.a" >&2
if ! (cd crates/cp1610 && rt lib) >target/staticlib.txt 2>&1; then
    cat target/staticlib.txt >&2
    exit 1
fi
