# Sourced by the scripts that build C with the library (examples/run, tests/header, tests/compare/run, bench/run), from the project's root. It builds the
# archive and sets
#   LIBRARY  the archive
#   WORK     a folder for what is built, with spns.inc, spns2004.inc and units.inc: the rows of tests/spns.txt, tests/spns2004.txt and tests/units.txt for C
#   GCC      a C compiler for x86-64, which is what the archive is for, and no options
#   CC       the same with options; FLAGS has them without -O2
#   RUN      what runs its programs: nothing here, the kit's emulator on another machine
set -e
mkdir -p target
(cd crates/firmware && rt lib) >target/firmware.log 2>&1 || { cat target/firmware.log; exit 1; }
LIBRARY=crates/firmware/out/libfirmware.a
WORK=target/c
mkdir -p "$WORK"
for SPNS in spns spns2004; do
    sed 's/^\([0-9]*\) \([0-9]*\)$/{ \1, \2 },/' "tests/$SPNS.txt" >"$WORK/$SPNS.inc"
done
sed 's/^\([0-9]*\) \([0-9]*\) \(-*[0-9]*\)$/{ \1, \2, \3 },/' tests/units.txt >"$WORK/units.inc"
if [ "$(uname -m)" = x86_64 ]; then
    GCC=${CC:-cc}
    RUN=
else
    GCC="${CC:-x86_64-linux-gnu-gcc} -static"
    RUN=$(dirname "$(readlink -f "$(command -v rt)")")/../on/$(uname -m)/toolchain/bin/qemu-x86_64
fi
FLAGS="-std=c11 -Wall -Wextra -I$WORK"
CC="$GCC $FLAGS -O2"
