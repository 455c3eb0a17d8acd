# How the proved library and the proved programs are linked and run on this machine. The Rattle kit compiles for x86-64 Linux
# alone. On such a machine its code is linked and run as it is. Elsewhere, as on Arm, it is linked by a compiler for x86-64 and run
# by an emulator, as far as these are installed. The kit of today is itself for x86-64, so that elsewhere it has to run by an
# emulator too.
#
# Sourced by the tools, from the project's root. It sets:
#   CC         a C compiler for x86-64
#   BINUTILS   what stands before ar, nm and objdump that know x86-64
#   RUSTC      a Rust compiler for x86-64, with its words
#   RUN        what stands before a program that these have built; nothing where it runs as it is
#   DESK       a command that runs crates/desk/out/desk, the desk as it was last proved
#   EMULATED   yes where programs run by an emulator, which takes ten to twenty times as long
#   LACKS_C, LACKS_RUST, LACKS_DESK
#              what is missing for a C program, for a Rust program and for the desk; nothing where each can be built and run

machine=$(uname -m)
CC='' BINUTILS='' RUSTC='' RUN='' DESK=crates/desk/out/desk EMULATED=no LACKS_C='' LACKS_RUST='' LACKS_DESK=''

# The kit's folder, found as rt finds it.
kit_home() {
    [ -z "${RATTLE_HOME-}" ] || { echo "$RATTLE_HOME"; return; }
    kit_rt=$(command -v rt) || return
    kit_rt=$(readlink -f "$kit_rt")
    echo "${kit_rt%/bin/*}"
}

# What the desk that stands there was made with: the kit, the files of the crates, and the desk itself.
desk_made_with() {
    { rt version; find crates.txt crates -name out -prune -o -type f -print | LC_ALL=C sort | xargs sha256sum crates/desk/out/desk; } | sha256sum
}

# Says that the desk that stands there was made of the files as they are; for whoever has just made it.
desk_is_made() {
    mkdir -p target/log
    desk_made_with >target/log/desk.stamp
}

# Whether the desk that stands there was made of the files as they are, with this kit.
desk_is_new() {
    [ -x crates/desk/out/desk ] && [ -e target/log/desk.stamp ] && [ "$(desk_made_with)" = "$(cat target/log/desk.stamp)" ]
}

# Proves and builds the desk where it is not new. What the prover says goes to the file named.
desk_proved() {
    ! desk_is_new || return 0
    rm -f crates/desk/out/desk # where it then stands it was made anew, also where it could not be run
    (cd crates/desk && rt run -- --help) >"$1" 2>&1 || [ -x crates/desk/out/desk ] || return 1
    desk_is_made
}

# The first emulator of x86-64: on the PATH, or the one that the kit has beside its compiler.
emulator() {
    command -v qemu-x86_64 || command -v qemu-x86_64-static || {
        kit_emulator=$(kit_home)/on/$machine/toolchain/bin/qemu-x86_64
        [ ! -x "$kit_emulator" ] || echo "$kit_emulator"
    }
}

# The first Rust compiler that has the standard library for x86-64.
rust_for_x86() {
    for one in rustc /usr/bin/rustc; do
        folder=$("$one" --print target-libdir --target x86_64-unknown-linux-gnu 2>/dev/null) || continue
        ls "$folder"/libstd-*.rlib >/dev/null 2>&1 || continue
        echo "$one --target x86_64-unknown-linux-gnu -C linker=x86_64-linux-gnu-gcc -C link-arg=target/platform/stack.o"
        return
    done
}

if [ "$machine" = x86_64 ]; then
    if command -v cc >/dev/null 2>&1; then CC=cc; else LACKS_C="a C compiler" LACKS_RUST="a C compiler, which links"; fi
    if rustc --version >/dev/null 2>&1; then RUSTC=rustc; else LACKS_RUST="a rustc that runs here"; fi
else
    EMULATED=yes
    mkdir -p target/platform
    emulates=$(emulator || :)
    if [ -z "$emulates" ]; then
        LACKS_DESK="an emulator of x86-64 (Debian's qemu-user)" LACKS_C=$LACKS_DESK
    else
        # A program runs with the C library that it was linked with: the desk with the kit's.
        libraries=$(kit_home)/toolchain/lib DESK=target/platform/desk
        printf '#!/bin/sh\nexec "%s" "%s" --library-path "%s" "%s" "$@"\n' "$emulates" "$libraries/ld-linux-x86-64.so.2" "$libraries" "$PWD/crates/desk/out/desk" >$DESK.$$
        chmod +x $DESK.$$
        mv -f $DESK.$$ $DESK # whole at every moment: another tool may be running it
    fi
    if command -v x86_64-linux-gnu-gcc >/dev/null 2>&1; then
        CC=x86_64-linux-gnu-gcc BINUTILS=x86_64-linux-gnu-
        libraries=$(dirname "$($CC -print-file-name=libc.so.6)")
        [ -z "$emulates" ] || RUN="$emulates $libraries/ld-linux-x86-64.so.2 --library-path $libraries"
        # Where a Rust program begins it asks where its stack is, the C library looks into /proc/self/maps for it, and there
        # the emulator of the kit (8.2) fails. No program here needs to know: the question is answered by "cannot tell".
        echo 'int pthread_getattr_np(unsigned long, void *); int pthread_getattr_np(unsigned long t, void *a) { (void)t; (void)a; return 38; }' |
            $CC -x c -c -o target/platform/stack.o.$$ - && mv -f target/platform/stack.o.$$ target/platform/stack.o
    else
        LACKS_C="${LACKS_C:+$LACKS_C, }a C compiler for x86-64 (Debian's gcc-x86-64-linux-gnu)"
    fi
    LACKS_RUST=$LACKS_C RUSTC=$(rust_for_x86)
    [ -n "$RUSTC" ] || LACKS_RUST="${LACKS_C:+$LACKS_C, }a Rust compiler with the x86-64 library (Debian's rustc and libstd-rust-dev:amd64)"
fi
