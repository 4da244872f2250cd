# Read by bin/falkirk, bin/install, bin/refuse-memory and bin/bindings, which set $top, $name, $quiet and say(): makes the programs, and
# the library for other languages.
# choose sets $program to the path of the program: the proved build where it is there and no source is newer, else a build without
# proofs in out/, which is made once for both programs. FALKIRK_BUILD=proved proves and builds here and now.

proved=$top/crates/$name/out/$name
unproved=$top/out/$name-unproved

# whether the program is there and no source is newer
is_current() { [ -x "$1" ] && is_newest "$1"; }

# the same of any file
is_newest() {
    [ -s "$1" ] && [ -z "$(find "$top/crates" "$top/crates.txt" -name out -prune -o -type f -newer "$1" -print | head -n 1)" ]
}

# Which program would run.
which_one() {
    if is_current "$proved"; then echo "proved: $proved"
    elif is_current "$unproved"; then echo "without proofs: $unproved"
    else echo "none yet: the next run builds both programs without proofs"; fi
}

choose() {
    program=$proved
    is_current "$proved" && return
    if [ "${FALKIRK_BUILD-}" != proved ]; then
        program=$unproved
        is_current "$unproved" && return
        prepare
        is_current "$unproved" || build_unproved && { clear_room; return; }
        [ ! -s "$room/log" ] || tail -n 3 "$room/log" >&2
        say "building without proofs is not open with this kit, or the sources do not compile (above): proving, which takes an hour or more on a machine that has proved nothing yet"
        program=$proved
    else
        prepare
        say "proving and building, which takes an hour or more on a machine that has proved nothing yet"
    fi
    build_proved || { tail -n 20 "$room/log" >&2; say "the build failed"; exit 1; }
    clear_room
}

# A folder for what is made on the way, which goes however this ends; and one build at a time.
prepare() {
    command -v rt >/dev/null || { say "rt is not on the path: put the kit's bin/ there (PATH=KIT/bin:\$PATH)"; exit 1; }
    mkdir -p "$top/out" && [ -w "$top/out" ] || { say "$top/out can't be written: build in a clone of your own"; exit 1; }
    room=$(mktemp -d) && touch "$room/begun" || { say "no folder for temporary files can be made (TMPDIR)"; exit 1; }
    pid=''
    trap clear_room EXIT
    trap 'stop 130' INT
    trap 'stop 143' TERM HUP
    command -v flock >/dev/null || return 0
    exec 9>"$top/out/lock"
    flock -n 9 || { say "another build of these programs runs: waiting for it"; flock 9; }
}

clear_room() {
    rm -rf "$room"
    exec 9>&-
    trap - EXIT INT TERM HUP
}

# Ends what was begun, and then this.
stop() {
    [ -z "$pid" ] || { kill "$pid" 2>/dev/null; wait "$pid"; }
    [ ! -t 2 ] || echo >&2
    say "stopped; nothing is left behind"
    clear_room
    exit "$1"
}

# Waits for a build, and says which part it has come to ($room/part: its number and what it does).
follow() {
    begun=$(date +%s) shown=''
    while kill -0 "$pid" 2>/dev/null; do
        part=$(cat "$room/part")
        if [ -n "$quiet" ]; then :
        elif [ -t 2 ]; then printf '\rbin/%s: part %s: %s s ' "$name" "$part" "$(($(date +%s) - begun))" >&2
        elif [ "$part" != "$shown" ]; then say "part $part"; fi
        [ ! -t 2 ] || [ -n "$quiet" ] || [ "$part" = "$shown" ] || [ -z "$shown" ] || printf '\n' >&2
        shown=$part
        sleep 1
    done
    [ ! -t 2 ] || [ -n "$quiet" ] || echo >&2
    wait "$pid"
}

# `rt run` proves, builds and runs; without words the program ends with status 2.
build_proved() {
    echo "1 of 1, proving" >"$room/part"
    (cd "$top/crates/$name" && exec rt run) >"$room/log" 2>&1 </dev/null &
    pid=$!
    follow
    grep -q '^bad words$' "$room/log" && [ -x "$proved" ] && touch -r "$room/begun" "$proved"
}

# Both programs as one, which tells by the name that it is called by which of them it is: what is below them is compiled once.
write_both() {
    both=$room/repo/crates/both/src
    mkdir -p "$both" && (cd "$top" && cp -r --parents crates/*/src "$room/repo/") || return
    { cat "$top/crates.txt" && echo "both: $(sed -n 's/^falkirk\(_disk\)\{0,1\}: *//p' "$top/crates.txt" | tr ' ' '\n' | sort -u | tr '\n' ' ')"; } >"$room/repo/crates.txt"
    for it in falkirk falkirk_disk; do
        own="s/\\bcrate::/crate::$it::/g"
        sed -e '/^#!\[tactic(auto)\]$/d' -e 's/^fn main(/pub fn start(/' -e "$own" "$top/crates/$it/src/main.rt" >"$both/$it.rt" || return
        for file in "$top/crates/$it/src/"*.rt; do
            [ "$file" = "$top/crates/$it/src/main.rt" ] || { mkdir -p "$both/$it" && sed -e "$own" "$file" >"$both/$it/${file##*/}"; } || return
        done
    done
    cat >"$both/main.rt" <<'END'
//! Both programs: which one, the name tells by which it is called.
#![tactic(auto)]

mod falkirk;
mod falkirk_disk;

use std::env;
use std::process::ExitCode;

fn main(rt: HostRuntime) -> ExitCode {
    if is_disk(&rt) {
        falkirk_disk::start(rt)
    } else {
        falkirk::start(rt)
    }
}

fn is_disk(rt: &HostRuntime) -> bool {
    match env::args(rt) {
        Ok(mut words) => words
            .next()
            .is_some_and(|name| is_of_disk(name.as_str())),
        Err(_) => false,
    }
}

fn is_of_disk(name: &str) -> bool {
    name.ends_with("falkirk_disk") || name.ends_with("falkirk_disk-unproved")
}
END
}

# `rt try` compiles without proofs, but neither optimizes nor keeps what it made. So it is called from a copy of the kit, of links,
# with a clang that optimizes and keeps the object file, which is then linked as `rt run` links; and without the check that it runs
# beside, which gives hints to a programmer alone.
copy_kit() {
    kit=$(dirname "$(rt doc)")
    copy=$room/kit
    mkdir -p "$copy/bin" "$copy/toolchain/bin" && cp "$kit/bin/rt" "$kit/bin/rtlib.py" "$copy/bin/" || return
    cat >"$copy/toolchain/bin/clang" <<END
#!/bin/sh
keep=
for word do
    shift
    case \$word in -fsanitize=address) keep=yes ;; -O0) set -- "\$@" -O1 ;; *) set -- "\$@" "\$word" ;; esac
done
[ -z "\$keep" ] || echo "2 of 3, compiling (the longest)" >"$room/part"
"$kit/toolchain/bin/clang" "\$@" && { [ -z "\$keep" ] || { cp module.o "$room/program.o" && echo "3 of 3, linking" >"$room/part"; }; }
END
    printf '#!/bin/sh\nexit 0\n' >"$copy/bin/rattle"
    chmod +x "$copy/toolchain/bin/clang" "$copy/bin/rattle"
    for it in "$kit"/* "$kit"/bin/* "$kit"/toolchain/* "$kit"/toolchain/bin/*; do
        [ -e "$copy${it#"$kit"}" ] || ln -s "$it" "$copy${it#"$kit"}"
    done
}

# compile CRATE STATUS: the program of a crate of $room/repo, which without words ends with this status, as $room/program
compile() {
    echo "1 of 3, reading the sources" >"$room/part"
    (cd "$room/repo/crates/$1" && exec "$copy/bin/rt" try "$1") >"$room/log" 2>&1 </dev/null &
    pid=$!
    follow
    grep -q "^run=ended status=$2 " "$room/log" &&
        "$kit/bin/rattle-link" --target x86_64-unknown-linux-gnu --toolchain "$kit/toolchain" -o "$room/program" \
            "$room/program.o" "$kit/c/libos_c.a" "$kit/c/liblibc_c.a" >>"$room/log" 2>&1
}

build_unproved() {
    [ -n "$quiet" ] || say "no proved build of these sources is here: building both programs without proofs, once (rt ci proves)"
    : >"$room/log"
    write_both && copy_kit || return
    compile both 2 &&
        touch -r "$room/begun" "$room/program" && cp -p "$room/program" "$top/out/program.$$" &&
        ln -f "$top/out/program.$$" "$top/out/falkirk-unproved" && mv -f "$top/out/program.$$" "$top/out/falkirk_disk-unproved"
}

# Sets $library to the path of the library for other languages, as choose does for a program. FALKIRK_BUILD=proved proves and builds.
choose_library() {
    library=$top/crates/falkirk_c/out/libfalkirk_c.a
    is_newest "$library" && return
    prepare
    if [ "${FALKIRK_BUILD-}" = proved ]; then (cd "$top/crates/falkirk_c" && rt lib) >"$room/log" 2>&1 </dev/null
    else library=$top/out/libfalkirk_c-unproved.a; is_newest "$library" || build_library; fi ||
        { tail -n 20 "$room/log" >&2; say "the library was not built"; exit 1; }
    clear_room
}

# `rt try` knows programs alone. So the library is made of a program that calls each export: its code is taken as text before it is
# optimized, where a program's functions are its own, and the exports are made public, and its main is not.
build_library() {
    say "no proved library of these sources is here: building it without proofs, once (FALKIRK_BUILD=proved makes the proved one)"
    write_calls && copy_kit && take_exports || return
    echo "1 of 1, compiling" >"$room/part"
    (cd "$room/repo/crates/calls" && exec "$copy/bin/rt" try calls) >"$room/log" 2>&1 </dev/null &
    pid=$!
    follow
    [ -s "$room/library.o" ] && "$kit/toolchain/bin/llvm-ar" rc "$room/library.a" "$room/library.o" && touch -r "$room/begun" "$room/library.a" &&
        mv -f "$room/library.a" "$library"
}

# A clang that makes the library of the program's code, which is the module with -fsanitize=address, and then gives up.
take_exports() {
    cat >"$copy/toolchain/bin/clang" <<END
#!/bin/sh
case " \$* " in *" -fsanitize=address "*) ;; *) exec "$kit/toolchain/bin/clang" "\$@" ;; esac
for word do
    shift
    case \$word in
    -fsanitize=address) ;;
    -O0) set -- "\$@" -O1 ;;
    -fPIE) set -- "\$@" -fPIC ;;
    module.bc) set -- "\$@" module.ll ;;
    module.o) set -- "\$@" "$room/library.o" ;;
    *) set -- "\$@" "\$word" ;;
    esac
done
"$kit/toolchain/bin/clang" -x ir module.bc -S -emit-llvm -O0 -Xclang -disable-llvm-passes -o - |
    sed -e 's/@"calls::exports::\(falkirk_[a-z_]*\)"/@\1/g' -e '/@falkirk_/s/^define internal /define /' \
        -e 's/^define i32 @main(/define internal i32 @main(/' >module.ll && "$kit/toolchain/bin/clang" "\$@"
exit 1
END
}

# The program that calls each export.
write_calls() {
    calls=$room/repo/crates/calls/src
    mkdir -p "$calls" && (cd "$top" && cp -r --parents crates/*/src "$room/repo/") || return
    { cat "$top/crates.txt" && echo "calls:$(sed -n 's/^falkirk_c staticlib://p' "$top/crates.txt")"; } >"$room/repo/crates.txt"
    sed -e '/^#!\[tactic(auto)\]$/d' -e '/^mod handle;$/d' -e 's/^pub use handle::/use crate::handle::/' "$top/crates/falkirk_c/src/lib.rt" \
        >"$calls/exports.rt" && cp "$top/crates/falkirk_c/src/handle.rt" "$calls/" || return
    cat >"$calls/main.rt" <<'END'
//! Calls each export, so that none is left out.
#![tactic(auto)]

mod exports;
mod handle;

use crate::exports::{Bytes, Write, falkirk_answer, falkirk_answer_at, falkirk_close, falkirk_gather, falkirk_line, falkirk_open};
use crate::exports::{falkirk_open_from, falkirk_put, falkirk_remove, falkirk_write_bytes, falkirk_writes};
use crate::handle::Handle;
use std::process::ExitCode;
use std::ptr::null;

fn main(rt: HostRuntime) -> ExitCode {
    let alloc = rt.alloc();
    let mut session = Handle::empty();
    let mut room = [0u8; 10];
    let mut at = Bytes { at: null(), len: 0 };
    let _ = falkirk_open(alloc, &mut session, b"", true);
    let _ = falkirk_line(alloc, &mut session, b"");
    let _ = falkirk_answer(alloc, &mut session, &mut room);
    let _ = falkirk_answer_at(alloc, &mut session, &mut at);
    let mut write = Write { id: 0, put: false, at: null(), len: 0 };
    let _ = falkirk_gather(alloc, &mut session);
    let _ = falkirk_put(alloc, &mut session, 0, b"");
    let _ = falkirk_remove(alloc, &mut session, 0);
    let _ = falkirk_open_from(alloc, &mut session, b"", true);
    let _ = falkirk_writes(alloc, &mut session, 0, &mut write);
    let _ = falkirk_write_bytes(alloc, &mut session, 0, &mut room);
    falkirk_close(alloc, &mut session);
    session.close(alloc);
    ExitCode::from(2)
}
END
}
