# Makes and enters a repository of the scripts and of three small crates, for the kit itself: a library, and a program and a library of C that stand on it.
mkdir -p "$TMPDIR/three" && cd "$TMPDIR/three"
mkdir -p bin native include crates/low/src crates/fields_program/src crates/geoarrow_c/src
cp "$top"/bin/* bin
cp "$top/native/archive" "$top/native/geoarrow.map" native
touch native/records.c native/schema.c # the call here takes no schema
cp "$top/HANDLES" .
printf 'low:\nfields_program: low\ngeoarrow_c staticlib: low\n' > crates.txt
echo 'uint8_t geoarrow_seven(void);' > include/geoarrow.h
cat > crates/low/src/lib.rt << 'END'
//! What the program and the library of C stand on.
#![tactic(auto)]

ghost use Rattle.std.specs.Prelude.{◌≡◌};

/// Returns seven.
pub fn seven() -> u8
    ensures { result ≡ 7 }
{
    7
}
END
cat > crates/fields_program/src/main.rt << 'END'
//! Prints a line.
#![tactic(auto)]

use low::seven;
use std::io::Write;

fn main(rt: HostRuntime) {
    if seven() == 7 {
        let _ = rt.stdout().write_all(b"seven\n");
    }
}
END
echo seven > crates/fields_program/stdout
cat > crates/geoarrow_c/src/lib.rt << 'END'
//! A call of C.
#![tactic(auto)]

ghost use Rattle.std.specs.Prelude.{◌≡◌};

use low::seven;

/// Returns seven.
#[unsafe(no_mangle)]
pub extern "C" fn geoarrow_seven() -> u8
    ensures { result ≡ 7 }
{
    seven()
}
END
cat > caller.c << 'END'
#include <stdint.h>
#include <stdio.h>
#include "geoarrow.h"
int main(void) { return printf("%d\n", geoarrow_seven()) < 0; }
END
