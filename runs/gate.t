What tries the edits: each is where `rt ci` tries it, of the crates that are named and of no other

  $ . ./gate.sh
  > rm -r crates/fields_program
  > mkdir -p edits/low edits/high crates/low/out crates/high/must-fail crates/none
  > touch edits/low/turned.edit edits/low/lost.edit edits/high/late.edit crates/low/out/large crates/high/must-fail/own.edit
  > bin/plants
  > bin/plants high
  > bin/plants low none
  > echo "status $?"
  tried high/late low/lost low/turned
  5 passed, 0 failed
  tried high/late
  2 passed, 0 failed
  bin/plants: edits/ has no folder none
  status 2

What compares whole runs: one that says more, less or something else, one of another status, and one without an end of its last line

  $ . ./gate.sh
  > cat > runs/a.t << 'RUNS'
  > Right, with a status
  > 
  >   $ echo one
  >   > echo two >&2
  >   > exit 3
  >   one
  >   two
  >   [3]
  > 
  > More than is wanted
  > 
  >   $ echo one; echo two
  >   one
  > 
  > Less than is wanted
  > 
  >   $ echo one
  >   one
  >   two
  > 
  > Another status
  > 
  >   $ exit 2
  >   [3]
  > 
  > A status where none is wanted
  > 
  >   $ exit 1
  > 
  > No status where one is wanted
  > 
  >   $ true
  >   [1]
  > 
  > No end of the line
  > 
  >   $ printf one
  >   one
  > RUNS
  > printf 'Of another file\n\n  $ echo two\n  one\n' > runs/b.t
  > bin/runs
  > echo "status $?"
  > rm runs/*.t
  > bin/runs || echo "status $?"
  a.t, fields_program: More than is wanted
    $ echo one; echo two
    one
    two
  a.t, fields_program: Less than is wanted
    $ echo one
    one
  a.t, fields_program: Another status
    $ exit 2
    [2]
  a.t, fields_program: A status where none is wanted
    $ exit 1
    [1]
  a.t, fields_program: No status where one is wanted
    $ true
  a.t, fields_program: No end of the line
    $ printf one
    one (no line feed)
  b.t, fields_program: Of another file
    $ echo two
    two
  1 passed, 7 failed
  status 1
  0 passed, 0 failed
  status 1

What runs all parts: a test that vanishes, one that fails, a status without a failure, a failure without a status, and a part without a last line

  $ . ./gate.sh
  > parts
  > bin/test | tail -n 1
  > for say in 'one fewer' 'one fails' 'ends with 1' 'fails and ends with 0' 'says nothing' 'says more' 'all skipped'
  > do
  >     echo "$say" > says
  >     bin/test > out
  >     echo "$say: $?"
  >     grep -e 'and not the' -e '^bin/runs  ' out
  >     tail -n 1 out
  > done
  49 passed, 0 failed
  one fewer: 1
  bin/runs has 6 tests, and not the 7 that bin/test tells
  bin/runs                 6       1        0
  48 passed, 1 failed
  one fails: 1
  bin/runs                 6       1        0
  48 passed, 1 failed
  ends with 1: 1
  bin/runs                 7       1        0
  49 passed, 1 failed
  fails and ends with 0: 1
  bin/runs                 6       2        0
  48 passed, 2 failed
  says nothing: 1
  bin/runs                 0       1        0
  42 passed, 1 failed
  says more: 1
  bin/runs                 0       1        0
  42 passed, 1 failed
  all skipped: 1
  bin/runs                 0       1        7
  42 passed, 1 failed

What runs the examples of the docs: one that fails, one that does not compile, and one that is proved elsewhere

  $ . ./gate.sh
  > mkdir -p crates/uses/src crates/low/src
  > printf 'fn caller() {\n    let one = 1;\n    let two = one;\n}\n' > crates/uses/src/lib.rt
  > printf '/// Returns one.\n///\n/// ```rust\n/// assert_eq!(rt; one(), 1);\n/// ```\npub fn one() -> u8 {\n' > crates/low/src/lib.rt
  > printf 'Text.\n\n```rust\nlet one = 1;\nlet two = one;\n```\n\n```sh\nls\n```\n' > README.md
  > bin/examples
  > printf '```rust\nfails();\n```\n' > docs/USE.md
  > bin/examples
  > echo "status $?"
  > echo 'does not compile' > says
  > bin/examples | tail -n 1
  2 passed, 0 failed
  test example_0 ... ok
  test example_1 ... FAILED at src/lib.rt:41:1 (docs/USE.md:2)
  
  2 passed, 1 failed
  status 1
  1 passed, 2 failed

What refuses requests for memory: a program whose rows fail, and one that is not there

  $ . ./gate.sh
  > for program in type_rows file_rows
  > do
  >     mkdir -p crates/$program/data crates/$program/out
  >     printf '#!/bin/sh\necho "2 passed, 0 failed"\n' > crates/$program/out/$program
  >     chmod +x crates/$program/out/$program
  > done
  > bin/faults
  > printf '#!/bin/sh\necho "rows:1: wrong"\necho "1 passed, 1 failed"\nexit 1\n' > crates/type_rows/out/type_rows
  > bin/faults
  > echo "status $?"
  > rm crates/type_rows/out/type_rows
  > bin/faults 2> /dev/null
  > echo "status $?"
  4 passed, 0 failed
  rows:1: wrong
  3 passed, 1 failed
  status 1
  2 passed, 1 failed
  status 1

What judges rows: an answer that is right, more, less or something else, a command that is not there, a question without an answer, and no rows

  $ mkdir -p "$TMPDIR/rows/layouts" "$TMPDIR/rows/metadata" "$TMPDIR/rows/schema"
  > cd "$TMPDIR/rows"
  > asked='parts Native(Point, Interleaved, XY)'
  > right='geoarrow.point Interleaved XY'
  > printf '%s\n' '# Rows' "$asked" "$right" "$asked" "$right more" "$asked" "${right% XY}" "$asked" '' "no $asked" "$right" "= $asked" "$asked" > layouts/a.rows
  > "$top/crates/type_rows/out/type_rows"
  > echo "status $?"
  > printf '%s\n' "$asked" "$right" '' "$asked" "$right" > layouts/a.rows
  > "$top/crates/type_rows/out/type_rows"
  > echo "status $?"
  > echo '# No rows' > layouts/b.rows
  > "$top/crates/type_rows/out/type_rows"
  > echo "status $?"
  layouts/a.rows:4: parts Native(Point, Interleaved, XY): found `geoarrow.point Interleaved XY`, wanted `geoarrow.point Interleaved XY more`
  layouts/a.rows:6: parts Native(Point, Interleaved, XY): found `geoarrow.point Interleaved XY`, wanted `geoarrow.point Interleaved`
  layouts/a.rows:8: parts Native(Point, Interleaved, XY): found `geoarrow.point Interleaved XY`, wanted ``
  layouts/a.rows:10: no parts Native(Point, Interleaved, XY): found `the text spells nothing`, wanted `geoarrow.point Interleaved XY`
  layouts/a.rows:13: parts Native(Point, Interleaved, XY): no answer stands behind it
  layouts/a.rows: 1 right, 5 wrong
  1 passed, 5 failed
  status 1
  layouts/a.rows: 2 right
  2 passed, 0 failed
  status 0
  layouts/a.rows: 2 right
  layouts/b.rows:1: the file cannot be read, or has no rows
  layouts/b.rows: 0 right, 1 wrong
  2 passed, 1 failed
  status 1
