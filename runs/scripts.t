A first answer without a proof, from the sources

  $ "$top/bin/try" read < ../examples/points.jsonl 2>&1 | grep -v ' compiling '
  geoarrow_fields: this build is not proved, only checked while it runs; bin/geoarrow_fields proves and builds the program
  point separated XY -
  point interleaved XYZ -
  point separated XYM -
  none
  error arrow
  polygon separated XY -
  error field
  error field

More than 1 MiB of answers

  $ for line in 1 2
  > do
  >     name=$(head -c 700000 /dev/zero | tr '\0' "$line")
  >     printf '{"metadata":{"ARROW:extension:name":"geoarrow.wkt"},"name":"%s","nullable":true,"type":"utf8"}\n' "$name"
  > done > "$TMPDIR/lines"
  > "$top/bin/try" canon < "$TMPDIR/lines" 2> /dev/null | cmp - "$TMPDIR/lines"

The other program, over files of one name, and names with an equals sign, a blank, an apostrophe and a line feed

  $ cd "$TMPDIR"
  > data=$top/crates/geoarrow_check/data
  > mkdir country=DE country=FR "a 'b"
  > cp "$data/plain.parquet" country=DE/part-0.parquet
  > cp "$data/geo.parquet" country=FR/part-0.parquet
  > cp "$data/file.arrow" "a 'b/
  > c=d"
  > "$top/bin/try" check country=DE/part-0.parquet country=FR/part-0.parquet 2> /dev/null | grep -A 2 ^country
  > "$top/bin/try" check --lines "$data/plain.parquet" "$data/geo.parquet" "$data/file.arrow" "$top/runs/point.jsonl" 2> /dev/null > wanted
  > "$top/bin/try" check --lines country=DE/part-0.parquet country=FR/part-0.parquet "a 'b/
  > c=d" - < "$top/runs/point.jsonl" 2> /dev/null | cmp - wanted
  > wc -l < wanted
  country=DE/part-0.parquet:
    column  holds   CRS  edges
    g       binary
  country=FR/part-0.parquet:
    column  holds  CRS        edges
  E geom    wkb    OGC:CRS84  planar
  6

The status of the other program, and what it says

  $ "$top/bin/try" check --infer --quiet --expect outline=XY ../examples/schema.jsonl 2>&1 | grep -v ' compiling '
  > "$top/bin/try" check --quiet --expect outline=XY ../examples/schema.jsonl > /dev/null 2>&1
  geoarrow_check: this build is not proved, only checked while it runs; bin/geoarrow_check proves and builds the program
  ../examples/schema.jsonl: error[WrongStorage] column label, field: found utf8; expected binary, large_binary or binary_view. For WKT use geoarrow.wkt.
  ../examples/schema.jsonl: error[EmptyUnion] column broken, field: found dense_union<>; expected union whose type ids are among 1 to 7, 11 to 17, 21 to 27 and 31 to 37. The union has no members.
  ../examples/schema.jsonl: error[Expect] column outline, arguments: found multipolygon interleaved XYZ, EPSG:4326, spherical; expected XY
  [1]

Words of the four commands for which nothing is built, without `rt`

  $ export PATH=/usr/bin:/bin
  > for script in try geoarrow_fields
  > do
  >     for words in --version 'read -V' 'read --help' -h raed 'read infer' ''
  >     do
  >         "$top/bin/$script" $words 2>&1 < /dev/null | head -n 1
  >         "$top/bin/$script" $words > /dev/null 2>&1 < /dev/null
  >         echo "status $?"
  >     done
  > done
  > "$top/bin/try" --help | grep check
  > "$top/bin/geoarrow_fields" --help | wc -l
  geoarrow_fields 2.0.0, a port of geoarrow-schema 0.9.0
  status 0
  geoarrow_fields 2.0.0, a port of geoarrow-schema 0.9.0
  status 0
  usage: bin/try check FILE.. | bin/try read|infer|canon|columns
  status 0
  usage: bin/try check FILE.. | bin/try read|infer|canon|columns
  status 0
  usage: bin/try check FILE.. | bin/try read|infer|canon|columns
  status 2
  usage: bin/try check FILE.. | bin/try read|infer|canon|columns
  status 2
  usage: bin/try check FILE.. | bin/try read|infer|canon|columns
  status 2
  geoarrow_fields 2.0.0, a port of geoarrow-schema 0.9.0
  status 0
  geoarrow_fields 2.0.0, a port of geoarrow-schema 0.9.0
  status 0
  usage: geoarrow_fields read|infer|canon|columns
  status 0
  usage: geoarrow_fields read|infer|canon|columns
  status 0
  usage: geoarrow_fields read|infer|canon|columns
  status 2
  usage: geoarrow_fields read|infer|canon|columns
  status 2
  usage: geoarrow_fields read|infer|canon|columns
  status 2
  usage: bin/try check FILE.. | bin/try read|infer|canon|columns
  check says what each column of the files holds, and bin/try check --help has its options. The other words:
  7

Words of the other program for which nothing is built, without `rt`: the first lines, the status, and that nothing was begun

  $ . ./stand_in.sh
  > export PATH=/usr/bin:/bin
  > touch 'a b'
  > for script in bin/geoarrow_check 'bin/try check'
  > do
  >     for words in --help '--infer a -hq' -V 'a --version --jsno' '' --quiet '--jsno a' '-x a' '--expect --jsno --jsno=b a' 'nowhere a' '--expect=a=b nowhere a/b crates -' '-- --jsno'
  >     do
  >         $script $words 2>&1 | head -n 3 | grep . || :
  >         $script $words > /dev/null 2>&1
  >         echo "status $?"
  >     done
  >     $script "$(printf 'no\033where\nat all')" 2>&1 || ls build crates/geoarrow_check
  > done
  Says what each column of each file holds, and why it is invalid;
  and what is wrong with GeoParquet metadata
  status 0
  Says what each column of each file holds, and why it is invalid;
  and what is wrong with GeoParquet metadata
  status 0
  geoarrow_check 2.0.0 (rattle-kit-13f)
  status 0
  geoarrow_check 2.0.0 (rattle-kit-13f)
  status 0
  error: the following required arguments were not provided:
    <FILE>...
  status 2
  error: the following required arguments were not provided:
    <FILE>...
  status 2
  error: unexpected argument '--jsno' found
  Usage: geoarrow_check [OPTIONS] [FILE]...
  status 2
  error: unexpected argument '-x' found
  Usage: geoarrow_check [OPTIONS] [FILE]...
  status 2
  error: unexpected argument '--jsno=b' found
  Usage: geoarrow_check [OPTIONS] [FILE]...
  status 2
  nowhere: No such file or directory (os error 2)
  a: No such file or directory (os error 2)
  status 2
  nowhere: No such file or directory (os error 2)
  a/b: No such file or directory (os error 2)
  crates: Is a directory (os error 21)
  status 2
  --jsno: No such file or directory (os error 2)
  status 2
  no?where?at all: No such file or directory (os error 2)
  ls: cannot access 'build': No such file or directory
  crates/geoarrow_check:
  src
  Says what each column of each file holds, and why it is invalid;
  and what is wrong with GeoParquet metadata
  status 0
  Says what each column of each file holds, and why it is invalid;
  and what is wrong with GeoParquet metadata
  status 0
  geoarrow_check 2.0.0 (rattle-kit-13f)
  status 0
  geoarrow_check 2.0.0 (rattle-kit-13f)
  status 0
  error: the following required arguments were not provided:
    <FILE>...
  status 2
  error: the following required arguments were not provided:
    <FILE>...
  status 2
  error: unexpected argument '--jsno' found
  Usage: geoarrow_check [OPTIONS] [FILE]...
  status 2
  error: unexpected argument '-x' found
  Usage: geoarrow_check [OPTIONS] [FILE]...
  status 2
  error: unexpected argument '--jsno=b' found
  Usage: geoarrow_check [OPTIONS] [FILE]...
  status 2
  nowhere: No such file or directory (os error 2)
  a: No such file or directory (os error 2)
  status 2
  nowhere: No such file or directory (os error 2)
  a/b: No such file or directory (os error 2)
  crates: Is a directory (os error 21)
  status 2
  --jsno: No such file or directory (os error 2)
  status 2
  no?where?at all: No such file or directory (os error 2)
  ls: cannot access 'build': No such file or directory
  crates/geoarrow_check:
  src
  [2]

Words that need a program, without `rt`

  $ . ./stand_in.sh
  > export PATH=/usr/bin:/bin
  > touch a
  > bin/geoarrow_check --expect --jsno --json=b a
  > bin/try check -- a
  geoarrow_check: there is no rt on the path, which the kit of Rattle has
  geoarrow_check: there is no rt on the path, which the kit of Rattle has
  [2]

What is built runs without `rt`

  $ . ./stand_in.sh
  > bin/geoarrow_fields read 2> /dev/null
  > bin/try read > /dev/null 2>&1
  > export PATH=/usr/bin:/bin
  > bin/geoarrow_fields infer
  > bin/try infer 2> /dev/null | cut -d ' ' -f 1,2
  runs <read> of fields_program proofs specs low more kit 1
  runs <infer> of fields_program proofs specs low more kit 1
  runs <infer>

Two first runs at once, through a link, in a repository whose `rt` proves nothing: both run, and what is built is built once

  $ . ./stand_in.sh
  > ln -s bin/geoarrow_fields link
  > (./link read 2> one & ./link canon 2> two; wait) | sort
  > cat one two | sed 's/; what rt says.*//' | sort | uniq -c
  runs <canon> of fields_program proofs specs low more kit 1
  runs <read> of fields_program proofs specs low more kit 1
        1 geoarrow_fields: built
        1 geoarrow_fields: proved fields_program
        1 geoarrow_fields: proved low
        1 geoarrow_fields: proving and building the program
        1 geoarrow_fields: waiting for another run, which builds the program

What is built again: behind a change in a crate below, in each of its folders, with an old date, with the same size and date, a removed file, another line of crates.txt, other handles, another kit; not behind new dates, another crate, or an edit that a proof refuses

  $ . ./stand_in.sh
  > bin/geoarrow_fields read 2> /dev/null
  > bin/geoarrow_fields read
  > while read -r edit
  > do
  >     eval "$edit"
  >     bin/geoarrow_fields read 2>&1 | sed -n "s/^geoarrow_fields: built/$(echo "$edit" | cut -d ' ' -f 1) /p; s/^runs/ &/p" | tr -d '\n'
  >     echo
  >     bin/geoarrow_fields read > /dev/null 2>&1
  > done << 'END'
  > echo LOW > crates/low/src/main.rt; touch -d 2020-01-01 crates/low/src/main.rt
  > rm crates/low/src/more.rt
  > cp -p crates/low/specs/Low.antt kept; sed -i s/specs/SPECS/ crates/low/specs/Low.antt; touch -r kept crates/low/specs/Low.antt
  > printf new > crates/low/proofs/New.antt
  > sed -i 's/^low:.*/low: json serde_json/' crates.txt
  > printf Threads > HANDLES
  > echo 'kit 2' > "$TMPDIR/kit/KIT-ID"
  > touch crates/low/src/main.rt crates.txt HANDLES
  > echo more > crates/other/src/main.rt; echo 'another: json' >> crates.txt
  > mkdir crates/low/must-fail; echo more > crates/low/must-fail/an.edit
  > END
  runs <read> of fields_program proofs specs low more kit 1
  runs <read> of fields_program proofs specs low more kit 1
  echo  runs <read> of fields_program proofs specs LOW more kit 1
  rm  runs <read> of fields_program proofs specs LOW kit 1
  cp  runs <read> of fields_program proofs SPECS LOW kit 1
  printf  runs <read> of fields_program proofs newSPECS LOW kit 1
  sed  runs <read> of fields_program proofs newSPECS LOW kit 1
  printf  runs <read> of fields_program proofs newSPECS LOW kit 1
  echo  runs <read> of fields_program proofs newSPECS LOW kit 2
   runs <read> of fields_program proofs newSPECS LOW kit 2
   runs <read> of fields_program proofs newSPECS LOW kit 2
   runs <read> of fields_program proofs newSPECS LOW kit 2

The same for bin/try, for which proofs count for nothing

  $ . ./stand_in.sh
  > bin/try read 2> /dev/null > /dev/null
  > while read -r edit
  > do
  >     eval "$edit"
  >     bin/try read 2>&1 > /dev/null | grep -q compiling && echo "$edit" || :
  > done << 'END'
  > echo LOW > crates/low/src/main.rt; touch -d 2020-01-01 crates/low/src/main.rt
  > rm crates/low/src/more.rt
  > sed -i 's/^low:.*/low: json serde_json/' crates.txt
  > echo 'kit 2' > "$TMPDIR/kit/KIT-ID"
  > echo new > crates/low/proofs/Low.antt
  > touch crates/low/src/main.rt
  > echo more > crates/other/src/main.rt
  > END
  echo LOW > crates/low/src/main.rt; touch -d 2020-01-01 crates/low/src/main.rt
  rm crates/low/src/more.rt
  sed -i 's/^low:.*/low: json serde_json/' crates.txt
  echo 'kit 2' > "$TMPDIR/kit/KIT-ID"

An edit that is made while it builds is built the next time, and not a third time

  $ . ./stand_in.sh
  > echo 'echo edited > "$TMPDIR/repository/crates/low/src/main.rt"; rm "$TMPDIR/meanwhile"' > "$TMPDIR/meanwhile"
  > for run in 1 2 3
  > do
  >     bin/geoarrow_fields read 2> said
  >     grep -c ': built' said || :
  > done
  > echo 'echo again > "$TMPDIR/repository/crates/low/src/main.rt"; rm "$TMPDIR/meanwhile"' > "$TMPDIR/meanwhile"
  > for run in 1 2 3
  > do
  >     bin/try read 2> said
  >     grep -c compiling said || :
  > done
  runs <read> of fields_program proofs specs low more kit 1
  1
  runs <read> of fields_program proofs specs edited more kit 1
  1
  runs <read> of fields_program proofs specs edited more kit 1
  0
  runs <read> of fields_program geoarrow_c proofs specs again more other kit 1
  1
  runs <read> of fields_program geoarrow_c proofs specs again more other kit 1
  1
  runs <read> of fields_program geoarrow_c proofs specs again more other kit 1
  0

A program that something else has put there is not taken for what was built

  $ . ./stand_in.sh
  > bin/geoarrow_fields read 2> /dev/null
  > printf '#!/bin/sh\necho another\n' > crates/fields_program/out/fields_program
  > bin/geoarrow_fields read 2> /dev/null
  runs <read> of fields_program proofs specs low more kit 1
  runs <read> of fields_program proofs specs low more kit 1

A build that fails says so and runs nothing, also where an older program is there

  $ . ./stand_in.sh
  > touch "$TMPDIR/fails"
  > bin/geoarrow_fields read 2>&1 | sed 's/; what rt says.*//'
  > rm "$TMPDIR/fails"
  > bin/geoarrow_fields read 2> /dev/null
  > touch "$TMPDIR/fails"
  > echo edited > crates/fields_program/src/main.rt
  > bin/geoarrow_fields read 2> /dev/null
  geoarrow_fields: proving and building the program
  rt: it fails
  0 passed, 1 failed
  runs <read> of fields_program proofs specs low more kit 1
  [2]

The script of the other program: its own words, what it builds, and what it runs, word by word

  $ env PATH=/usr/bin:/bin "$top/bin/geoarrow_check" --help | cmp - ../docs/check_help.txt
  > env PATH=/usr/bin:/bin "$top/bin/geoarrow_check" --version | head -n 1
  > . ./stand_in.sh
  > touch 'a  b' c '*'
  > bin/geoarrow_check --json 'a  b' c '*' 2>&1 | sed 's/; what rt says.*//'
  > bin/geoarrow_check --expect '' -
  > bin/try check --json 'a  b' c '*' 2> /dev/null
  > bin/try check --expect '' - 2> /dev/null
  geoarrow_check 2.0.0 (rattle-kit-13f)
  geoarrow_check: proving and building the program
  geoarrow_check: proved low
  geoarrow_check: proved geoarrow_check
  geoarrow_check: built
  runs <--json> <a  b> <c> <*> of proofs specs low more kit 1
  runs <--expect> <> <-> of proofs specs low more kit 1
  runs <--json> <a  b> <c> <*> of fields_program geoarrow_c proofs specs low more other kit 1
  runs <--expect> <> <-> of fields_program geoarrow_c proofs specs low more other kit 1

The library of C, of a crate that has a second word in crates.txt

  $ . ./stand_in.sh
  > bin/native out 2>&1 | sed 's/; what rt says.*//'
  > ls out
  > bin/native out
  > rm crates/low/src/more.rt
  > bin/native out 2>&1 | tail -n 1
  native: proving and building libgeoarrow_c.a
  native: proved low
  native: proved geoarrow_c
  native: built
  libgeoarrow_c.a
  libgeoarrow_c.so
  libgeoarrow_c.so.2
  native: built

A first build by the kit itself, of three small crates: a program, and a library of C behind it; what a proof refuses is not built, and what is there does not run

  $ . ./three_crates.sh
  > bin/geoarrow_fields read 2>&1 | sed 's/; what rt says.*//; /: proved /d'
  > bin/geoarrow_fields read
  > sed -i 's/^    7$/    8/' crates/low/src/lib.rt
  > bin/geoarrow_fields read 2>&1 | grep 'NOT PROVED\|seven$'
  > bin/native out > /dev/null 2>&1 || ls out 2> /dev/null
  > sed -i 's/^    8$/    7/' crates/low/src/lib.rt
  > bin/native out 2>&1 | sed 's/; what rt says.*//; /: proved /d'
  > cc -Iinclude caller.c out/libgeoarrow_c.a -o linked && ./linked
  > cc -Iinclude caller.c -Lout -lgeoarrow_c -o shared && LD_LIBRARY_PATH=out ./shared
  geoarrow_fields: proving and building the program
  geoarrow_fields: built
  seven
  seven
  rt: low NOT PROVED
  rt: fields_program NOT PROVED: its library low failed
  native: proving and building libgeoarrow_c.a
  native: built
  7
  7

The script of the library of C where there is no compiler

  $ CC=no_compiler "$top/bin/native" "$TMPDIR/out"
  bin/native: there is no no_compiler on the path; a compiler of C (cc, or what CC names) and binutils are needed
  [2]
