A point under each command

  $ geoarrow_fields read < point.jsonl
  point separated XY -

  $ geoarrow_fields infer < point.jsonl
  point separated XY -

  $ geoarrow_fields canon < point.jsonl | cmp - point.jsonl

  $ geoarrow_fields columns < point.jsonl
  geometry point separated XY -

Fields of many kinds, and lines that are none

  $ geoarrow_fields read < ../examples/points.jsonl
  point separated XY -
  point interleaved XYZ -
  point separated XYM -
  none
  error arrow
  polygon separated XY -
  error field
  error field

A schema

  $ geoarrow_fields columns < ../examples/schema.jsonl
  other
  geometry multipolygon interleaved XYZ {"crs":"EPSG:4326","crs_type":"authority_code","edges":"spherical"}
  geometry geometry separated - -
  geometry wkb - - -
  faulty invalid
  inferred point separated XYM -
  faulty arrow

A line that is no field, a blank line, and a field that is refused, without a line feed behind it

  $ printf '[]\n\n{"metadata":{"ARROW:extension:name":"geoarrow.wkb"},"name":"g","nullable":true,"type":"utf8"}' | geoarrow_fields read
  error field
  error field
  error invalid

No line at all

  $ geoarrow_fields read < /dev/null

A line that is not UTF-8 between two that are

  $ (cat point.jsonl; printf '\377\n'; cat point.jsonl) | geoarrow_fields read
  point separated XY -
  error field
  point separated XY -

As many bytes as a line may have, 1,048,576, and one more

  $ (cat point.jsonl; head -c 1048576 /dev/zero | tr '\0' a) | geoarrow_fields read
  point separated XY -
  error field

  $ (cat point.jsonl; head -c 1048577 /dev/zero | tr '\0' a) | geoarrow_fields read
  point separated XY -
  error input
  [1]

A field and as many spaces as make it a line of the most bytes

  $ (tr -d '\n' < point.jsonl; head -c 1048374 /dev/zero | tr '\0' ' '; echo; cat point.jsonl) | geoarrow_fields read
  point separated XY -
  point separated XY -

A line without an end

  $ (echo '{'; yes aaaaaaaaaaaaaaaaaaaaaaaaaaaaaaa | tr -d '\n') | geoarrow_fields read
  error field
  error input
  [1]

As many lines as are answered, 1,000,000; one line more; a byte more; lines without an end

  $ yes '' | head -n 1000000 | geoarrow_fields read > "$TMPDIR/out"; echo "status $?"; uniq -c "$TMPDIR/out"
  status 0
  1000000 error field

  $ yes '' | head -n 1000001 | geoarrow_fields read > "$TMPDIR/out"; echo "status $?"; uniq -c "$TMPDIR/out"
  status 1
  1000000 error field
        1 error input

  $ (yes '' | head -n 1000000; printf a) | geoarrow_fields read > "$TMPDIR/out"; echo "status $?"; uniq -c "$TMPDIR/out"
  status 1
  1000000 error field
        1 error input

  $ yes '' | geoarrow_fields read > "$TMPDIR/out"; echo "status $?"; uniq -c "$TMPDIR/out"
  status 1
  1000000 error field
        1 error input

A million open brackets under each command

  $ for word in read infer canon columns; do head -c 1000000 /dev/zero | tr '\0' '[' | geoarrow_fields $word; done
  error field
  error field
  error field
  error field

Lines of 20,000 lists in one another, under each of the eleven names, and then a point

  $ for name in point linestring polygon multipoint multilinestring multipolygon geometrycollection box geometry wkb wkt
  > do
  >     printf '{"metadata":{"ARROW:extension:name":"geoarrow.%s"},"name":"g","nullable":true,"type":' $name
  >     yes '{"list":{"name":"v","nullable":false,"type":' | head -n 20000 | tr -d '\n'
  >     printf '"float64"'
  >     yes '}}' | head -n 20000 | tr -d '\n'
  >     echo '}'
  > done | cat - point.jsonl | geoarrow_fields read | uniq -c
       11 error field
        1 point separated XY -

A metadata text of a million open brackets, one of 400,000 lists in one another, and then a point

  $ column() {
  >     printf '{"metadata":{"ARROW:extension:metadata":"'
  >     cat
  >     echo '","ARROW:extension:name":"geoarrow.wkb"},"name":"g","nullable":true,"type":"binary"}'
  > }
  > (
  >     head -c 1000000 /dev/zero | tr '\0' '[' | column
  >     (printf '{\\"crs\\":'; head -c 400000 /dev/zero | tr '\0' '['; head -c 400000 /dev/zero | tr '\0' ']'; printf '}') | column
  >     cat point.jsonl
  > ) | geoarrow_fields read
  error arrow
  error arrow
  point separated XY -

200,000 lines in memory that does not grow: 16 MB of addresses suffice

  $ yes "$(cat point.jsonl)" | head -n 200000 | (ulimit -v 16000; geoarrow_fields canon) | uniq -c | cut -c1-40
   200000 {"metadata":{"ARROW:extension:na

A start without memory: of these limits some leave too little for the buffers, but enough to start

  $ for room in $(seq 100 10 300)
  > do
  >     (ulimit -d $room; geoarrow_fields read < point.jsonl; echo "status $?")
  > done 2> /dev/null | sed -n '/^error memory/{p;n;p}' | sort -u
  error memory
  status 1

Words that name no command: none, two, another one, a capital letter, a space behind, an empty one, one that is not UTF-8

  $ geoarrow_fields < point.jsonl
  usage: geoarrow_fields read|infer|canon|columns
  [2]

  $ geoarrow_fields read infer < point.jsonl
  usage: geoarrow_fields read|infer|canon|columns
  [2]

  $ geoarrow_fields write < point.jsonl
  usage: geoarrow_fields read|infer|canon|columns
  [2]

  $ geoarrow_fields Read < point.jsonl
  usage: geoarrow_fields read|infer|canon|columns
  [2]

  $ geoarrow_fields 'read ' < point.jsonl
  usage: geoarrow_fields read|infer|canon|columns
  [2]

  $ geoarrow_fields '' < point.jsonl
  usage: geoarrow_fields read|infer|canon|columns
  [2]

  $ geoarrow_fields "$(printf '\377')" < point.jsonl
  usage: geoarrow_fields read|infer|canon|columns
  [2]

Nothing of the usage goes to standard output

  $ geoarrow_fields write < point.jsonl 2> /dev/null
  [2]

An input that cannot be read, and none at all

  $ geoarrow_fields read < .
  error input
  [1]

  $ geoarrow_fields read <&-
  error input
  [1]

An output that takes nothing

  $ geoarrow_fields read < point.jsonl > /dev/full
  [1]

A reader that takes one answer of many, and then the status of the program

  $ (yes '' | geoarrow_fields read; echo "status $?" >&2) | head -n 1
  error field
  status 1
