Lines without inference: a table

  $ geoarrow_check ../examples/schema.jsonl
    column     holds                                     CRS        edges
    id         int64
  W outline    multipolygon interleaved XYZ              EPSG:4326  spherical
      warning[NullableInner] at item, field: found nullable; expected not null
    any        geometry separated                                   planar
    footprint  wkb                                                  planar
  E label      invalid geoarrow.wkb
      error[WrongStorage] field: found utf8; expected binary, large_binary or binary_view. For WKT use geoarrow.wkt.
    track      struct<x: float64 not null, y: float64..
  E broken     invalid geoarrow.geometry
      error[EmptyUnion] field: found dense_union<>; expected union whose type ids are among 1 to 7, 11 to 17, 21 to 27 and 31 to 37. The union has no members.
  [1]

The README: the line of its example is the first of the file, its table is what its command prints, and its command for CI fails

  $ grep -c -x -F -- "$(sed -n 's/^    \(.*"id",.*\)/\1/p' "$top/README.md")" ../examples/schema.jsonl
  > cd "$top" && sed -n '/^    bin.try check --infer/,/^`E`/s/^    //p' README.md | sed 1d > "$TMPDIR/table"
  > geoarrow_check $(sed -n 's/^    bin.try check//p' README.md) | cmp - "$TMPDIR/table"
  > geoarrow_check $(sed -n 's/^    bin.geoarrow_check//p' README.md) > "$TMPDIR/problems" || echo "status $?"
  1
  status 1

Several files, each under its name; a CRS by its code, its name or its text; an extension; what is inferred; places of faults; names that control terminals

  $ cat > "$TMPDIR/one" << 'END'
  > {"metadata":{"ARROW:extension:metadata":"{\"crs\":{\"type\":\"GeographicCRS\",\"name\":\"WGS 84\",\"scale\":0.5}}","ARROW:extension:name":"geoarrow.wkb"},"name":"named","nullable":true,"type":"binary"}
  > {"metadata":{"ARROW:extension:metadata":"{\"crs\":{\"type\":\"GeographicCRS\",\"name\":\"x\",\"id\":{\"authority\":\"OGC\",\"code\":\"CRS84\"}}}","ARROW:extension:name":"geoarrow.wkb"},"name":"code","nullable":true,"type":"binary"}
  > {"metadata":{"ARROW:extension:metadata":"{\"crs\":\"0123456789012345678901234567890123456789x\"}","ARROW:extension:name":"geoarrow.wkb"},"name":"long","nullable":true,"type":"binary"}
  > {"metadata":{"ARROW:extension:metadata":"{\"crs\":4326.5}","ARROW:extension:name":"geoarrow.wkb"},"name":"number","nullable":true,"type":"binary"}
  > {"metadata":{"ARROW:extension:name":"arrow.bool8"},"name":"flag\u001b[1m","nullable":true,"type":"int8"}
  > {"metadata":{"ARROW:extension:metadata":"{\"edges\":1}","ARROW:extension:name":"geoarrow.linestring"},"name":"bad","nullable":true,"type":{"list":{"name":"v","nullable":true,"type":{"struct":[]}}}}
  > END
  > echo '{"name":"wkt","nullable":true,"type":"utf8"}' > "$TMPDIR/two"
  > cd "$TMPDIR" && geoarrow_check --infer one two
  one:
    column         holds                        CRS                                       edges
    named          wkb                          WGS 84                                    planar
    code           wkb                          OGC:CRS84                                 planar
  W long           wkb                          01234567890123456789012345678901234567..  planar
      warning[CrsWithoutType] extension metadata /crs: found "0123456789012345678901234567890123456789x"; expected PROJJSON, WKT, a code as EPSG:4326, or a crs_type
  W number         wkb                          a CRS                                     planar
      warning[CrsNumber] extension metadata /crs: found 4326.5; expected an object or a text
    flag\u{1b}[1m  extension arrow.bool8
  E bad            invalid geoarrow.linestring
      error[BadFieldCount] at v, field: found struct<>; expected list<coordinates>. The number of the fields is that of no dimension.
      error[UnknownEdges] extension metadata /edges: found 1; expected andoyer, karney, spherical, thomas or vincenty. Leave it out where edges are planar.
  two:
    column  holds          CRS  edges
    wkt     taken for wkt       planar
  2 files: 7 columns, 5 of geometries; 2 errors and 2 warnings in 1 file
  [1]

Only errors, each in a line with the file's name

  $ geoarrow_check --quiet ../examples/schema.jsonl
  ../examples/schema.jsonl: error[WrongStorage] column label, field: found utf8; expected binary, large_binary or binary_view. For WKT use geoarrow.wkt.
  ../examples/schema.jsonl: error[EmptyUnion] column broken, field: found dense_union<>; expected union whose type ids are among 1 to 7, 11 to 17, 21 to 27 and 31 to 37. The union has no members.
  [1]

  $ geoarrow_check -q ../crates/geoarrow_check/data/geo.parquet | cut -c1-110
  ../crates/geoarrow_check/data/geo.parquet: error[GeoTypes] column geom, geo /columns/geom/geometry_types/1: fo
  ../crates/geoarrow_check/data/geo.parquet: error[GeoBboxOrder] column geom, geo /columns/geom/bbox/1: found ym

  $ geoarrow_check --quiet ../crates/geoarrow_check/data/file.arrow

With them why files are refused, bad lines and what is not met; all on standard output

  $ cd "$TMPDIR" && printf '{"name":"a","nullable":true,"type":"null"}\n[]\n' > lines && printf 'PAR1PAR1' > cut.parquet
  > printf '{"metadata":{"ARROW:extension:name":"geoarrow.wkb"},"name":"a\\nb","nullable":true,"type":"utf8"}\n' > "$(printf 'i\033n')"
  > for file in lines cut.parquet nowhere "$(printf 'i\033n')"
  > do
  >     geoarrow_check -q --expect b=point --require-geometry "$file" 2> said
  >     echo $?
  >     cat said
  > done
  lines: error[BadLine] line 2: found JSON that is no object; expected a JSON object
  lines: error[Expect] column b, arguments: expected point. No column has that name.
  lines: error[NoGeometry] file: found 1 column; expected a column of geometries. With --infer columns count whose types tell geometries, too.
  2
  cut.parquet: error[FooterLength] byte 0: found 827474256; expected a footer before its size
  2
  nowhere: error[CannotRead]: found No such file or directory (os error 2); expected a file that can be read
  2
  i\u{1b}n: error[WrongStorage] column a\u{a}b, field: found utf8; expected binary, large_binary or binary_view. For WKT use geoarrow.wkt.
  i\u{1b}n: error[Expect] column b, arguments: expected point. No column has that name.
  i\u{1b}n: error[NoGeometry] file: found 1 column; expected a column of geometries. With --infer columns count whose types tell geometries, too.
  1

  $ geoarrow_check --quiet --format github ../examples/schema.jsonl
  ::error file=../examples/schema.jsonl,title=WrongStorage::column label, field: found utf8; expected binary, large_binary or binary_view. For WKT use geoarrow.wkt.
  ::error file=../examples/schema.jsonl,title=EmptyUnion::column broken, field: found dense_union<>; expected union whose type ids are among 1 to 7, 11 to 17, 21 to 27 and 31 to 37. The union has no members.
  [1]

Only columns and files of which something is found: of rows the invalid ones, and those with findings that are shown

  $ geoarrow_check --problems ../examples/schema.jsonl
    column   holds                         CRS        edges
  W outline  multipolygon interleaved XYZ  EPSG:4326  spherical
      warning[NullableInner] at item, field: found nullable; expected not null
  E label    invalid geoarrow.wkb
      error[WrongStorage] field: found utf8; expected binary, large_binary or binary_view. For WKT use geoarrow.wkt.
  E broken   invalid geoarrow.geometry
      error[EmptyUnion] field: found dense_union<>; expected union whose type ids are among 1 to 7, 11 to 17, 21 to 27 and 31 to 37. The union has no members.
  [1]

  $ geoarrow_check --problems --allow warnings --allow WrongStorage --allow EmptyUnion ../examples/schema.jsonl
    column  holds                      CRS  edges
    label   invalid geoarrow.wkb
    broken  invalid geoarrow.geometry

  $ geoarrow_check --problems ../crates/geoarrow_check/data/stored.parquet
  warning[NoGeoMetadata] file: expected metadata of GeoParquet at the key geo

  $ geoarrow_check --problems --allow warnings ../crates/geoarrow_check/data/stored.parquet

  $ cd "$TMPDIR" && printf '{"name":"a","nullable":true,"type":"null"}\n[]\n' > lines && cp "$top/crates/geoarrow_check/data/stored.parquet" "$top/crates/geoarrow_check/data/file.arrow" .
  > geoarrow_check --problems stored.parquet file.arrow lines nowhere
  > printf '\357\273\277{"name":"a","nullable":true,"type":"null"}\n' > marked && geoarrow_check --problems --notes marked file.arrow
  stored.parquet:
  warning[NoGeoMetadata] file: expected metadata of GeoParquet at the key geo
  lines: error[BadLine] line 2: found JSON that is no object; expected a JSON object
  nowhere: error[CannotRead]: found No such file or directory (os error 2); expected a file that can be read
  4 files: 3 columns, 2 of geometries; 1 error and 1 warning in 2 files; 1 file not read
  marked:
  note[ByteOrderMark] file, byte 0: expected lines without one. It is passed over.
  2 files: 2 columns, 1 of geometries; 1 note in 1 file

The columns as lines, which the other program reads

  $ geoarrow_check --lines ../crates/geoarrow_check/data/file.arrow
  {"metadata":{"ARROW:extension:name":"geoarrow.linestring"},"name":"g","nullable":true,"type":{"list":{"name":"vertices","nullable":false,"type":{"fixed_size_list":{"name":"xym","nullable":false,"type":"float64"},"size":3}}}}

  $ geoarrow_check --lines ../crates/geoarrow_check/data/file.arrow | geoarrow_fields read
  linestring interleaved XYM -

  $ geoarrow_check --lines ../examples/schema.jsonl | cmp - ../examples/schema.jsonl

The columns as an Arrow stream, which is read back

  $ geoarrow_check --ipc ../crates/geoarrow_check/data/file.arrow | geoarrow_check --lines -
  {"metadata":{"ARROW:extension:name":"geoarrow.linestring"},"name":"g","nullable":true,"type":{"list":{"name":"vertices","nullable":false,"type":{"fixed_size_list":{"name":"xym","nullable":false,"type":"float64"},"size":3}}}}

  $ geoarrow_check --ipc ../examples/schema.jsonl | geoarrow_check --lines - | cmp - ../examples/schema.jsonl

  $ geoarrow_check --ipc ../crates/geoarrow_check/data/other.arrows
  ../crates/geoarrow_check/data/other.arrows: error[ColumnType] column 1: found a type that no message can hold; expected a type of Schema.fbs, nested at most 61 levels deep
  [2]

Columns of Parquet files

  $ geoarrow_check ../crates/geoarrow_check/data/stored.parquet
    column  holds      CRS  edges
    g       large_wkb       planar
  warning[NoGeoMetadata] file: expected metadata of GeoParquet at the key geo

  $ geoarrow_check --json - < ../crates/geoarrow_check/data/plain.parquet
  {"kind":"column","index":0,"column":"g","state":"plain","type":"binary"}
  {"kind":"file","read":true,"columns":1,"geometries":0,"errors":0,"warnings":0,"notes":0,"status":0}

Columns of geometries in normal form, whatever their CRS is; other columns as they are. The status is that of the given columns. The normal form is its own, as lines and as a stream; nothing is found of its form; what is inferred changes nothing

  $ cat > "$TMPDIR/forms" << 'END'
  > {"metadata":{"ARROW:extension:metadata":"{\"edges\":\"planar\",\"crs\":{\"type\":\"ProjectedCRS\",\"name\":\"x\",\"scale\":0.99960}}","ARROW:extension:name":"ogc.wkb","k":"v"},"name":"b","nullable":true,"type":"large_binary"}
  > {"metadata":{"ARROW:extension:metadata":"{}","ARROW:extension:name":"geoarrow.point"},"name":"p","nullable":false,"type":{"struct":[{"name":"lon","nullable":true,"type":"float32"},{"name":"lat","nullable":true,"type":"float32"}]}}
  > {"metadata":{"ARROW:extension:metadata":"{\"crs\":\"EPSG:4326\",\"other\":1}","ARROW:extension:name":"geoarrow.linestring"},"name":"l","nullable":true,"type":{"large_list":{"name":"item","nullable":true,"type":{"fixed_size_list":{"name":"xyz","nullable":true,"type":"float64"},"size":3}}}}
  > {"metadata":{"ARROW:extension:name":"geoarrow.wkb"},"name":"wrong","nullable":true,"type":"utf8"}
  > {"name":"n","nullable":true,"type":"int64"}
  > END
  > cd "$TMPDIR" && geoarrow_check --canonical --lines forms > once; echo $?; cat once
  > geoarrow_check --canonical --lines once | cmp - once; geoarrow_check --canonical --ipc forms | geoarrow_check --lines - | cmp - once
  > geoarrow_check --canonical --lines --infer forms | cmp - once; geoarrow_check once
  1
  {"metadata":{"ARROW:extension:metadata":"{\"crs\":{\"type\":\"ProjectedCRS\",\"name\":\"x\",\"scale\":0.99960}}","ARROW:extension:name":"geoarrow.wkb","k":"v"},"name":"b","nullable":true,"type":"large_binary"}
  {"metadata":{"ARROW:extension:name":"geoarrow.point"},"name":"p","nullable":false,"type":{"struct":[{"name":"x","nullable":false,"type":"float64"},{"name":"y","nullable":false,"type":"float64"}]}}
  {"metadata":{"ARROW:extension:metadata":"{\"crs\":\"EPSG:4326\"}","ARROW:extension:name":"geoarrow.linestring"},"name":"l","nullable":true,"type":{"list":{"name":"vertices","nullable":false,"type":{"fixed_size_list":{"name":"xyz","nullable":false,"type":"float64"},"size":3}}}}
  {"metadata":{"ARROW:extension:name":"geoarrow.wkb"},"name":"wrong","nullable":true,"type":"utf8"}
  {"name":"n","nullable":true,"type":"int64"}
    column  holds                       CRS        edges
    b       large_wkb                   x          planar
    p       point separated XY                     planar
    l       linestring interleaved XYZ  EPSG:4326  planar
  E wrong   invalid geoarrow.wkb
      error[WrongStorage] field: found utf8; expected binary, large_binary or binary_view. For WKT use geoarrow.wkt.
    n       int64
  [1]

The columns of a GeoParquet file in normal form

  $ geoarrow_check --canonical --lines ../crates/geoarrow_check/data/geo.parquet
  {"metadata":{"ARROW:extension:metadata":"{\"crs\":\"OGC:CRS84\",\"crs_type\":\"authority_code\"}","ARROW:extension:name":"geoarrow.wkb"},"name":"geom","nullable":true,"type":"binary"}
  {"metadata":{"ARROW:extension:metadata":"{\"crs\":\"EPSG:4326\",\"crs_type\":\"authority_code\"}","ARROW:extension:name":"geoarrow.wkb"},"name":"place","nullable":true,"type":"binary"}
  {"metadata":{"ARROW:extension:metadata":"{\"crs\":\"OGC:CRS84\",\"crs_type\":\"authority_code\",\"edges\":\"karney\"}","ARROW:extension:name":"geoarrow.wkb"},"name":"region","nullable":true,"type":"binary"}
  [1]

Where geoarrow_fields canon answers a field, both give the same

  $ geoarrow_fields canon < ../examples/schema.jsonl | grep '^{' > "$TMPDIR/canon"; wc -l < "$TMPDIR/canon"; geoarrow_check --canonical --lines ../examples/schema.jsonl | grep -e '"outline"' -e '"any"' -e '"footprint"' | cmp - "$TMPDIR/canon"
  3

Columns of other types as lines, which are read back

  $ geoarrow_check --lines ../crates/geoarrow_check/data/other.arrows
  {"metadata":{"ARROW:extension:name":"geoarrow.point"},"name":"g","nullable":true,"type":{"fixed_size_list":{"name":"xy","nullable":false,"type":"float64"},"size":2}}
  {"name":"é","nullable":false,"type":{"other":"dense_union<p: utf8=5, q: timestamp[us, tz=UTC]=1>"}}
  {"name":"d","nullable":true,"type":{"other":"dictionary<values=large_utf8, indices=int16, ordered=1>"}}

  $ geoarrow_check --lines ../crates/geoarrow_check/data/other.arrows | geoarrow_check -
    column  holds                                     CRS  edges
    g       point interleaved XY                           planar
    é       dense_union<p: utf8=5, q: timestamp[us..
    d       dictionary<values=large_utf8, indices=..

  $ echo '{"metadata":{"ARROW:extension:name":"geoarrow.point"},"name":"p","nullable":true,"type":{"other":"map<e: null>"}}' | geoarrow_check -
    column  holds                   CRS  edges
  E p       invalid geoarrow.point
      error[UnexpectedType] field: found map<e: null>; expected coordinates. The layout has no such type there.
  [1]

Behind two files and more: how many columns there are, what is found in how many files, and how many are not read

  $ cd "$TMPDIR" && (yes '{"name":"b","nullable":true,"type":"null"}' | head -n 32; cat "$top/runs/point.jsonl" "$top/runs/point.jsonl") > more
  > for word in --infer --quiet --problems --json
  > do
  >     geoarrow_check $word "$top/examples/schema.jsonl" more nowhere | tail -n 1
  > done
  3 files: 41 columns, 6 of geometries; 2 errors and 1 warning in 1 file; 1 file not read
  3 files: 41 columns, 5 of geometries; 2 errors and 1 warning in 1 file; 1 file not read
  3 files: 41 columns, 5 of geometries; 2 errors and 1 warning in 1 file; 1 file not read
  {"kind":"summary","files":3,"unread":1,"failed":1,"errors":2,"warnings":1,"notes":0,"status":2}

Errors are also bad lines, those that are not told one by one too, and what is not met; what is allowed is not counted

  $ cd "$TMPDIR" && (cat "$top/runs/point.jsonl"; yes 1 | head -n 101) > bad
  > geoarrow_check --quiet --require-geometry --expect a=XY bad "$top/crates/geoarrow_check/data/stream.arrows" | tail -n 1
  > geoarrow_check --allow warnings --notes --deny NoGeoMetadata "$top/crates/geoarrow_check/data/stored.parquet" "$top/examples/schema.jsonl" | tail -n 1
  > geoarrow_check --quiet "$top/runs/point.jsonl" "$top/runs/point.jsonl"
  > for word in --json --lines --format=github --format=sarif
  > do
  >     geoarrow_check $word "$top/examples/schema.jsonl" "$top/examples/schema.jsonl" | grep -c ' files: '
  > done
  2 files: 2 columns, 1 of geometries; 104 errors in 2 files
  2 files: 8 columns, 4 of geometries; 3 errors in 2 files
  2 files: 2 columns, 2 of geometries; no findings
  0
  0
  0
  0
  [1]

What a column is expected to hold: parts in any order

  $ geoarrow_check --quiet --infer --expect outline=EPSG:4326,XYZ,native,interleaved,multipolygon --expect footprint=WKB,wkb --expect track=XYM ../examples/schema.jsonl
  ../examples/schema.jsonl: error[WrongStorage] column label, field: found utf8; expected binary, large_binary or binary_view. For WKT use geoarrow.wkt.
  ../examples/schema.jsonl: error[EmptyUnion] column broken, field: found dense_union<>; expected union whose type ids are among 1 to 7, 11 to 17, 21 to 27 and 31 to 37. The union has no members.
  [1]

  $ geoarrow_check --quiet --expect g=linestring,XYM ../crates/geoarrow_check/data/file.arrow

  $ geoarrow_check --quiet --expect g=XY,WKB --expect h=point --expect g=OGC:CRS84 ../crates/geoarrow_check/data/file.arrow
  ../crates/geoarrow_check/data/file.arrow: error[Expect] column g, arguments: found linestring interleaved XYM, no CRS, planar; expected XY
  ../crates/geoarrow_check/data/file.arrow: error[Expect] column h, arguments: expected point. No column has that name.
  ../crates/geoarrow_check/data/file.arrow: error[Expect] column g, arguments: found linestring interleaved XYM, no CRS, planar; expected OGC:CRS84
  [1]

  $ geoarrow_check --json --expect id=point ../examples/schema.jsonl 2>&1 > /dev/null
  [1]

Letters are alike in words, edges are words too, and a CRS is met by one that agrees with it, whatever its form; one that is not known by none

  $ crs() {
  >     printf '{"metadata":{"ARROW:extension:metadata":"{%s}","ARROW:extension:name":"geoarrow.%s"},"name":"%s","nullable":true,"type":"%s"}\n' "$1" "${3-wkb}" "$2" "${4-binary}"
  > }
  > (crs '\"crs\":\"EPSG:4326\",\"edges\":\"spherical\"' code; crs '' none wkt utf8; crs '\"crs\":{\"type\":\"GeographicCRS\",\"name\":\"WGS 84\",\"id\":{\"authority\":\"OGC\",\"code\":\"CRS84\"}}' projjson) > "$TMPDIR/crs.jsonl"
  > cd "$TMPDIR" && for want in code=EPSG:4326 code=epsg:4326,Spherical,WKB,Wkb code=ogc:crs84 code=EPSG:3857 code=planar code=EPSG:432 none=PLANAR,Wkt none=EPSG:4326 none=unknown projjson=EPSG:4326,planar projjson=OGC:CRS83 'projjson=WGS 84'
  > do
  >     geoarrow_check -q --expect "$want" crs.jsonl && echo "met: $want"
  > done
  met: code=EPSG:4326
  met: code=epsg:4326,Spherical,WKB,Wkb
  met: code=ogc:crs84
  crs.jsonl: error[Expect] column code, arguments: found wkb - -, EPSG:4326, spherical; expected EPSG:3857
  crs.jsonl: error[Expect] column code, arguments: found wkb - -, EPSG:4326, spherical; expected planar
  crs.jsonl: error[Expect] column code, arguments: found wkb - -, EPSG:4326, spherical; expected EPSG:432
  met: none=PLANAR,Wkt
  crs.jsonl: error[Expect] column none, arguments: found wkt - -, no CRS, planar; expected EPSG:4326
  crs.jsonl: error[Expect] column none, arguments: found wkt - -, no CRS, planar; expected unknown
  met: projjson=EPSG:4326,planar
  crs.jsonl: error[Expect] column projjson, arguments: found wkb - -, OGC:CRS84, planar; expected OGC:CRS83
  crs.jsonl: error[Expect] column projjson, arguments: found wkb - -, OGC:CRS84, planar; expected WGS 84
  [1]

An expectation of which a part is empty is refused

  $ for want in g= g=, g=point, g=,point g=point,,XY
  > do
  >     geoarrow_check --expect "$want" x 2>&1 | head -n 1
  > done
  error: a part of WANT is empty in 'g='
  error: a part of WANT is empty in 'g=,'
  error: a part of WANT is empty in 'g=point,'
  error: a part of WANT is empty in 'g=,point'
  error: a part of WANT is empty in 'g=point,,XY'

With --json a line stands behind each file, with how many columns and findings it has, and its status; what differs from the first file counts

  $ cd "$TMPDIR" && echo '{"name":"id","nullable":true,"type":"int64"}' > a && echo '{"name":"id","nullable":true,"type":"int32"}' > b && echo '{}' > c && : > d
  > geoarrow_check --json --same a b c d - < a | grep -v '"kind":"column"\|"kind":"finding"'
  > geoarrow_check --json --infer --notes --deny NullableInner "$top/examples/schema.jsonl" | tail -n 1 | sed 's|"[^"]*/examples|"examples|'
  {"kind":"file","file":"a","read":true,"columns":1,"geometries":0,"errors":0,"warnings":0,"notes":0,"status":0}
  {"kind":"file","file":"b","read":true,"columns":1,"geometries":0,"errors":1,"warnings":0,"notes":0,"status":1}
  {"kind":"file","file":"c","read":true,"columns":0,"geometries":0,"errors":2,"warnings":0,"notes":0,"status":2}
  {"kind":"file","file":"d","read":false,"status":2}
  {"kind":"file","read":true,"columns":1,"geometries":0,"errors":0,"warnings":0,"notes":0,"status":0}
  {"kind":"summary","files":5,"unread":1,"failed":1,"errors":3,"warnings":0,"notes":0,"status":2}
  {"kind":"file","file":"examples/schema.jsonl","read":true,"columns":7,"geometries":4,"errors":3,"warnings":0,"notes":0,"status":1}

A folder stands for its files with seven endings, down all folders, in the order of bytes; what begins with `_` or `.` is left out, and a link to a folder is not followed

  $ cd "$TMPDIR" && mkdir -p lake/sub/deep lake/_tmp lake/.h lake/none lake/d.parquet && for file in b.jsonl a.ndjson A.jsonl sub/x.jsonl sub-1.jsonl sub/deep/y.ndjson _tmp/z.jsonl .h/z.jsonl sub/_q.jsonl sub/.q.jsonl c.json d.JSONL e.jsonl.crc jsonl d.parquet/part.jsonl
  > do
  >     echo '{"name":"a","nullable":true,"type":"null"}' > lake/$file
  > done
  > ln -s ../sub lake/none/link && ln -s ../b.jsonl lake/none/link.jsonl
  > for words in lake 'lake/none/ lake//sub' 'lake/c.json lake/_tmp' lake/none/link
  > do
  >     echo $(geoarrow_check --json $words | grep -v '"kind":"file"' | sed 's/.*"file":"\([^"]*\)".*/\1/')
  > done
  > for end in parquet geoparquet arrow feather arrows jsonl ndjson; do : > lake/none/f.$end; done
  > geoarrow_check -q lake/none | cut -d: -f1
  lake/A.jsonl lake/a.ndjson lake/b.jsonl lake/d.parquet/part.jsonl lake/none/link.jsonl lake/sub-1.jsonl lake/sub/deep/y.ndjson lake/sub/x.jsonl {"kind":"summary","files":8,"unread":0,"failed":0,"errors":0,"warnings":0,"notes":0,"status":0}
  lake/none/link.jsonl lake//sub/deep/y.ndjson lake//sub/x.jsonl {"kind":"summary","files":3,"unread":0,"failed":0,"errors":0,"warnings":0,"notes":0,"status":0}
  lake/c.json lake/_tmp/z.jsonl {"kind":"summary","files":2,"unread":0,"failed":0,"errors":0,"warnings":0,"notes":0,"status":0}
  lake/none/link/deep/y.ndjson lake/none/link/x.jsonl {"kind":"summary","files":2,"unread":0,"failed":0,"errors":0,"warnings":0,"notes":0,"status":0}
  lake/none/f.arrow
  lake/none/f.arrows
  lake/none/f.feather
  lake/none/f.geoparquet
  lake/none/f.jsonl
  lake/none/f.ndjson
  lake/none/f.parquet
  8 files

A folder that is not listed, or not all of it, is refused, and the other files are read; one without files says nothing, and an Arrow stream is of one file

  $ cd "$TMPDIR" && mkdir -p some/part none && L='{"name":"a","nullable":true,"type":"null"}' && echo "$L" > some/b.jsonl && echo "$L" > some/part/c.jsonl && echo "$L" > "$(printf 'some/part/\377.jsonl')"
  > geoarrow_check --json some 2>&1 | sed 's/"found":"[^"]*"/"found":".."/; s/found .*;/found ..;/'
  > geoarrow_check none && geoarrow_check --ipc some; echo $?
  > rm some/part/*l && geoarrow_check --ipc some > one && geoarrow_check --ipc some/b.jsonl | cmp - one && echo one
  {"kind":"column","file":"some/b.jsonl","index":0,"column":"a","state":"plain","type":"null"}
  {"kind":"file","file":"some/b.jsonl","read":true,"columns":1,"geometries":0,"errors":0,"warnings":0,"notes":0,"status":0}
  {"kind":"finding","severity":"error","code":"CannotRead","file":"some/part","found":"..","expected":"a file that can be read"}
  {"kind":"file","file":"some/part","read":false,"status":2}
  {"kind":"column","file":"some/part/c.jsonl","index":0,"column":"a","state":"plain","type":"null"}
  {"kind":"file","file":"some/part/c.jsonl","read":true,"columns":1,"geometries":0,"errors":0,"warnings":0,"notes":0,"status":0}
  {"kind":"summary","files":3,"unread":1,"failed":0,"errors":0,"warnings":0,"notes":0,"status":2}
  geoarrow_check: --ipc takes one file
  2
  one

Colours are on a terminal alone, unless they are refused; or as is asked, in tables and lines of errors

  $ on_terminal() { python3 -c 'import pty, sys; pty.spawn(sys.argv[1:])' "$@" | tr -d '\r'; }
  > cd "$TMPDIR" && cp "$top/crates/geoarrow_check/data/stored.parquet" . && echo '{"metadata":{"ARROW:extension:name":"geoarrow.wkb"},"name":"a","nullable":true,"type":"utf8"}' > a.jsonl && unset NO_COLOR COLUMNS
  > for words in '-q a.jsonl' '-q --color never a.jsonl' '--problems a.jsonl' '--problems stored.parquet' '--problems --deny warnings stored.parquet' '--format github a.jsonl'
  > do
  >     on_terminal geoarrow_check $words | sed -n 's/\(NoGeoMetadata\]\|WrongStorage\]\|::error\|title\).*/\1/; /\[/p; /::/p' | cat -v
  > done
  > NO_COLOR=1 on_terminal geoarrow_check -q a.jsonl | cat -v
  > NO_COLOR= on_terminal geoarrow_check -q a.jsonl | cut -c-12 | cat -v
  > for words in '-q' '-q --color=always' '--color auto -q' '--color never --color always --problems' '--color always --format github'
  > do
  >     NO_COLOR=1 geoarrow_check $words a.jsonl | grep WrongStorage | sed 's/\(WrongStorage][^ ]*\).*/\1/' | cat -v
  > done
  a.jsonl: ^[[1;31merror[WrongStorage]
  a.jsonl: error[WrongStorage]
      ^[[1;31merror[WrongStorage]
  ^[[1;33mwarning[NoGeoMetadata]
  ^[[1;31merror[NoGeoMetadata]
  ::error
  a.jsonl: error[WrongStorage] column a, field: found utf8; expected binary, large_binary or binary_view. For WKT use geoarrow.wkt.
  a.jsonl: ^[[1
  a.jsonl: error[WrongStorage]
  a.jsonl: ^[[1;31merror[WrongStorage]^[[0m
  a.jsonl: error[WrongStorage]
      ^[[1;31merror[WrongStorage]^[[0m
  ::error file=a.jsonl,title=WrongStorage::column a, field: found utf8; expected binary, large_binary or binary_view. For WKT use geoarrow.wkt.

A table is not wider than a terminal whose columns are known, as long as its cells have 8; each other output is as wide as before

  $ on_terminal() { python3 -c 'import pty, sys; pty.spawn(sys.argv[1:])' "$@" | tr -d '\r'; }
  > cd "$TMPDIR" && echo '{"metadata":{"ARROW:extension:name":"geoarrow.linestring","ARROW:extension:metadata":"{\"crs\":\"EPSG:31370\",\"edges\":\"spherical\"}"},"name":"the_roads_of_a_country","nullable":true,"type":{"list":{"name":"vertices","nullable":false,"type":{"fixed_size_list":{"name":"xym","nullable":false,"type":"float64"},"size":3}}}}' > roads.jsonl
  > for columns in 75 73 62 50 20 '' x
  > do
  >     COLUMNS=$columns on_terminal geoarrow_check --color never roads.jsonl | tail -n 1
  > done
  > COLUMNS=20 geoarrow_check roads.jsonl | tail -n 1
    the_roads_of_a_country  linestring interleaved XYM  EPSG:31370  spherical
    the_roads_of_a_country  linestring interleaved..  EPSG:31370  spherical
    the_roads_of_a_..  linestring inte..  EPSG:31370  spherical
    the_roads..  linestrin..  EPSG:31370  spherical
    the_ro..  linest..  EPSG:3..  spheri..
    the_roads_of_a_country  linestring interleaved XYM  EPSG:31370  spherical
    the_roads_of_a_country  linestring interleaved XYM  EPSG:31370  spherical
    the_roads_of_a_country  linestring interleaved XYM  EPSG:31370  spherical

An Arrow stream is refused to a terminal, as bytes are no text

  $ python3 -c 'import os, pty, sys; print(os.waitstatus_to_exitcode(pty.spawn(sys.argv[1:])))' geoarrow_check --ipc ../crates/geoarrow_check/data/file.arrow | tr -d '\r' | grep -v '^$'
  error: --ipc prints bytes, and the output is a terminal
  Usage: geoarrow_check [OPTIONS] [FILE]...
  For more information, try '--help'.
  2

A text has the columns of a terminal that its characters have: East Asian wide ones two, combining ones none, an emoji two with its selector

  $ python3 -c 'import json
  > for name in ("東京", "e\u0301", "x", "❤\ufe0f", "東" * 20, "東" * 21, "x" + "東" * 20, "e\u0301" * 40, "e\u0301" * 41, "❤\ufe0f" * 20, "❤\ufe0f" * 21):
  >     print(json.dumps({"name": name, "nullable": True, "type": "null"}))' | geoarrow_check -
    column                                    holds  CRS  edges
    東京                                      null
    é                                         null
    x                                         null
    ❤️                                        null
    東東東東東東東東東東東東東東東東東東東東  null
    東東東東東東東東東東東東東東東東東東東..  null
    x東東東東東東東東東東東東東東東東東東..   null
    éééééééééééééééééééééééééééééééééééééééé  null
    éééééééééééééééééééééééééééééééééééééé..  null
    ❤️❤️❤️❤️❤️❤️❤️❤️❤️❤️❤️❤️❤️❤️❤️❤️❤️❤️❤️❤️  null
    ❤️❤️❤️❤️❤️❤️❤️❤️❤️❤️❤️❤️❤️❤️❤️❤️❤️❤️❤️..  null

Only the end of an Arrow file is read, and only the first message of a stream

  $ (printf 'ARROW1\000\000'; tail -c 2000 ../crates/geoarrow_check/data/file.arrow) > "$TMPDIR/file" && geoarrow_check --quiet --expect g=linestring "$TMPDIR/file"

  $ truncate -s 8G "$TMPDIR/large" && printf 'ARROW1' | dd of="$TMPDIR/large" conv=notrunc status=none && cat ../crates/geoarrow_check/data/file.arrow >> "$TMPDIR/large" && geoarrow_check --quiet --expect g=linestring "$TMPDIR/large"

  $ (cat ../crates/geoarrow_check/data/stream.arrows; yes) | geoarrow_check --json -
  {"kind":"column","index":0,"column":"a","state":"plain","type":"int64"}
  {"kind":"file","read":true,"columns":1,"geometries":0,"errors":0,"warnings":0,"notes":0,"status":0}

A stream as written before Arrow 0.15, without the marker, as flatc wrote it: as standard input, and as a file; written anew, and cut off

  $ cat > "$TMPDIR/old" << 'END'
  > a40000001000000000000a000c000600050008000a000000000104000c0000000800080000000400080000000400000001000000180000000000120014000800060007000c00000000001000120000000000010244000000380000000400000001000000
  > 0c00000008000c000400080008000000100000000400000000000000000000000000000000000600080004000600000020000000090000006c696e650a66656564000000
  > END
  > python3 -c 'import sys; sys.stdout.buffer.write(bytes.fromhex(sys.stdin.read()))' < "$TMPDIR/old" > "$TMPDIR/old.arrows" && cd "$TMPDIR" && geoarrow_check --json old.arrows && (cat old.arrows; yes) | geoarrow_check --json -
  > geoarrow_check --ipc old.arrows | geoarrow_check --json - && head -c 100 old.arrows > cut && geoarrow_check cut
  {"kind":"column","file":"old.arrows","index":0,"column":"line\nfeed","state":"plain","type":"uint32"}
  {"kind":"file","file":"old.arrows","read":true,"columns":1,"geometries":0,"errors":0,"warnings":0,"notes":0,"status":0}
  {"kind":"column","index":0,"column":"line\nfeed","state":"plain","type":"uint32"}
  {"kind":"file","read":true,"columns":1,"geometries":0,"errors":0,"warnings":0,"notes":0,"status":0}
  {"kind":"column","index":0,"column":"line\nfeed","state":"plain","type":"uint32"}
  {"kind":"file","read":true,"columns":1,"geometries":0,"errors":0,"warnings":0,"notes":0,"status":0}
  cut: error[Truncated] byte 100: found 96 bytes; expected 164 bytes. The file is cut off, or still being written
  [2]

200,000 lines in memory that does not grow: 16 MB of addresses suffice, and the places of columns go on

  $ for word in --quiet --lines --json --format=github
  > do
  >     yes "$(cat point.jsonl)" | head -n 200000 | (ulimit -v 16000; geoarrow_check $word --expect geometry=point --expect b=XY -) | sed 's/"index":[0-9]*,//' | uniq -c | cut -c1-60
  > done
        1 -: error[Expect] column b, arguments: expected XY. N
  -: error[Expect] column b, arguments: expected XY. No column has that name.
   200000 {"metadata":{"ARROW:extension:name":"geoarrow.point"
   200000 {"kind":"column","column":"geometry","state":"geomet
        1 {"kind":"finding","severity":"error","code":"Expect"
        1 {"kind":"file","read":true,"columns":200000,"geometr
        1 ::error title=Expect::column b, arguments: expected 

  $ yes "$(cat point.jsonl)" | head -n 200000 | (ulimit -v 16000; geoarrow_check --json -) | grep -o '"index":[0-9]*' | sed -n '1p;$p'
  "index":0
  "index":199999

A line of 1,048,576 bytes, and one with a byte more

  $ for bytes in 1048576 1048577
  > do
  >     (cat point.jsonl; printf '%*s\n' $bytes '{"name":"a","nullable":true,"type":"null"}') | geoarrow_check --json - 2>&1 | cut -c1-60
  > done
  {"kind":"column","index":0,"column":"geometry","state":"geom
  {"kind":"column","index":1,"column":"a","state":"plain","typ
  {"kind":"file","read":true,"columns":2,"geometries":1,"error
  {"kind":"column","index":0,"column":"geometry","state":"geom
  {"kind":"finding","severity":"error","code":"LongLine","line
  {"kind":"file","read":false,"status":2}

An input without a line feed, which does not end

  $ (printf '{'; yes | tr -d '\n') | (ulimit -v 16000; geoarrow_check --quiet -)
  -: error[LongLine] line 1: found more than 1048576 bytes; expected at most 1048576 bytes
  [2]

Lines of JSON

  $ geoarrow_check --json --infer ../examples/schema.jsonl
  {"kind":"column","file":"../examples/schema.jsonl","index":0,"column":"id","state":"plain","type":"int64"}
  {"kind":"column","file":"../examples/schema.jsonl","index":1,"column":"outline","state":"geometry","type":"multipolygon interleaved XYZ","type_from":"field","extension":"geoarrow.multipolygon","crs":"EPSG:4326","crs_type":"authority_code","crs_from":"field","edges":"spherical","edges_from":"field","geometry_types":["MultiPolygon Z"],"findings":[{"severity":"warning","code":"NullableInner","path":["item"],"in":"field","found":"nullable","expected":"not null"}]}
  {"kind":"column","file":"../examples/schema.jsonl","index":2,"column":"any","state":"geometry","type":"geometry separated -","type_from":"field","extension":"geoarrow.geometry","edges":"planar"}
  {"kind":"column","file":"../examples/schema.jsonl","index":3,"column":"footprint","state":"geometry","type":"wkb - -","type_from":"field","extension":"geoarrow.wkb","edges":"planar","edges_from":"field"}
  {"kind":"column","file":"../examples/schema.jsonl","index":4,"column":"label","state":"invalid","type":"utf8","extension":"geoarrow.wkb","findings":[{"severity":"error","code":"WrongStorage","in":"field","found":"utf8","expected":"binary, large_binary or binary_view","help":"For WKT use geoarrow.wkt."}]}
  {"kind":"column","file":"../examples/schema.jsonl","index":5,"column":"track","state":"inferred","type":"point separated XYM","edges":"planar","geometry_types":["Point M"]}
  {"kind":"column","file":"../examples/schema.jsonl","index":6,"column":"broken","state":"invalid","type":"dense_union<>","extension":"geoarrow.geometry","findings":[{"severity":"error","code":"EmptyUnion","in":"field","found":"dense_union<>","expected":"union whose type ids are among 1 to 7, 11 to 17, 21 to 27 and 31 to 37","help":"The union has no members."}]}
  {"kind":"file","file":"../examples/schema.jsonl","read":true,"columns":7,"geometries":4,"errors":2,"warnings":1,"notes":0,"status":1}
  [1]

Standard input has no name; a stream is told from lines by its first bytes

  $ echo '{"name":"a","nullable":true,"type":"float64"}' | geoarrow_check --json -
  {"kind":"column","index":0,"column":"a","state":"plain","type":"float64"}
  {"kind":"file","read":true,"columns":1,"geometries":0,"errors":0,"warnings":0,"notes":0,"status":0}

  $ geoarrow_check --json - < ../crates/geoarrow_check/data/stream.arrows
  {"kind":"column","index":0,"column":"a","state":"plain","type":"int64"}
  {"kind":"file","read":true,"columns":1,"geometries":0,"errors":0,"warnings":0,"notes":0,"status":0}

A file of no bytes, or of blank lines alone, is empty

  $ cd "$TMPDIR" && : > none && printf '\n \t\r\n' > blank && for words in --json --lines --ipc --quiet --infer
  > do
  >     geoarrow_check $words none 2>&1
  >     geoarrow_check $words blank 2>&1
  >     geoarrow_check $words - < /dev/null 2>&1
  >     cat blank | geoarrow_check $words - 2>&1
  > done | LC_ALL=C sort | uniq -c
        8 -: error[EmptyFile] byte 0: found 0 bytes, or blanks alone; expected an Arrow file, an Arrow stream, a Parquet file or lines of fields. The writing or the copy broke off before its first byte
        4 blank: error[EmptyFile] byte 0: found 0 bytes, or blanks alone; expected an Arrow file, an Arrow stream, a Parquet file or lines of fields. The writing or the copy broke off before its first byte
        4 none: error[EmptyFile] byte 0: found 0 bytes, or blanks alone; expected an Arrow file, an Arrow stream, a Parquet file or lines of fields. The writing or the copy broke off before its first byte
        1 {"kind":"file","file":"blank","read":false,"status":2}
        1 {"kind":"file","file":"none","read":false,"status":2}
        2 {"kind":"file","read":false,"status":2}
        2 {"kind":"finding","severity":"error","code":"EmptyFile","byte":0,"found":"0 bytes, or blanks alone","expected":"an Arrow file, an Arrow stream, a Parquet file or lines of fields","help":"The writing or the copy broke off before its first byte"}
        1 {"kind":"finding","severity":"error","code":"EmptyFile","file":"blank","byte":0,"found":"0 bytes, or blanks alone","expected":"an Arrow file, an Arrow stream, a Parquet file or lines of fields","help":"The writing or the copy broke off before its first byte"}
        1 {"kind":"finding","severity":"error","code":"EmptyFile","file":"none","byte":0,"found":"0 bytes, or blanks alone","expected":"an Arrow file, an Arrow stream, a Parquet file or lines of fields","help":"The writing or the copy broke off before its first byte"}

  $ geoarrow_check /dev/null
  /dev/null: error[EmptyFile] byte 0: found 0 bytes, or blanks alone; expected an Arrow file, an Arrow stream, a Parquet file or lines of fields. The writing or the copy broke off before its first byte
  [2]

  $ geoarrow_check --json - < /dev/null
  {"kind":"finding","severity":"error","code":"EmptyFile","byte":0,"found":"0 bytes, or blanks alone","expected":"an Arrow file, an Arrow stream, a Parquet file or lines of fields","help":"The writing or the copy broke off before its first byte"}
  {"kind":"file","read":false,"status":2}
  [2]

A blank line is passed over, wherever it stands, and counts as a line

  $ printf '\n{"name":"a","nullable":true,"type":"null"}\r\n \t\n{"name":"b","nullable":true,"type":"null"}\n\n' | geoarrow_check --json -
  {"kind":"column","index":0,"column":"a","state":"plain","type":"null"}
  {"kind":"column","index":1,"column":"b","state":"plain","type":"null"}
  {"kind":"file","read":true,"columns":2,"geometries":0,"errors":0,"warnings":0,"notes":0,"status":0}

  $ printf '{"name":"a","nullable":true,"type":"null"}\n\n \r\n[]\n{"name":"b","nullable":true,"type":"null"}\n' | geoarrow_check --json -
  {"kind":"column","index":0,"column":"a","state":"plain","type":"null"}
  {"kind":"column","index":1,"column":"b","state":"plain","type":"null"}
  {"kind":"finding","severity":"error","code":"BadLine","line":4,"found":"JSON that is no object","expected":"a JSON object"}
  {"kind":"file","read":true,"columns":2,"geometries":0,"errors":1,"warnings":0,"notes":0,"status":2}
  [2]

What is said with notes alone: a number in a CRS that is not whole

  $ cat > "$TMPDIR/projjson" << 'END'
  > {"metadata":{"ARROW:extension:metadata":"{\"crs\":{\"type\":\"GeographicCRS\",\"name\":\"WGS 84\",\"id\":{\"authority\":\"EPSG\",\"code\":4326},\"scale\":0.5}}","ARROW:extension:name":"geoarrow.wkb"},"name":"g","nullable":true,"type":"binary"}
  > {"metadata":{"ARROW:extension:metadata":"","ARROW:extension:name":"geoarrow.wkb"},"name":"e","nullable":true,"type":"binary"}
  > END
  > cd "$TMPDIR" && geoarrow_check projjson && geoarrow_check --notes projjson && geoarrow_check --json - < projjson && geoarrow_check --notes --json - < projjson
    column  holds  CRS        edges
    g       wkb    EPSG:4326  planar
  W e       wkb               planar
      warning[MetadataEmpty] extension metadata: found ""; expected no metadata, or {}. It is read as no metadata.
    column  holds  CRS        edges
  N g       wkb    EPSG:4326  planar
      note[CrsNotWhole] extension metadata /crs/scale: found 0.5; expected whole numbers. For this alone read and canon of geoarrow_fields refuse the field; other readers do not.
  W e       wkb               planar
      warning[MetadataEmpty] extension metadata: found ""; expected no metadata, or {}. It is read as no metadata.
  {"kind":"column","index":0,"column":"g","state":"geometry","type":"wkb - -","type_from":"field","extension":"geoarrow.wkb","crs":{"type":"GeographicCRS","name":"WGS 84","id":{"authority":"EPSG","code":4326},"scale":0.5},"crs_from":"field","edges":"planar","edges_from":"field"}
  {"kind":"column","index":1,"column":"e","state":"geometry","type":"wkb - -","type_from":"field","extension":"geoarrow.wkb","edges":"planar","findings":[{"severity":"warning","code":"MetadataEmpty","in":"extension metadata","pointer":"","found":"\"\"","expected":"no metadata, or {}","help":"It is read as no metadata."}]}
  {"kind":"file","read":true,"columns":2,"geometries":2,"errors":0,"warnings":1,"notes":0,"status":0}
  {"kind":"column","index":0,"column":"g","state":"geometry","type":"wkb - -","type_from":"field","extension":"geoarrow.wkb","crs":{"type":"GeographicCRS","name":"WGS 84","id":{"authority":"EPSG","code":4326},"scale":0.5},"crs_from":"field","edges":"planar","edges_from":"field","findings":[{"severity":"note","code":"CrsNotWhole","in":"extension metadata","pointer":"/crs/scale","found":"0.5","expected":"whole numbers","help":"For this alone read and canon of geoarrow_fields refuse the field; other readers do not."}]}
  {"kind":"column","index":1,"column":"e","state":"geometry","type":"wkb - -","type_from":"field","extension":"geoarrow.wkb","edges":"planar","findings":[{"severity":"warning","code":"MetadataEmpty","in":"extension metadata","pointer":"","found":"\"\"","expected":"no metadata, or {}","help":"It is read as no metadata."}]}
  {"kind":"file","read":true,"columns":2,"geometries":2,"errors":0,"warnings":1,"notes":1,"status":0}

Names of files that would control a terminal, or stand on two lines: above a table, and in all that is said

  $ cd "$TMPDIR" && file=$(printf 'a\nb\033[1m') && echo '{"name":"a","nullable":true,"type":"null"}' > "$file" && geoarrow_check "$file" "$file"
  a\u{a}b\u{1b}[1m:
    column  holds  CRS  edges
    a       null
  a\u{a}b\u{1b}[1m:
    column  holds  CRS  edges
    a       null
  2 files: 2 columns, 0 of geometries; no findings

  $ cd "$TMPDIR" && file=$(printf 'a\nb\033[1m') && echo '{"name":"a","nullable":true,"type":{"other":"timestamp[ms]"}}' > "$file" && geoarrow_check --quiet --require-geometry --expect b=XY --expect a=XY "$file"; geoarrow_check --ipc "$file"; echo '{}' > "$file"; geoarrow_check "$file"; geoarrow_check "$file.parquet"; geoarrow_check --expect "$file" x 2>&1 | head -n 1
  a\u{a}b\u{1b}[1m: error[Expect] column b, arguments: expected XY. No column has that name.
  a\u{a}b\u{1b}[1m: error[Expect] column a, arguments: found timestamp[ms]; expected XY
  a\u{a}b\u{1b}[1m: error[NoGeometry] file: found 1 column; expected a column of geometries. With --infer columns count whose types tell geometries, too.
  a\u{a}b\u{1b}[1m: error[ColumnType] column 0: found a type that no message can hold; expected a type of Schema.fbs, nested at most 61 levels deep
    column  holds  CRS  edges
  a\u{a}b\u{1b}[1m: error[BadLine] line 1: found no string at "name"; expected a string at "name"
  a\u{a}b\u{1b}[1m.parquet: error[CannotRead]: found No such file or directory (os error 2); expected a file that can be read
  error: 'a?b?[1m' is no COLUMN=WANT

  $ cd "$TMPDIR" && file=$(printf 'a\nb\033[1m') && echo '{"name":"a","nullable":true,"type":"null"}' > "$file" && geoarrow_check --json "$file"
  {"kind":"column","file":"a\nb\u001b[1m","index":0,"column":"a","state":"plain","type":"null"}
  {"kind":"file","file":"a\nb\u001b[1m","read":true,"columns":1,"geometries":0,"errors":0,"warnings":0,"notes":0,"status":0}

One long name, or one long type, does not widen the other rows

  $ long=$(head -c 20000 /dev/zero | tr '\0' a) && (echo "{\"name\":\"$long\",\"nullable\":true,\"type\":{\"list\":{\"name\":\"$long\",\"nullable\":true,\"type\":\"null\"}}}"; yes '{"name":"b","nullable":true,"type":"null"}' | head -n 20000) | geoarrow_check - | awk 'NR <= 3 { print } length($0) > longest { longest = length($0) } END { print NR, longest }'
    column                                    holds                                     CRS  edges
    aaaaaaaaaaaaaaaaaaaaaaaaaaaaaaaaaaaaaa..  list<aaaaaaaaaaaaaaaaaaaaaaaaaaaaaaaaa..
    b                                         null
  20002 96

A PROJJSON of 60,009 bytes that 2,048 columns of a Parquet file name: refused, in 64 MB of addresses

  $ cd "$TMPDIR" && printf '\025\014\045\002\030\001g\154\014\042\030\012projjson:k\000\000\000' > column && for times in 1 2 3 4 5 6 7 8 9 10 11
  > do
  >     cat column column > columns && mv columns column
  > done
  > (printf '\025\004\031\374\201\020\110\006schema\025\200\040\000'; cat column; printf '\026\000\031\014\031\034\030\001k\030\351\324\003{"name":"'; head -c 59998 /dev/zero | tr '\0' a; printf '"}\000\000') > footer
  > size=$(wc -c < footer) && (printf 'PAR1'; cat footer; printf "\\$(printf %o $((size % 256)))\\$(printf %o $((size / 256 % 256)))\\$(printf %o $((size / 65536)))\\000PAR1") > bomb.parquet
  > for words in --json --quiet --lines --infer
  > do
  >     (ulimit -v 64000; geoarrow_check $words bomb.parquet)
  > done
  {"kind":"finding","severity":"error","code":"ReportTooLarge","file":"bomb.parquet","found":"a larger report","expected":"a report of at most 1048576 bytes and 32 for each byte read"}
  {"kind":"file","file":"bomb.parquet","read":false,"status":2}
  bomb.parquet: error[ReportTooLarge]: found a larger report; expected a report of at most 1048576 bytes and 32 for each byte read
  bomb.parquet: error[ReportTooLarge]: found a larger report; expected a report of at most 1048576 bytes and 32 for each byte read
  bomb.parquet: error[ReportTooLarge]: found a larger report; expected a report of at most 1048576 bytes and 32 for each byte read
  [2]

A report that is too large: no column is printed, also of those before the one that makes it so

  $ long=$(yes '\u0001' | head -n 30000 | tr -d '\n') && field='{"metadata":{"ARROW:extension:name":"geoarrow.wkb"},"name":"k","nullable":true,"type":"binary"}' && cd "$TMPDIR" && (echo "$field"; printf '{"name":"s","nullable":true,"type":{"struct":[{"name":"%s","nullable":true,"type":{"struct":[%s%s]}}]}}\n' "$long" "$(yes "$field," | head -n 15 | tr -d '\n')" "$field") > lines && geoarrow_check --ipc lines > stream
  > geoarrow_check --json stream
  > geoarrow_check --quiet --expect k=wkb stream && geoarrow_check --json lines | wc -l
  {"kind":"finding","severity":"error","code":"ReportTooLarge","file":"stream","found":"a larger report","expected":"a report of at most 1048576 bytes and 32 for each byte read"}
  {"kind":"file","file":"stream","read":false,"status":2}
  3

A file without geometries where some are required

  $ geoarrow_check --require-geometry ../crates/geoarrow_check/data/stream.arrows 2> /dev/null
    column  holds  CRS  edges
    a       int64
  ../crates/geoarrow_check/data/stream.arrows: error[NoGeometry] file: found 1 column; expected a column of geometries. With --infer columns count whose types tell geometries, too.
  [1]

  $ geoarrow_check --json --require-geometry ../crates/geoarrow_check/data/stream.arrows
  {"kind":"column","file":"../crates/geoarrow_check/data/stream.arrows","index":0,"column":"a","state":"plain","type":"int64"}
  {"kind":"finding","severity":"error","code":"NoGeometry","file":"../crates/geoarrow_check/data/stream.arrows","in":"file","found":"1 column","expected":"a column of geometries","help":"With --infer columns count whose types tell geometries, too."}
  {"kind":"file","file":"../crates/geoarrow_check/data/stream.arrows","read":true,"columns":1,"geometries":0,"errors":1,"warnings":0,"notes":0,"status":1}
  [1]

  $ geoarrow_check --json --require-geometry ../crates/geoarrow_check/data/file.arrow > /dev/null

What is said of files stands on standard output, but beside lines of fields and a stream on standard error; so does what is expected and not met beside lines of JSON

  $ cd "$TMPDIR" && printf '{"name":"a","nullable":true,"type":"null"}\n[]\n' > lines && printf 'PAR1PAR1' > cut.parquet
  > for words in --infer --quiet --problems --format=github --json --lines
  > do
  >     geoarrow_check $words --expect b=point --require-geometry lines cut.parquet nowhere 2>&1 > /dev/null | wc -l
  > done
  > for file in lines cut.parquet nowhere
  > do
  >     geoarrow_check --ipc --expect b=point --require-geometry $file 2>&1 > /dev/null | wc -l
  > done
  0
  0
  0
  0
  0
  5
  3
  1
  1

Files that cannot be read: the next one is read all the same

  $ geoarrow_check --json nowhere.jsonl ../crates/geoarrow_check/data/stream.arrows
  {"kind":"finding","severity":"error","code":"CannotRead","file":"nowhere.jsonl","found":"No such file or directory (os error 2)","expected":"a file that can be read"}
  {"kind":"file","file":"nowhere.jsonl","read":false,"status":2}
  {"kind":"column","file":"../crates/geoarrow_check/data/stream.arrows","index":0,"column":"a","state":"plain","type":"int64"}
  {"kind":"file","file":"../crates/geoarrow_check/data/stream.arrows","read":true,"columns":1,"geometries":0,"errors":0,"warnings":0,"notes":0,"status":0}
  {"kind":"summary","files":2,"unread":1,"failed":0,"errors":0,"warnings":0,"notes":0,"status":2}
  [2]

Names that are not UTF-8: an argument is a file that is not read, and so is a folder that has one; the others are reported

  $ cd "$TMPDIR" && mkdir lake && bad=$(printf 'x\376\303\251.jsonl') && echo '{"name":"a","nullable":true,"type":"null"}' > lake/a.jsonl && cp lake/a.jsonl "lake/$bad"
  > geoarrow_check "lake/$bad" lake/a.jsonl; echo $?; geoarrow_check -q lake; echo $?; geoarrow_check --json "$bad"
  lake/x\xfeé.jsonl: error[CannotRead]: found invalid filename; expected a file that can be read
  lake/a.jsonl:
    column  holds  CRS  edges
    a       null
  2 files: 1 column, 0 of geometries; no findings; 1 file not read
  2
  lake: error[CannotRead]: found invalid filename; expected a file that can be read
  2 files: 1 column, 0 of geometries; no findings; 1 file not read
  2
  {"kind":"finding","severity":"error","code":"CannotRead","file":"x\\xfeé.jsonl","found":"invalid filename","expected":"a file that can be read"}
  {"kind":"file","file":"x\\xfeé.jsonl","read":false,"status":2}
  [2]

Lines that are no columns are told behind those that are, and no stream is written; what is expected is asked of the columns

  $ for words in --json --lines --quiet --infer --ipc
  > do
  >     printf '{"name":"a","nullable":true,"type":"null"}\n[]\n' | geoarrow_check $words --expect b=point --require-geometry -
  > done
  {"kind":"column","index":0,"column":"a","state":"plain","type":"null"}
  {"kind":"finding","severity":"error","code":"BadLine","line":2,"found":"JSON that is no object","expected":"a JSON object"}
  {"kind":"finding","severity":"error","code":"Expect","column":"b","in":"arguments","expected":"point","help":"No column has that name."}
  {"kind":"finding","severity":"error","code":"NoGeometry","in":"file","found":"1 column","expected":"a column of geometries","help":"With --infer columns count whose types tell geometries, too."}
  {"kind":"file","read":true,"columns":1,"geometries":0,"errors":3,"warnings":0,"notes":0,"status":2}
  {"name":"a","nullable":true,"type":"null"}
  -: error[BadLine] line 2: found JSON that is no object; expected a JSON object
  -: error[Expect] column b, arguments: expected point. No column has that name.
  -: error[NoGeometry] file: found 1 column; expected a column of geometries. With --infer columns count whose types tell geometries, too.
  -: error[BadLine] line 2: found JSON that is no object; expected a JSON object
  -: error[Expect] column b, arguments: expected point. No column has that name.
  -: error[NoGeometry] file: found 1 column; expected a column of geometries. With --infer columns count whose types tell geometries, too.
    column  holds  CRS  edges
    a       null
  -: error[BadLine] line 2: found JSON that is no object; expected a JSON object
  -: error[Expect] column b, arguments: expected point. No column has that name.
  -: error[NoGeometry] file: found 1 column; expected a column of geometries
  -: error[BadLine] line 2: found JSON that is no object; expected a JSON object
  -: error[Expect] column b, arguments: expected point. No column has that name.
  -: error[NoGeometry] file: found 1 column; expected a column of geometries. With --infer columns count whose types tell geometries, too.
  [2]

At most a hundred are told, with how many more there are; a line that is too long ends the reading

  $ (cat point.jsonl; yes 1 | head -n 101) | geoarrow_check --json - 2>&1 | sed -n '2p;101,102p;201,$p'
  {"kind":"finding","severity":"error","code":"BadLine","line":2,"found":"JSON that is no object","expected":"a JSON object"}
  {"kind":"finding","severity":"error","code":"BadLine","line":101,"found":"JSON that is no object","expected":"a JSON object","more":1}
  {"kind":"file","read":true,"columns":1,"geometries":1,"errors":101,"warnings":0,"notes":0,"status":2}

  $ (cat point.jsonl; printf '{}\n%*s\n{}\n' 1048577 '') | geoarrow_check --quiet -
  -: error[BadLine] line 2: found no string at "name"; expected a string at "name"
  -: error[LongLine] line 3: found more than 1048576 bytes; expected at most 1048576 bytes
  [2]

Lines none of which is a column; and GeoJSON, or `{` alone, which refuse the file on the first line that is not blank alone

  $ printf '{}\n\n1\n' | geoarrow_check --json -
  {"kind":"finding","severity":"error","code":"BadLine","line":1,"found":"no string at \"name\"","expected":"a string at \"name\""}
  {"kind":"finding","severity":"error","code":"BadLine","line":3,"found":"JSON that is no object","expected":"a JSON object"}
  {"kind":"file","read":true,"columns":0,"geometries":0,"errors":2,"warnings":0,"notes":0,"status":2}
  [2]

  $ for first in '{"type":"Feature"}' '{'
  > do
  >     (printf '\n%s\n' "$first"; cat point.jsonl) | geoarrow_check --quiet -
  >     (cat point.jsonl; printf '\n%s\n' "$first"; cat point.jsonl) | geoarrow_check -
  > done
  -: error[ForeignFormat] line 2: found GeoJSON; expected an Arrow file, an Arrow stream, a Parquet file or lines of fields. Try ogr2ogr out.parquet FILE
    column    holds               CRS  edges
    geometry  point separated XY       planar
    geometry  point separated XY       planar
  -: error[BadLine] line 3: found no string at "name"; expected a string at "name"
  -: error[BadLine] byte 1, line 2: found no JSON, or more than 127 levels of it; expected a JSON object. One object on each line: try jq -c . FILE
    column    holds               CRS  edges
    geometry  point separated XY       planar
    geometry  point separated XY       planar
  -: error[BadLine] byte 1, line 3: found no JSON, or more than 127 levels of it; expected a JSON object. One object on each line: try jq -c . FILE
  [2]

Why a line is no column

  $ for line in '{"name":"a" "nullable":true}' '{' '{"nullable":true,"type":"null"}' '{"name":"a","type":"null"}' '{"metadata":{"a":1},"name":"a","nullable":true,"type":"null"}' '{"name":"a","nullable":true,"type":"time"}' '{"name":"a","nullable":true,"type":{"other":"time","size":1}}'
  > do
  >     printf '{"name":"a","nullable":true,"type":"null"}\n%s\n' "$line" | geoarrow_check --quiet -
  > done
  -: error[BadLine] byte 13, line 2: found no JSON, or more than 127 levels of it; expected a JSON object
  -: error[BadLine] byte 1, line 2: found no JSON, or more than 127 levels of it; expected a JSON object. One object on each line: try jq -c . FILE
  -: error[BadLine] line 2: found no string at "name"; expected a string at "name"
  -: error[BadLine] line 2: found neither true nor false at "nullable"; expected true or false at "nullable"
  -: error[BadLine] line 2: found no object of strings at "metadata"; expected an object of strings at "metadata"
  -: error[BadLine] line 2: found an unknown type at "type"; expected a data type, or {"other":"timestamp[ms]"}
  -: error[BadLine] line 2: found an unknown type at "type"; expected a data type, or {"other":"timestamp[ms]"}
  [2]

  $ printf '{"\377\n' | geoarrow_check --quiet -
  -: error[BadLine] byte 3, line 1: found bytes that are not UTF-8; expected UTF-8
  [2]

JSON that is pretty-printed, or an array; and lines behind a byte order mark, which is passed over

  $ printf '{\n  "name": "a"\n}\n' | geoarrow_check --json -
  {"kind":"finding","severity":"error","code":"BadLine","byte":1,"line":1,"found":"no JSON, or more than 127 levels of it","expected":"a JSON object","help":"One object on each line: try jq -c . FILE"}
  {"kind":"file","read":false,"status":2}
  [2]

  $ printf '[\n  {"name": "a"}\n]\n' | geoarrow_check --json -
  {"kind":"finding","severity":"error","code":"ForeignFormat","byte":0,"found":"a JSON array","expected":"an Arrow file, an Arrow stream, a Parquet file or lines of fields","help":"Try jq -c '.[]' FILE | geoarrow_check -"}
  {"kind":"file","read":false,"status":2}
  [2]

  $ printf '\357\273\277{"name":"a","nullable":true,"type":"null"}\n' | geoarrow_check --json -
  {"kind":"column","index":0,"column":"a","state":"plain","type":"null"}
  {"kind":"file","read":true,"columns":1,"geometries":0,"errors":0,"warnings":0,"notes":0,"status":0}

The mark is a note, behind the columns and the bad lines, and counts where it is denied

  $ printf '\357\273\277{"name":"a","nullable":true,"type":"null"}\n' > "$TMPDIR/marked" && cd "$TMPDIR" && for words in --json --lines --quiet '--quiet --deny ByteOrderMark'
  > do
  >     geoarrow_check --notes $words marked
  >     echo $?
  > done
  {"kind":"column","file":"marked","index":0,"column":"a","state":"plain","type":"null"}
  {"kind":"finding","severity":"note","code":"ByteOrderMark","file":"marked","in":"file","byte":0,"expected":"lines without one","help":"It is passed over."}
  {"kind":"file","file":"marked","read":true,"columns":1,"geometries":0,"errors":0,"warnings":0,"notes":1,"status":0}
  0
  {"name":"a","nullable":true,"type":"null"}
  0
  0
  marked: error[ByteOrderMark] file, byte 0: expected lines without one. It is passed over.
  1

  $ printf '\357\273\277{"name":"a","nullable":true,"type":"null"}\n{}' | geoarrow_check --json --notes - 2> "$TMPDIR/said"
  {"kind":"column","index":0,"column":"a","state":"plain","type":"null"}
  {"kind":"finding","severity":"error","code":"BadLine","line":2,"found":"no string at \"name\"","expected":"a string at \"name\""}
  {"kind":"finding","severity":"note","code":"ByteOrderMark","in":"file","byte":0,"expected":"lines without one","help":"It is passed over."}
  {"kind":"file","read":true,"columns":1,"geometries":0,"errors":1,"warnings":0,"notes":1,"status":2}
  [2]

  $ printf '\357\273\277{"name":"a","nullable":true,"type":"null"}\n' | geoarrow_check --notes - | tail -1
  note[ByteOrderMark] file, byte 0: expected lines without one. It is passed over.

A file of a format that is not read is named, with what to try, whatever is printed; its first bytes alone are read

  $ cd "$TMPDIR" && { printf 'SQLite format 3\000'; head -c 100 /dev/zero; } > a.gpkg
  > for words in --json --lines --ipc --quiet --infer
  > do
  >     geoarrow_check $words a.gpkg
  > done
  {"kind":"finding","severity":"error","code":"ForeignFormat","file":"a.gpkg","byte":0,"found":"a GeoPackage or SQLite database","expected":"an Arrow file, an Arrow stream, a Parquet file or lines of fields","help":"Try ogr2ogr out.parquet FILE"}
  {"kind":"file","file":"a.gpkg","read":false,"status":2}
  a.gpkg: error[ForeignFormat] byte 0: found a GeoPackage or SQLite database; expected an Arrow file, an Arrow stream, a Parquet file or lines of fields. Try ogr2ogr out.parquet FILE
  a.gpkg: error[ForeignFormat] byte 0: found a GeoPackage or SQLite database; expected an Arrow file, an Arrow stream, a Parquet file or lines of fields. Try ogr2ogr out.parquet FILE
  a.gpkg: error[ForeignFormat] byte 0: found a GeoPackage or SQLite database; expected an Arrow file, an Arrow stream, a Parquet file or lines of fields. Try ogr2ogr out.parquet FILE
  a.gpkg: error[ForeignFormat] byte 0: found a GeoPackage or SQLite database; expected an Arrow file, an Arrow stream, a Parquet file or lines of fields. Try ogr2ogr out.parquet FILE
  [2]

  $ cd "$TMPDIR" && printf 'SQLite format 3\000' > a.gpkg && (printf 'PK\003\004'; yes) | geoarrow_check a.gpkg -
  a.gpkg: error[ForeignFormat] byte 0: found a GeoPackage or SQLite database; expected an Arrow file, an Arrow stream, a Parquet file or lines of fields. Try ogr2ogr out.parquet FILE
  -: error[ForeignFormat] byte 0: found a zip archive; expected an Arrow file, an Arrow stream, a Parquet file or lines of fields. Unzip it, and check what is in it
  2 files: 0 columns, 0 of geometries; no findings; 2 files not read
  [2]

  $ printf 'PAR1PAR1' | geoarrow_check --json -
  {"kind":"finding","severity":"error","code":"FooterLength","byte":0,"found":"827474256","expected":"a footer before its size"}
  {"kind":"file","read":false,"status":2}
  [2]

  $ printf 'PAR1\000\000\000\000PAR1' | geoarrow_check --json -
  {"kind":"finding","severity":"error","code":"FooterLength","byte":4,"found":"0","expected":"a footer before its size"}
  {"kind":"file","read":false,"status":2}
  [2]

  $ printf 'PAR1    PARE' | geoarrow_check --json -
  {"kind":"finding","severity":"error","code":"Encrypted","byte":8,"found":"PARE","expected":"PAR1","help":"A copy with a plain footer is needed"}
  {"kind":"file","read":false,"status":2}
  [2]

  $ printf 'PARE    \004\000\000\000PARE' > "$TMPDIR/encrypted.parquet" && cd "$TMPDIR" && geoarrow_check --json encrypted.parquet; geoarrow_check - < encrypted.parquet
  {"kind":"finding","severity":"error","code":"Encrypted","file":"encrypted.parquet","byte":12,"found":"PARE","expected":"PAR1","help":"A copy with a plain footer is needed"}
  {"kind":"file","file":"encrypted.parquet","read":false,"status":2}
  -: error[Encrypted] byte 12: found PARE; expected PAR1. A copy with a plain footer is needed
  [2]

  $ printf 'PAR1    ' | geoarrow_check --json -
  {"kind":"finding","severity":"error","code":"Truncated","byte":8,"found":"5041523120202020","expected":"PAR1 at the end","help":"The file is cut off, or still being written"}
  {"kind":"file","read":false,"status":2}
  [2]

  $ printf '\377\377\377\377\010\000\000\000\004\000\000\000' | geoarrow_check --json -
  {"kind":"finding","severity":"error","code":"Truncated","byte":12,"found":"4 bytes","expected":"8 bytes","help":"The file is cut off, or still being written"}
  {"kind":"file","read":false,"status":2}
  [2]

  $ head -c 100 ../crates/geoarrow_check/data/stream.arrows | geoarrow_check --json - 2>&1
  {"kind":"finding","severity":"error","code":"Truncated","byte":100,"found":"92 bytes","expected":"120 bytes","help":"The file is cut off, or still being written"}
  {"kind":"file","read":false,"status":2}
  [2]

The byte of an Arrow file's fault is that of the file, by its path and by standard input: its end is cut off, or the type of a field, whose table begins at 518, is none; also behind 4096 bytes

  $ cd "$TMPDIR" && head -c 700 "$top/crates/geoarrow_check/data/file.arrow" > cut.arrow && (head -c 522 "$top/crates/geoarrow_check/data/file.arrow"; printf '\374'; tail -c +524 "$top/crates/geoarrow_check/data/file.arrow") > tag.arrow
  > for file in cut tag
  > do
  >     (printf 'ARROW1'; head -c 4090 /dev/zero; cat $file.arrow) > behind.arrow
  >     geoarrow_check $file.arrow behind.arrow
  >     geoarrow_check - < $file.arrow
  >     cat behind.arrow | geoarrow_check -
  > done
  cut.arrow: error[Truncated] byte 700: found 6e3a6e616d650000; expected ARROW1 at the end. The file is cut off, or still being written
  behind.arrow: error[Truncated] byte 4796: found 6e3a6e616d650000; expected ARROW1 at the end. The file is cut off, or still being written
  2 files: 0 columns, 0 of geometries; no findings; 2 files not read
  -: error[Truncated] byte 700: found 6e3a6e616d650000; expected ARROW1 at the end. The file is cut off, or still being written
  -: error[Truncated] byte 4796: found 6e3a6e616d650000; expected ARROW1 at the end. The file is cut off, or still being written
  tag.arrow: error[BadMessage] byte 518: found an unknown type; expected a type of Schema.fbs, 1 to 26
  behind.arrow: error[BadMessage] byte 4614: found an unknown type; expected a type of Schema.fbs, 1 to 26
  2 files: 0 columns, 0 of geometries; no findings; 2 files not read
  -: error[BadMessage] byte 518: found an unknown type; expected a type of Schema.fbs, 1 to 26
  -: error[BadMessage] byte 4614: found an unknown type; expected a type of Schema.fbs, 1 to 26
  [2]

A byte of the footer of a Parquet file is that of the file too, by its path and by standard input, also behind 4096 bytes

  $ cd "$TMPDIR" && python3 -c 'import sys; sys.stdout.buffer.write(bytes.fromhex("504152311504192c4806736368656d61150200150c2502180267ff0016d00f190c191c18026bfe1801760018086120777269746572003200000050415231"))' > names.parquet && (printf 'PAR1'; head -c 4096 /dev/zero; tail -c +5 names.parquet) > behind.parquet
  > for file in names behind
  > do
  >     geoarrow_check --format github --notes $file.parquet
  >     geoarrow_check --format github --notes - < $file.parquet
  >     cat $file.parquet | geoarrow_check --format github --notes -
  > done
  ::error file=names.parquet,title=NameNotText::elements, byte 25: found g\xff; expected UTF-8. The name is shown with U+FFFD for what is not UTF-8, and no key names the column.
  ::notice file=names.parquet,title=KeyNotText::footer, byte 37: found k\xfe; expected UTF-8. It is passed over.
  ::error title=NameNotText::elements, byte 25: found g\xff; expected UTF-8. The name is shown with U+FFFD for what is not UTF-8, and no key names the column.
  ::notice title=KeyNotText::footer, byte 37: found k\xfe; expected UTF-8. It is passed over.
  ::error title=NameNotText::elements, byte 25: found g\xff; expected UTF-8. The name is shown with U+FFFD for what is not UTF-8, and no key names the column.
  ::notice title=KeyNotText::footer, byte 37: found k\xfe; expected UTF-8. It is passed over.
  ::error file=behind.parquet,title=NameNotText::elements, byte 4121: found g\xff; expected UTF-8. The name is shown with U+FFFD for what is not UTF-8, and no key names the column.
  ::notice file=behind.parquet,title=KeyNotText::footer, byte 4133: found k\xfe; expected UTF-8. It is passed over.
  ::error title=NameNotText::elements, byte 4121: found g\xff; expected UTF-8. The name is shown with U+FFFD for what is not UTF-8, and no key names the column.
  ::notice title=KeyNotText::footer, byte 4133: found k\xfe; expected UTF-8. It is passed over.
  ::error title=NameNotText::elements, byte 4121: found g\xff; expected UTF-8. The name is shown with U+FFFD for what is not UTF-8, and no key names the column.
  ::notice title=KeyNotText::footer, byte 4133: found k\xfe; expected UTF-8. It is passed over.
  [1]

With --json the fault is a line of JSON, alone, or behind the lines of columns; also of a file that the system does not give

  $ cd "$TMPDIR" && head -c 700 "$top/crates/geoarrow_check/data/file.arrow" > cut.arrow && printf '{"\377\n' > bytes && printf 'PAR1\005\000\000\000PAR1' > cut.parquet && printf '\n{"name":"a","nullable":true,"type":"null"}\n{"name":"b" "nullable":true}\n' > lines
  > for file in cut.arrow bytes cut.parquet lines nowhere
  > do
  >     geoarrow_check --json $file 2> said
  >     echo $? >> said
  >     cat said
  > done
  {"kind":"finding","severity":"error","code":"Truncated","file":"cut.arrow","byte":700,"found":"6e3a6e616d650000","expected":"ARROW1 at the end","help":"The file is cut off, or still being written"}
  {"kind":"file","file":"cut.arrow","read":false,"status":2}
  2
  {"kind":"finding","severity":"error","code":"BadLine","file":"bytes","byte":3,"line":1,"found":"bytes that are not UTF-8","expected":"UTF-8"}
  {"kind":"file","file":"bytes","read":true,"columns":0,"geometries":0,"errors":1,"warnings":0,"notes":0,"status":2}
  2
  {"kind":"finding","severity":"error","code":"FooterLength","file":"cut.parquet","byte":4,"found":"5","expected":"a footer before its size"}
  {"kind":"file","file":"cut.parquet","read":false,"status":2}
  2
  {"kind":"column","file":"lines","index":0,"column":"a","state":"plain","type":"null"}
  {"kind":"finding","severity":"error","code":"BadLine","file":"lines","byte":13,"line":3,"found":"no JSON, or more than 127 levels of it","expected":"a JSON object"}
  {"kind":"file","file":"lines","read":true,"columns":1,"geometries":0,"errors":1,"warnings":0,"notes":0,"status":2}
  2
  {"kind":"finding","severity":"error","code":"CannotRead","file":"nowhere","found":"No such file or directory (os error 2)","expected":"a file that can be read"}
  {"kind":"file","file":"nowhere","read":false,"status":2}
  2

What is found in GeoParquet metadata, behind the columns

  $ geoarrow_check ../crates/geoarrow_check/data/geo.parquet
    column  holds  CRS        edges
  E geom    wkb    OGC:CRS84  planar
      error[GeoTypes] geo /columns/geom/geometry_types/1: found "Dot"; expected Point, LineString, Polygon, MultiPoint, MultiLineString, MultiPolygon or GeometryCollection, alone or with " Z", each at most once
      error[GeoBboxOrder] geo /columns/geom/bbox/1: found ymin 3, ymax 2; expected at most the greatest bound (2)
  W place   wkb    EPSG:4326  planar
      warning[GeoColumnUndeclared] geo /columns: found "place"; expected a member for the column. Readers of GeoParquet do not see the column.
  W region  wkb    OGC:CRS84  karney
      warning[GeoColumnUndeclared] geo /columns: found "region"; expected a member for the column. Readers of GeoParquet do not see the column.
  [1]

  $ geoarrow_check --json --notes ../crates/geoarrow_check/data/geo.parquet | grep -o '"code":"[A-Za-z]*"' | cut -d'"' -f4
  GeoTypes
  GeoBboxOrder
  GeoColumnUndeclared
  GeoColumnUndeclared

The status by what is found, notes too, of the files of a row each: how many, the codes, and the status

  $ cd "$TMPDIR" && sed -n 's/^report_file //p' "$top/crates/file_rows/data/reports/geo_files.rows" | while read -r digits
  > do
  >     python3 -c 'import sys; sys.stdout.buffer.write(bytes.fromhex(sys.argv[1]))' "$digits" > file
  >     geoarrow_check --json --notes file | grep -o '"code":"[A-Za-z]*"' | cut -d'"' -f4 | LC_ALL=C sort -u | tr '\n' ' '
  >     geoarrow_check --quiet file > /dev/null
  >     echo $?
  > done | LC_ALL=C sort | uniq -c
      107 0
       37 ArrowSchemaContradicts 1
        1 ArrowSchemaContradicts AxisOrder NoGeoMetadata 1
        8 ArrowSchemaContradicts BadFieldCount NoGeoMetadata 1
        3 ArrowSchemaContradicts BadInterleavedName NoGeoMetadata UnexpectedType 1
        1 ArrowSchemaContradicts CrsContradicts 1
        6 ArrowSchemaContradicts GeoCovering 1
        4 ArrowSchemaContradicts GeoLayout 1
        1 ArrowSchemaContradicts NoGeoMetadata 1
       19 ArrowSchemaContradicts NoGeoMetadata UnexpectedType 1
        1 ArrowSchemaContradicts UnknownExtension 1
        1 ArrowSchemaNames 0
        1 ArrowSchemaNames GeoEncoding 1
        1 ArrowSchemaNames GeoNotInFooter 0
        1 ArrowSchemaNames NameNotText 1
        2 ArrowSchemaUnreadable 1
        1 AxisOrder GeoLayout 1
       13 CrsContradicts 1
        1 CrsContradicts CrsEmpty 1
        1 CrsContradicts CrsWithoutType 1
        1 CrsContradicts EdgesContradict 1
        1 CrsContradicts EdgesContradict OldExtensionName 1
        1 CrsContradicts GeoCrs 1
        1 CrsContradicts GeoOldVersion 1
        4 CrsEmpty 0
        1 CrsEmpty CrsMalformed 1
        1 CrsEmpty CrsNotCompared CrsWithoutType 0
        1 CrsEmpty MetadataKeyCase 0
        1 CrsEmpty MetadataNotJson 1
        9 CrsKeyMissing 1
       16 CrsMalformed 1
        1 CrsMalformed CrsWithoutType MetadataKeyCase OldExtensionName 1
        1 CrsMalformed MetadataNotJson 1
        2 CrsNotCompared 0
        3 CrsNotWhole 0
        6 CrsWithoutType 0
       13 EdgesContradict 1
        3 EdgesContradict EdgesOnProjected 1
        1 EdgesContradict EdgesOnProjected EdgesPlanar 1
        1 EdgesContradict EdgesOnProjected GeoColumnRepeated 1
        1 EdgesContradict EdgesPlanar 1
        2 EdgesOnProjected 0
        4 ElementInvalid 1
        1 ElementInvalid NestedGeometry 1
       11 EmptyGroup 0
        1 EmptyGroup NestedGeometry 0
        5 EncodingContradicts 1
        1 EncodingContradicts OldExtensionName 1
        5 GeoColumnMissing 1
        2 GeoColumnMissing GeoColumnUndeclared 1
        1 GeoColumnMissing GeoMember 1
        1 GeoColumnMissing NameNotText 1
        2 GeoColumnRepeated 1
        1 GeoColumnRepeated GeoLayout 1
        1 GeoColumnUndeclared RepeatedKey 0
        2 GeoColumns GeoPrimaryColumn GeoVersion 1
        2 GeoCovering 1
        1 GeoCoveringAbsent 0
        3 GeoCoveringColumn 1
        3 GeoCoveringName 1
        2 GeoCoveringName GeoCoveringType 1
        6 GeoCoveringShape 0
        6 GeoCoveringType 1
        2 GeoCrs 1
        2 GeoEdges 1
        8 GeoEncoding 1
        1 GeoEncoding GeoVersion RepeatedKey 1
       23 GeoLayout 1
        1 GeoLayout NestedGeometry 1
        1 GeoMember 1
        1 GeoNewVersion 0
        1 GeoNotInFooter 0
       15 GeoNotJson 1
        1 GeoNotObject 1
        7 GeoOldVersion 0
        3 GeoTypes 1
        1 GeoTypesVersion 1
        1 GeoVersion 1
        1 KeyNotText 0
        4 LogicalTypeInvalid 1
        5 NestedGeometry 0
        5 NoGeoMetadata 0
        1 NoGeoMetadata OldExtensionName 0
        1 NoGeoMetadata UnexpectedType 1
        1 NullableInner 0
       21 RepeatedKey 0
        2 TypesContradict 1
        6 UnknownAlgorithm 0
       12 UnknownEdges 1
        6 UnknownExtension 1

What is denied counts and is printed as an error; what is allowed is not printed and does not count: codes, and all warnings

  $ geoarrow_check --allow GeoTypes --allow=GeoBboxOrder ../crates/geoarrow_check/data/geo.parquet
    column  holds  CRS        edges
    geom    wkb    OGC:CRS84  planar
  W place   wkb    EPSG:4326  planar
      warning[GeoColumnUndeclared] geo /columns: found "place"; expected a member for the column. Readers of GeoParquet do not see the column.
  W region  wkb    OGC:CRS84  karney
      warning[GeoColumnUndeclared] geo /columns: found "region"; expected a member for the column. Readers of GeoParquet do not see the column.

  $ geoarrow_check --json --deny GeoColumnUndeclared --allow GeoTypes --allow GeoBboxOrder ../crates/geoarrow_check/data/geo.parquet | grep -o '"severity":"[a-z]*","code":"[A-Za-z]*"'
  "severity":"error","code":"GeoColumnUndeclared"
  "severity":"error","code":"GeoColumnUndeclared"

  $ for words in '' '--deny warnings' '--deny NoGeoMetadata' '--allow warnings' '--allow NoGeoMetadata'
  > do
  >     geoarrow_check $words ../crates/geoarrow_check/data/stored.parquet | tail -n +3
  >     geoarrow_check --quiet $words ../crates/geoarrow_check/data/stored.parquet | cut -d : -f 2
  >     geoarrow_check --quiet $words ../crates/geoarrow_check/data/stored.parquet > /dev/null
  >     echo $?
  > done
  warning[NoGeoMetadata] file: expected metadata of GeoParquet at the key geo
  0
  error[NoGeoMetadata] file: expected metadata of GeoParquet at the key geo
   error[NoGeoMetadata] file
  1
  error[NoGeoMetadata] file: expected metadata of GeoParquet at the key geo
   error[NoGeoMetadata] file
  1
  0
  0

A code counts before all warnings, in any order of the words; of the same twice the later word counts

  $ for words in '--deny warnings --allow NoGeoMetadata' '--allow NoGeoMetadata --deny warnings' '--allow warnings --deny NoGeoMetadata' '--deny NoGeoMetadata --allow warnings' \
  >     '--deny NoGeoMetadata --allow NoGeoMetadata' '--allow NoGeoMetadata --deny NoGeoMetadata' '--deny warnings --allow warnings' '--allow warnings --deny warnings' \
  >     '--deny NoGeoMetadata --allow NoGeoMetadata --deny NoGeoMetadata' '--deny GeoTypes --allow GeoTypes'
  > do
  >     geoarrow_check --quiet $words ../crates/geoarrow_check/data/stored.parquet > /dev/null
  >     echo $?
  > done | tr '\n' ' '
  > echo
  0 0 1 1 0 1 0 1 1 0 

A note that is denied is shown, whether notes are or not; all warnings are no notes; errors are denied already

  $ cat > "$TMPDIR/notes" << 'END'
  > {"metadata":{"ARROW:extension:metadata":"{\"crs\":{\"type\":\"GeographicCRS\",\"name\":\"WGS 84\",\"scale\":0.5}}","ARROW:extension:name":"geoarrow.wkb"},"name":"g","nullable":true,"type":"binary"}
  > {"metadata":{"ARROW:extension:metadata":"","ARROW:extension:name":"geoarrow.wkb"},"name":"e","nullable":true,"type":"binary"}
  > END
  > cd "$TMPDIR" && for words in '--deny CrsNotWhole' '--deny warnings' '--notes --deny warnings' '--notes --allow CrsNotWhole' '--allow warnings' '--allow warnings --allow CrsNotWhole --notes'
  > do
  >     geoarrow_check $words notes | sed -n 's/^    \([a-z]*\[[A-Za-z]*\]\).*/\1/p' | tr '\n' ' '
  >     geoarrow_check --quiet $words notes > /dev/null
  >     echo $?
  > done
  error[CrsNotWhole] warning[MetadataEmpty] 1
  error[MetadataEmpty] 1
  note[CrsNotWhole] error[MetadataEmpty] 1
  warning[MetadataEmpty] 0
  0
  0

  $ cd "$TMPDIR" && echo '{"metadata":{"ARROW:extension:metadata":"","ARROW:extension:name":"geoarrow.wkb"},"name":"e","nullable":true,"type":"binary"}' | geoarrow_check --json --deny MetadataEmpty -
  {"kind":"column","index":0,"column":"e","state":"geometry","type":"wkb - -","type_from":"field","extension":"geoarrow.wkb","edges":"planar","findings":[{"severity":"error","code":"MetadataEmpty","in":"extension metadata","pointer":"","found":"\"\"","expected":"no metadata, or {}","help":"It is read as no metadata."}]}
  {"kind":"file","read":true,"columns":1,"geometries":1,"errors":1,"warnings":0,"notes":0,"status":1}
  [1]

Why a column is invalid is a finding too: it is allowed or denied as others are, and the column counts as before

  $ cd "$TMPDIR" && echo '{"metadata":{"ARROW:extension:name":"geoarrow.wkb"},"name":"label","nullable":true,"type":"utf8"}' > invalid
  > for words in '' '--deny WrongStorage' '--allow WrongStorage' '--allow warnings'
  > do
  >     geoarrow_check --json $words invalid
  >     echo $?
  > done
  {"kind":"column","file":"invalid","index":0,"column":"label","state":"invalid","type":"utf8","extension":"geoarrow.wkb","findings":[{"severity":"error","code":"WrongStorage","in":"field","found":"utf8","expected":"binary, large_binary or binary_view","help":"For WKT use geoarrow.wkt."}]}
  {"kind":"file","file":"invalid","read":true,"columns":1,"geometries":0,"errors":1,"warnings":0,"notes":0,"status":1}
  1
  {"kind":"column","file":"invalid","index":0,"column":"label","state":"invalid","type":"utf8","extension":"geoarrow.wkb","findings":[{"severity":"error","code":"WrongStorage","in":"field","found":"utf8","expected":"binary, large_binary or binary_view","help":"For WKT use geoarrow.wkt."}]}
  {"kind":"file","file":"invalid","read":true,"columns":1,"geometries":0,"errors":1,"warnings":0,"notes":0,"status":1}
  1
  {"kind":"column","file":"invalid","index":0,"column":"label","state":"invalid","type":"utf8","extension":"geoarrow.wkb"}
  {"kind":"file","file":"invalid","read":true,"columns":1,"geometries":0,"errors":0,"warnings":0,"notes":0,"status":0}
  0
  {"kind":"column","file":"invalid","index":0,"column":"label","state":"invalid","type":"utf8","extension":"geoarrow.wkb","findings":[{"severity":"error","code":"WrongStorage","in":"field","found":"utf8","expected":"binary, large_binary or binary_view","help":"For WKT use geoarrow.wkt."}]}
  {"kind":"file","file":"invalid","read":true,"columns":1,"geometries":0,"errors":1,"warnings":0,"notes":0,"status":1}
  1

Words that are no code; a code with which files are refused counts in any case, and cannot be allowed

  $ for word in GeoTyps EmptyFile Warnings all ''
  > do
  >     for option in --deny --allow
  >     do
  >         geoarrow_check $option "$word" nowhere 2>&1 | sed '/Usage/,$d' | grep .
  >     done
  > done
  > geoarrow_check --allow GeoTypes nowhere --deny GeoTypse 2> /dev/null
  error: 'GeoTyps' is no code
    tip: a similar code exists: 'GeoTypes'
  error: 'GeoTyps' is no code
    tip: a similar code exists: 'GeoTypes'
  nowhere: error[CannotRead]: found No such file or directory (os error 2); expected a file that can be read
  error: 'EmptyFile' cannot be allowed: no report is made of such a file
  error: 'Warnings' is no code
  error: 'Warnings' is no code
  error: 'all' is no code
  error: 'all' is no code
  error: '' is no code
  error: '' is no code
  [2]

The codes of findings, without a file: those of the tables of docs/FORMAT.md, in their order, with their severities; and of GeoParquet metadata the rules

  $ geoarrow_check --codes | sed -E 's/^([a-z]+)\[(.*)\]: .*/| `\2` | \1 |/' > "$TMPDIR/codes"
  > grep -oE '^\| `[A-Za-z0-9]+` \| (error|warning|note) \|' ../docs/FORMAT.md | cmp - "$TMPDIR/codes"

  $ geoarrow_check --codes | sed -E 's/^([a-z]+)\[(.*)\]: (.*)/| `\2` | \1 | `\3` /' > "$TMPDIR/codes"
  > grep -oE '^\| `[A-Za-z0-9]+` \| (error|warning|note) \| `[^`]*` ' ../docs/FORMAT.md | grep -vxFf "$TMPDIR/codes"
  [1]

  $ geoarrow_check --codes > "$TMPDIR/codes" && geoarrow_check --codes x --json | cmp - "$TMPDIR/codes"

  $ for code in GeoEpoch CrsNotWhole KeyNotText RepeatedKey MixedWidths WrongStorage
  > do
  >     geoarrow_check --explain $code
  > done
  error[GeoEpoch]: epoch is neither absent nor a number
  expected: a number
  help: A number has no quotes.
  docs/FORMAT.md, 5
  note[CrsNotWhole]: CRS has a number that is not whole
  expected: whole numbers
  help: For this alone read and canon of geoarrow_fields refuse the field; other readers do not.
  docs/FORMAT.md, 2.6
  note[KeyNotText]: a key, or the value of a key that is not used here, is not UTF-8
  expected: UTF-8
  help: It is passed over.
  docs/FORMAT.md, 4.3
  warning[RepeatedKey]: geo, ARROW:schema or an extension key of a field stands several times with a value
  expected: one value of the key
  help: The last counts here; other readers take the first.
  docs/FORMAT.md, 4.5
  warning[RepeatedKey]: a key stands several times in an object
  expected: one value of the key
  help: The last counts here; other readers take the first.
  docs/FORMAT.md, 5
  error[MixedWidths]: list widths differ
  expected: the layout of its extension name
  help: A list and the list in it are of different widths.
  docs/FORMAT.md, 2.6
  error[WrongStorage]: well-known binary needs a binary type, and well-known text a text type
  expected: the layout of its extension name
  docs/FORMAT.md, 2.6

A code of columns and of GeoParquet metadata alike: what is known of both

  $ geoarrow_check --explain=CrsMalformed
  error[CrsMalformed]: CRS is an object that is no PROJJSON
  expected: PROJJSON
  help: projinfo -o PROJJSON prints it, as of EPSG:4326.
  docs/FORMAT.md, 2.6
  error[CrsMalformed]: an object at crs is no PROJJSON
  expected: PROJJSON
  docs/FORMAT.md, 5

A word that is no code: the code that it is most like, if at most three edits lead to it, letters alike

  $ for word in GeoEpocs geoepoch Nothing
  > do
  >     geoarrow_check --explain $word 2>&1 | sed '/Usage/,$d' | grep .
  > done
  error: 'GeoEpocs' is no code
    tip: a similar code exists: 'GeoEpoch'
  error: 'geoepoch' is no code
    tip: a similar code exists: 'GeoEpoch'
  error: 'Nothing' is no code

Formats: a table, lines of JSON, and findings alone as commands of a workflow; of two the later counts

  $ for words in '--format text' '--json --format=text' '--format github --format text'
  > do
  >     geoarrow_check $words ../crates/geoarrow_check/data/stream.arrows
  > done
    column  holds  CRS  edges
    a       int64
    column  holds  CRS  edges
    a       int64
    column  holds  CRS  edges
    a       int64

  $ for words in '--format json' '--format=text --json' '--json --json' '--format github --format json'
  > do
  >     geoarrow_check $words - < ../crates/geoarrow_check/data/stream.arrows
  > done
  {"kind":"column","index":0,"column":"a","state":"plain","type":"int64"}
  {"kind":"file","read":true,"columns":1,"geometries":0,"errors":0,"warnings":0,"notes":0,"status":0}
  {"kind":"column","index":0,"column":"a","state":"plain","type":"int64"}
  {"kind":"file","read":true,"columns":1,"geometries":0,"errors":0,"warnings":0,"notes":0,"status":0}
  {"kind":"column","index":0,"column":"a","state":"plain","type":"int64"}
  {"kind":"file","read":true,"columns":1,"geometries":0,"errors":0,"warnings":0,"notes":0,"status":0}
  {"kind":"column","index":0,"column":"a","state":"plain","type":"int64"}
  {"kind":"file","read":true,"columns":1,"geometries":0,"errors":0,"warnings":0,"notes":0,"status":0}

  $ geoarrow_check --format github ../crates/geoarrow_check/data/stream.arrows ../examples/schema.jsonl ../crates/geoarrow_check/data/geo.parquet
  ::warning file=../examples/schema.jsonl,title=NullableInner::column outline, at item, field: found nullable; expected not null
  ::error file=../examples/schema.jsonl,title=WrongStorage::column label, field: found utf8; expected binary, large_binary or binary_view. For WKT use geoarrow.wkt.
  ::error file=../examples/schema.jsonl,title=EmptyUnion::column broken, field: found dense_union<>; expected union whose type ids are among 1 to 7, 11 to 17, 21 to 27 and 31 to 37. The union has no members.
  ::error file=../crates/geoarrow_check/data/geo.parquet,title=GeoTypes::column geom, geo /columns/geom/geometry_types/1: found "Dot"; expected Point, LineString, Polygon, MultiPoint, MultiLineString, MultiPolygon or GeometryCollection, alone or with " Z", each at most once
  ::error file=../crates/geoarrow_check/data/geo.parquet,title=GeoBboxOrder::column geom, geo /columns/geom/bbox/1: found ymin 3, ymax 2; expected at most the greatest bound (2)
  ::warning file=../crates/geoarrow_check/data/geo.parquet,title=GeoColumnUndeclared::column place, geo /columns: found "place"; expected a member for the column. Readers of GeoParquet do not see the column.
  ::warning file=../crates/geoarrow_check/data/geo.parquet,title=GeoColumnUndeclared::column region, geo /columns: found "region"; expected a member for the column. Readers of GeoParquet do not see the column.
  [1]

Findings as they count: a warning that is denied, one that is allowed, and a note; of standard input no file is named

  $ for words in '' '--deny warnings' '--allow NoGeoMetadata'
  > do
  >     geoarrow_check --format github $words - < ../crates/geoarrow_check/data/stored.parquet
  > done
  > printf '\357\273\277{"name":"a","nullable":true,"type":"null"}\n' | geoarrow_check --format github --notes -
  ::warning title=NoGeoMetadata::file: expected metadata of GeoParquet at the key geo
  ::error title=NoGeoMetadata::file: expected metadata of GeoParquet at the key geo
  ::notice title=ByteOrderMark::file, byte 0: expected lines without one. It is passed over.

What a workflow would read as its own: in the name of a file, and in a message

  $ cd "$TMPDIR" && file=$(printf 'a%%:,\nb\033c') && printf '{"metadata":{"ARROW:extension:name":"geoarrow.wkb"},"name":"50%%\\r\\n:,\\u001b","nullable":true,"type":"utf8"}\n' > "$file" && geoarrow_check --format=github "$file"
  ::error file=a%25%3A%2C%0Ab\u{1b}c,title=WrongStorage::column 50%25%0D%0A:,\u{1b}, field: found utf8; expected binary, large_binary or binary_view. For WKT use geoarrow.wkt.
  [1]

Files that are refused, bad lines, and what is not met stand there too; nothing stands on standard error

  $ cd "$TMPDIR" && printf '{"name":"a","nullable":true,"type":"null"}\n[]\n' > lines && printf 'PAR1PAR1' > cut.parquet
  > geoarrow_check --format github --expect b=point --require-geometry lines cut.parquet nowhere - < /dev/null 2> said
  > echo $?
  > cat said
  ::error file=lines,title=BadLine::line 2: found JSON that is no object; expected a JSON object
  ::error file=lines,title=Expect::column b, arguments: expected point. No column has that name.
  ::error file=lines,title=NoGeometry::file: found 1 column; expected a column of geometries. With --infer columns count whose types tell geometries, too.
  ::error file=cut.parquet,title=FooterLength::byte 0: found 827474256; expected a footer before its size
  ::error file=nowhere,title=CannotRead::found No such file or directory (os error 2); expected a file that can be read
  ::error title=EmptyFile::byte 0: found 0 bytes, or blanks alone; expected an Arrow file, an Arrow stream, a Parquet file or lines of fields. The writing or the copy broke off before its first byte
  2

  $ (cat point.jsonl; yes 1 | head -n 101) | geoarrow_check --format github - | tail -n 2
  ::error title=BadLine::line 101: found JSON that is no object; expected a JSON object
  ::error title=BadLine::1 more line is no column

A log of SARIF: a result for each line of github, with its level, its file as a URI, and where it is in the file, if a line or a byte of it tells; each rule once, in the words of --codes

  $ geoarrow_check --format sarif ../crates/geoarrow_check/data/stream.arrows
  {"$schema":"https://json.schemastore.org/sarif-2.1.0.json","version":"2.1.0","runs":[{"results":[
  ],"tool":{"driver":{"name":"geoarrow_check","rules":[
  ]}}}]}

  $ cd "$TMPDIR" && printf '\357\273\277{"name":"a","nullable":true,"type":"null"}\n[]\n' > 'a b%c:é#?' && head -c 700 "$top/crates/geoarrow_check/data/file.arrow" > cut.arrow && printf 'PAR1PAR1' > cut.parquet
  > geoarrow_check --format sarif --notes --require-geometry 'a b%c:é#?' cut.arrow cut.parquet cut.arrow nowhere - < /dev/null
  {"$schema":"https://json.schemastore.org/sarif-2.1.0.json","version":"2.1.0","runs":[{"results":[
  {"ruleId":"BadLine","level":"error","message":{"text":"line 2: found JSON that is no object; expected a JSON object"},"locations":[{"physicalLocation":{"artifactLocation":{"uri":"a%20b%25c%3A%C3%A9%23%3F"},"region":{"startLine":2}}}]},
  {"ruleId":"ByteOrderMark","level":"note","message":{"text":"file, byte 0: expected lines without one. It is passed over."},"locations":[{"physicalLocation":{"artifactLocation":{"uri":"a%20b%25c%3A%C3%A9%23%3F"},"region":{"byteOffset":0}}}]},
  {"ruleId":"NoGeometry","level":"error","message":{"text":"file: found 1 column; expected a column of geometries. With --infer columns count whose types tell geometries, too."},"locations":[{"physicalLocation":{"artifactLocation":{"uri":"a%20b%25c%3A%C3%A9%23%3F"}}}]},
  {"ruleId":"Truncated","level":"error","message":{"text":"byte 700: found 6e3a6e616d650000; expected ARROW1 at the end. The file is cut off, or still being written"},"locations":[{"physicalLocation":{"artifactLocation":{"uri":"cut.arrow"},"region":{"byteOffset":700}}}]},
  {"ruleId":"FooterLength","level":"error","message":{"text":"byte 0: found 827474256; expected a footer before its size"},"locations":[{"physicalLocation":{"artifactLocation":{"uri":"cut.parquet"},"region":{"byteOffset":0}}}]},
  {"ruleId":"Truncated","level":"error","message":{"text":"byte 700: found 6e3a6e616d650000; expected ARROW1 at the end. The file is cut off, or still being written"},"locations":[{"physicalLocation":{"artifactLocation":{"uri":"cut.arrow"},"region":{"byteOffset":700}}}]},
  {"ruleId":"CannotRead","level":"error","message":{"text":"found No such file or directory (os error 2); expected a file that can be read"},"locations":[{"physicalLocation":{"artifactLocation":{"uri":"nowhere"}}}]},
  {"ruleId":"EmptyFile","level":"error","message":{"text":"byte 0: found 0 bytes, or blanks alone; expected an Arrow file, an Arrow stream, a Parquet file or lines of fields. The writing or the copy broke off before its first byte"}}
  ],"tool":{"driver":{"name":"geoarrow_check","rules":[
  {"id":"ByteOrderMark","shortDescription":{"text":"lines begin with a byte order mark"}},
  {"id":"BadLine","shortDescription":{"text":"a line is no column"}},
  {"id":"NoGeometry","shortDescription":{"text":"no column holds geometries, where one is required"}},
  {"id":"Truncated","shortDescription":{"text":"a file, or the message of a stream, is cut off"}},
  {"id":"FooterLength","shortDescription":{"text":"a footer has no bytes, or more than stand before its size"}},
  {"id":"CannotRead","shortDescription":{"text":"the system does not give the file"}},
  {"id":"EmptyFile","shortDescription":{"text":"a file has no bytes, or blanks alone"}}
  ]}}}]}
  [2]

  $ cd "$TMPDIR" && data=$top/crates/geoarrow_check/data && cp "$data/columns.jsonl" "$data/reasons.jsonl" "$data/geo.parquet" "$data/stored.parquet" "$data/stream.arrows" "$top/examples/schema.jsonl" . && (cat "$top/runs/point.jsonl"; yes 1 | head -n 101) > bad
  > cat > compare.py << 'END'
  > import json, subprocess, sys
  > from urllib.parse import unquote
  > words, columns = {"error": "error", "warning": "warning", "note": "notice"}, "--expect a=point columns.jsonl reasons.jsonl geo.parquet stored.parquet stream.arrows schema.jsonl bad nowhere".split()
  > def line(result):
  >     file = "".join("file=" + unquote(one["physicalLocation"]["artifactLocation"]["uri"]) + "," for one in result["locations"])
  >     return f"::{words[result['level']]} {file}title={result['ruleId']}::{result['message']['text']}"
  > for options in ([], ["--notes"], ["--quiet"], ["--problems"], ["--deny", "warnings", "--infer"]):
  >     printed = [subprocess.run(["geoarrow_check", "--format", one, *options, *columns], stdout=subprocess.PIPE).stdout.decode() for one in ("github", "sarif")]
  >     run, = json.loads(printed[1])["runs"]
  >     rules = [one["id"] for one in run["tool"]["driver"]["rules"]]
  >     lines = [one.replace("%25", "%") for one in printed[0].splitlines()]
  >     print(lines == [line(one) for one in run["results"]], len(lines) > 100, len(set(rules)) == len(rules), set(rules) == {one["ruleId"] for one in run["results"]})
  > END
  > python3 compare.py
  True True True True
  True True True True
  True True True True
  True True True True
  True True True True

Files that are to be the same: what differs from the first, in the order of the columns of the later file, the k-th of a name with the k-th; and last what only the first has

  $ cat > "$TMPDIR/a.jsonl" << 'END'
  > {"name":"id","nullable":true,"type":"int64"}
  > {"metadata":{"ARROW:extension:metadata":"{\"crs\":\"EPSG:4326\",\"crs_type\":\"authority_code\",\"edges\":\"spherical\"}","ARROW:extension:name":"geoarrow.wkb"},"name":"geom","nullable":true,"type":"binary"}
  > {"name":"old","nullable":true,"type":"utf8"}
  > {"name":"two","nullable":true,"type":"utf8"}
  > {"name":"two","nullable":true,"type":"int8"}
  > {"name":"at","nullable":true,"type":{"other":"timestamp[ms]"}}
  > END
  > cat > "$TMPDIR/b.jsonl" << 'END'
  > {"name":"two","nullable":true,"type":"utf8"}
  > {"metadata":{"ARROW:extension:metadata":"{\"crs\":\"EPSG:3857\",\"crs_type\":\"authority_code\"}","ARROW:extension:name":"geoarrow.wkb"},"name":"geom","nullable":true,"type":"binary"}
  > {"name":"id","nullable":false,"type":"int32"}
  > {"name":"two","nullable":true,"type":"int16"}
  > {"name":"two","nullable":true,"type":"int16"}
  > {"name":"new","nullable":true,"type":"utf8"}
  > {"name":"at","nullable":true,"type":{"other":"timestamp[us]"}}
  > END
  > cd "$TMPDIR" && geoarrow_check --same --problems a.jsonl b.jsonl
  b.jsonl: error[NotSame] column geom: found planar; expected spherical. The first file has other edges.
  b.jsonl: error[NotSame] column geom: found "EPSG:3857"; expected "EPSG:4326". The first file has another CRS.
  b.jsonl: error[NotSame] column id: found int32; expected int64. The first file has another type.
  b.jsonl: error[NotSame] column two: found int16; expected int8. The first file has another type.
  b.jsonl: error[NotSame] column two: found int16; expected no such column. The first file has no such column.
  b.jsonl: error[NotSame] column new: found utf8; expected no such column. The first file has no such column.
  b.jsonl: error[NotSame] column at: found timestamp[us]; expected timestamp[ms]. The first file has another type.
  b.jsonl: error[NotSame] column old: expected utf8. The column is missing.
  2 files: 13 columns, 2 of geometries; 8 errors in 1 file
  [1]

The order of columns, their nullability and their metadata are not compared; each file is compared with the first, and counted once; one file is compared with nothing

  $ sed '1!G;h;$!d' > "$TMPDIR/c.jsonl" << 'END'
  > {"metadata":{"unit":"m"},"name":"id","nullable":false,"type":"int64"}
  > {"metadata":{"ARROW:extension:metadata":"{\"crs\":\"epsg:4326\",\"edges\":\"spherical\"}","ARROW:extension:name":"geoarrow.wkb"},"name":"geom","nullable":false,"type":"binary"}
  > END
  > cat > "$TMPDIR/d.jsonl" << 'END'
  > {"name":"id","nullable":true,"type":"int64"}
  > {"metadata":{"ARROW:extension:metadata":"{\"crs\":\"EPSG:4326\",\"crs_type\":\"authority_code\",\"edges\":\"spherical\"}","ARROW:extension:name":"geoarrow.wkb"},"name":"geom","nullable":true,"type":"binary"}
  > END
  > head -n 1 "$TMPDIR/d.jsonl" > "$TMPDIR/e.jsonl"
  > cd "$TMPDIR" && geoarrow_check --same -q c.jsonl d.jsonl c.jsonl && geoarrow_check --same -q d.jsonl && geoarrow_check --same -q d.jsonl e.jsonl d.jsonl e.jsonl
  3 files: 6 columns, 3 of geometries; no findings
  e.jsonl: error[NotSame] column geom: expected binary. The column is missing.
  e.jsonl: error[NotSame] column geom: expected binary. The column is missing.
  4 files: 6 columns, 2 of geometries; 2 errors in 2 files
  [1]

Types of geometries are alike or not, whatever their notations are; those of others are compared by their notations. Two extension names may say one encoding, or one may say none

  $ cat > "$TMPDIR/a.jsonl" << 'END'
  > {"metadata":{"ARROW:extension:name":"geoarrow.linestring"},"name":"alike","nullable":true,"type":{"list":{"name":"vertices","nullable":false,"type":{"struct":[{"name":"x","nullable":false,"type":"float64"},{"name":"y","nullable":false,"type":"float64"}]}}}}
  > {"metadata":{"ARROW:extension:name":"geoarrow.linestring"},"name":"large","nullable":true,"type":{"list":{"name":"v","nullable":false,"type":{"struct":[{"name":"x","nullable":false,"type":"float64"},{"name":"y","nullable":false,"type":"float64"}]}}}}
  > {"name":"plain","nullable":true,"type":{"list":{"name":"v","nullable":false,"type":"int8"}}}
  > {"metadata":{"ARROW:extension:name":"geoarrow.wkb"},"name":"named","nullable":true,"type":"binary"}
  > {"metadata":{"ARROW:extension:name":"geoarrow.wkt"},"name":"text","nullable":true,"type":"utf8"}
  > END
  > cat > "$TMPDIR/b.jsonl" << 'END'
  > {"metadata":{"ARROW:extension:name":"geoarrow.multipoint"},"name":"alike","nullable":true,"type":{"list":{"name":"points","nullable":false,"type":{"struct":[{"name":"x","nullable":false,"type":"float64"},{"name":"y","nullable":false,"type":"float64"}]}}}}
  > {"metadata":{"ARROW:extension:name":"geoarrow.linestring"},"name":"large","nullable":true,"type":{"large_list":{"name":"v","nullable":false,"type":{"struct":[{"name":"x","nullable":false,"type":"float64"},{"name":"y","nullable":false,"type":"float64"}]}}}}
  > {"name":"plain","nullable":true,"type":{"list":{"name":"w","nullable":false,"type":"int8"}}}
  > {"name":"named","nullable":true,"type":"binary"}
  > {"metadata":{"ARROW:extension:name":"ogc.wkt"},"name":"text","nullable":true,"type":"utf8"}
  > END
  > cd "$TMPDIR" && geoarrow_check --same -q a.jsonl b.jsonl
  b.jsonl: error[NotSame] column alike: found multipoint; expected linestring. The first file has another encoding.
  b.jsonl: error[NotSame] column large: found large_list<v: struct<x: float64 not null, y: float64 not null> not null>; expected list<v: struct<x: float64 not null, y: float64 not null> not null>. The first file has another type.
  b.jsonl: error[NotSame] column plain: found list<w: int8 not null>; expected list<v: int8 not null>. The first file has another type.
  b.jsonl: error[NotSame] column named: expected WKB. The first file has another encoding.
  2 files: 10 columns, 7 of geometries; 4 errors and 1 warning in 1 file
  [1]

  $ cd "$TMPDIR" && echo '{"name":"geom","nullable":true,"type":"binary"}' > a.jsonl
  > echo '{"metadata":{"ARROW:extension:name":"geoarrow.wkb"},"name":"geom","nullable":true,"type":"binary"}' > b.jsonl
  > geoarrow_check --same -q a.jsonl b.jsonl
  > geoarrow_check --same --infer -q a.jsonl b.jsonl
  b.jsonl: error[NotSame] column geom: found WKB; expected no encoding. The first file has another encoding.
  2 files: 2 columns, 1 of geometries; 1 error in 1 file
  b.jsonl: error[NotSame] column geom: found WKB; expected no encoding. The first file has another encoding.
  2 files: 2 columns, 2 of geometries; 1 error in 1 file
  [1]

CRSs that nothing tells to be one or two, and one beside none, are a note, which may be denied; what contradicts may be allowed

  $ for crs in '\"crs\":\"EPSG:3857\"' '\"crs\":\"4326\",\"crs_type\":\"srid\"' '\"crs\":null'
  > do
  >     echo '{"metadata":{"ARROW:extension:metadata":"{'"$crs"'}","ARROW:extension:name":"geoarrow.wkb"},"name":"g","nullable":true,"type":"binary"}'
  > done | (cd "$TMPDIR" && split -l 1 - crs. && for options in '' '--notes' '--deny CrsNotCompared' '--deny CrsNotCompared --allow CrsNotCompared'
  > do
  >     geoarrow_check --same --format github $options crs.aa crs.ab crs.ac crs.aa
  >     echo $?
  > done)
  0
  ::notice file=crs.ab,title=CrsNotCompared::column g: found "4326"; expected "EPSG:3857". Nothing tells whether the CRS of the first file is this one.
  ::notice file=crs.ac,title=CrsNotCompared::column g: expected "EPSG:3857". Nothing tells whether the CRS of the first file is this one.
  0
  ::error file=crs.ab,title=CrsNotCompared::column g: found "4326"; expected "EPSG:3857". Nothing tells whether the CRS of the first file is this one.
  ::error file=crs.ac,title=CrsNotCompared::column g: expected "EPSG:3857". Nothing tells whether the CRS of the first file is this one.
  1
  0

  $ cd "$TMPDIR" && echo '{"name":"a","nullable":true,"type":"int8"}' > a.jsonl && echo '{"name":"a","nullable":true,"type":"utf8"}' > b.jsonl
  > geoarrow_check --same --format github --allow NotSame a.jsonl b.jsonl && geoarrow_check --same --format github --allow NotSame --deny NotSame a.jsonl b.jsonl
  ::error file=b.jsonl,title=NotSame::column a: found utf8; expected int8. The first file has another type.
  [1]

Differences as lines of JSON, behind all lines of their file; and as results of a log, whose rule stands there once

  $ cd "$TMPDIR" && echo '{"name":"a","nullable":true,"type":"int8"}' > a.jsonl && printf '\357\273\277%s\n%s\n' '{"name":"a","nullable":true,"type":"utf8"}' '{"name":"b","nullable":true,"type":"utf8"}' > b.jsonl
  > geoarrow_check --same --json --notes a.jsonl b.jsonl
  > geoarrow_check --same --format sarif a.jsonl b.jsonl | python3 -c 'import json, sys; run = json.load(sys.stdin)["runs"][0]; print([(it["ruleId"], it["level"], it["message"]["text"]) for it in run["results"]], run["tool"]["driver"]["rules"])'
  {"kind":"column","file":"a.jsonl","index":0,"column":"a","state":"plain","type":"int8"}
  {"kind":"file","file":"a.jsonl","read":true,"columns":1,"geometries":0,"errors":0,"warnings":0,"notes":0,"status":0}
  {"kind":"column","file":"b.jsonl","index":0,"column":"a","state":"plain","type":"utf8"}
  {"kind":"column","file":"b.jsonl","index":1,"column":"b","state":"plain","type":"utf8"}
  {"kind":"finding","severity":"note","code":"ByteOrderMark","file":"b.jsonl","in":"file","byte":0,"expected":"lines without one","help":"It is passed over."}
  {"kind":"finding","severity":"error","code":"NotSame","file":"b.jsonl","column":"a","found":"utf8","expected":"int8","help":"The first file has another type."}
  {"kind":"finding","severity":"error","code":"NotSame","file":"b.jsonl","column":"b","found":"utf8","expected":"no such column","help":"The first file has no such column."}
  {"kind":"file","file":"b.jsonl","read":true,"columns":2,"geometries":0,"errors":2,"warnings":0,"notes":1,"status":1}
  {"kind":"summary","files":2,"unread":0,"failed":1,"errors":2,"warnings":0,"notes":1,"status":1}
  [('NotSame', 'error', 'column a: found utf8; expected int8. The first file has another type.'), ('NotSame', 'error', 'column b: found utf8; expected no such column. The first file has no such column.')] [{'id': 'NotSame', 'shortDescription': {'text': 'a column is not as in the first file'}}]

A file that is refused is not compared, and is not the first one; one with bad lines is, by the columns that it has; files of different formats are, and standard input, which has no name in lines of JSON

  $ cd "$TMPDIR" && : > empty && echo '{"name":"a","nullable":true,"type":"int8"}' > a.jsonl && printf '%s\nbad\n' '{"name":"b","nullable":true,"type":"int8"}' > bad.jsonl
  > echo '{"name":"a","nullable":true,"type":"utf8"}' | geoarrow_check --same --json empty a.jsonl empty bad.jsonl - 2> /dev/null | grep NotSame
  > echo '{"name":"a","nullable":true,"type":"utf8"}' | geoarrow_check --same -q bad.jsonl bad.jsonl a.jsonl
  > (cat bad.jsonl; head -c 1048577 /dev/zero | tr '\0' x) > long.jsonl && geoarrow_check --same -q a.jsonl long.jsonl | cut -c-40
  > cp "$top/crates/geoarrow_check/data/file.arrow" "$top/crates/geoarrow_check/data/geo.parquet" . && geoarrow_check --same --format github file.arrow file.arrow | grep -c NotSame; geoarrow_check --same --json geo.parquet a.jsonl | grep NotSame
  {"kind":"finding","severity":"error","code":"NotSame","file":"bad.jsonl","column":"b","found":"int8","expected":"no such column","help":"The first file has no such column."}
  {"kind":"finding","severity":"error","code":"NotSame","file":"bad.jsonl","column":"a","expected":"int8","help":"The column is missing."}
  {"kind":"finding","severity":"error","code":"NotSame","column":"a","found":"utf8","expected":"int8","help":"The first file has another type."}
  bad.jsonl: error[BadLine] byte 1, line 2: found no JSON, or more than 127 levels of it; expected a JSON object
  bad.jsonl: error[BadLine] byte 1, line 2: found no JSON, or more than 127 levels of it; expected a JSON object
  a.jsonl: error[NotSame] column a: found int8; expected no such column. The first file has no such column.
  a.jsonl: error[NotSame] column b: expected int8. The column is missing.
  3 files: 3 columns, 0 of geometries; 4 errors in 3 files
  long.jsonl: error[BadLine] byte 1, line 
  long.jsonl: error[LongLine] line 3: foun
  2 files: 1 column, 0 of geometries; no f
  0
  {"kind":"finding","severity":"error","code":"NotSame","file":"a.jsonl","column":"a","found":"int8","expected":"no such column","help":"The first file has no such column."}
  {"kind":"finding","severity":"error","code":"NotSame","file":"a.jsonl","column":"geom","expected":"binary","help":"The column is missing."}
  {"kind":"finding","severity":"error","code":"NotSame","file":"a.jsonl","column":"place","expected":"binary","help":"The column is missing."}
  {"kind":"finding","severity":"error","code":"NotSame","file":"a.jsonl","column":"region","expected":"binary","help":"The column is missing."}

CRSs of GeoParquet: one that counts as a default beside one that is not known, and beside one that is said

  $ cd "$TMPDIR" && grep -m 1 22637273223a6e756c6c "$top/crates/file_rows/data/reports/geo_files.rows" | sed 's/.* //' > digits
  > python3 -c 'import sys; sys.stdout.buffer.write(bytes.fromhex(open("digits").read()))' > unknown
  > python3 -c 'import sys; sys.stdout.buffer.write(bytes.fromhex(open("digits").read()).replace(b"\"crs\":null", b"\"crz\":null"))' > default
  > echo '{"metadata":{"ARROW:extension:metadata":"{\"crs\":\"EPSG:4326\"}","ARROW:extension:name":"geoarrow.wkb"},"name":"geometry","nullable":true,"type":"binary"}' > said
  > for files in 'default unknown' 'unknown default' 'default said' 'unknown said'
  > do
  >     geoarrow_check --same --format github --notes $files | grep Same
  >     geoarrow_check --same --format github --notes $files | grep NotCompared
  > done
  ::notice file=unknown,title=CrsNotCompared::column geometry: found null; expected "OGC:CRS84". Nothing tells whether the CRS of the first file is this one.
  ::notice file=default,title=CrsNotCompared::column geometry: found "OGC:CRS84"; expected null. Nothing tells whether the CRS of the first file is this one.
  ::error file=said,title=NotSame::column geometry: found "EPSG:4326"; expected null. The first file has another CRS.
  [1]

Words that are answered at once

  $ geoarrow_check --version
  geoarrow_check 2.0.0 (rattle-kit-13f)

  $ geoarrow_check --help | cmp - ../docs/check_help.txt

  $ geoarrow_check -V x
  geoarrow_check 2.0.0 (rattle-kit-13f)

  $ geoarrow_check --json --lines -h --jsno | cmp - ../docs/check_help.txt

  $ geoarrow_check -qh --jsno | cmp - ../docs/check_help.txt

  $ geoarrow_check -qV x
  geoarrow_check 2.0.0 (rattle-kit-13f)

Files whose names begin with a hyphen

  $ cd "$TMPDIR" && echo '{"name":"a","nullable":true,"type":"null"}' > -f && geoarrow_check ./-f
    column  holds  CRS  edges
    a       null

  $ cd "$TMPDIR" && echo '{"name":"a","nullable":true,"type":"null"}' > --json && geoarrow_check --lines -- --json
  {"name":"a","nullable":true,"type":"null"}

Options behind files, options that stand twice, and what is expected behind `=`, or beginning with a hyphen

  $ geoarrow_check ../crates/geoarrow_check/data/file.arrow --lines --lines
  {"metadata":{"ARROW:extension:name":"geoarrow.linestring"},"name":"g","nullable":true,"type":{"list":{"name":"vertices","nullable":false,"type":{"fixed_size_list":{"name":"xym","nullable":false,"type":"float64"},"size":3}}}}

  $ geoarrow_check --quiet --expect=g=XY --expect --json=point --expect g=XYM ../crates/geoarrow_check/data/file.arrow
  ../crates/geoarrow_check/data/file.arrow: error[Expect] column g, arguments: found linestring interleaved XYM, no CRS, planar; expected XY
  ../crates/geoarrow_check/data/file.arrow: error[Expect] column --json, arguments: expected point. No column has that name.
  [1]

Words that are refused

  $ for word in --jsno --line --ip --infre --note --code --explian --quite --problem --require-geometri --expct --hlep --versoin
  > do
  >     geoarrow_check $word x 2>&1 | sed '/Usage/,$d' | grep .
  > done
  error: unexpected argument '--jsno' found
    tip: a similar argument exists: '--json'
  error: unexpected argument '--line' found
    tip: a similar argument exists: '--lines'
  error: unexpected argument '--ip' found
    tip: a similar argument exists: '--ipc'
  error: unexpected argument '--infre' found
    tip: a similar argument exists: '--infer'
  error: unexpected argument '--note' found
    tip: a similar argument exists: '--notes'
  error: unexpected argument '--code' found
    tip: a similar argument exists: '--codes'
  error: unexpected argument '--explian' found
    tip: a similar argument exists: '--explain'
  error: unexpected argument '--quite' found
    tip: a similar argument exists: '--quiet'
  error: unexpected argument '--problem' found
    tip: a similar argument exists: '--problems'
  error: unexpected argument '--require-geometri' found
    tip: a similar argument exists: '--require-geometry'
  error: unexpected argument '--expct' found
    tip: a similar argument exists: '--expect'
  error: unexpected argument '--hlep' found
    tip: a similar argument exists: '--help'
  error: unexpected argument '--versoin' found
    tip: a similar argument exists: '--version'

  $ for word in -x -json --xyzzy "$(printf -- '--a\nb\033[1m')" --json=a
  > do
  >     geoarrow_check "$word" x 2>&1 | grep .
  > done
  error: unexpected argument '-x' found
    tip: to pass '-x' as a value, use '-- -x'
  Usage: geoarrow_check [OPTIONS] [FILE]...
  For more information, try '--help'.
  error: unexpected argument '-j' found
    tip: to pass '-j' as a value, use '-- -j'
  Usage: geoarrow_check [OPTIONS] [FILE]...
  For more information, try '--help'.
  error: unexpected argument '--xyzzy' found
    tip: to pass '--xyzzy' as a value, use '-- --xyzzy'
  Usage: geoarrow_check [OPTIONS] [FILE]...
  For more information, try '--help'.
  error: unexpected argument '--a?b?[1m' found
    tip: to pass '--a?b?[1m' as a value, use '-- --a?b?[1m'
  Usage: geoarrow_check [OPTIONS] [FILE]...
  For more information, try '--help'.
  error: unexpected value 'a' for '--json' found; no more were expected
  Usage: geoarrow_check --json [FILE]...
  For more information, try '--help'.

  $ for words in '--json --lines' '--lines --json' '--json --ipc' '--ipc --json' '--lines --ipc' '--ipc --lines' '--ipc --lines --json'
  > do
  >     geoarrow_check $words x 2>&1 | sed '/^$/,$d'
  > done
  error: the argument '--json' cannot be used with '--lines'
  error: the argument '--lines' cannot be used with '--json'
  error: the argument '--json' cannot be used with '--ipc'
  error: the argument '--ipc' cannot be used with '--json'
  error: the argument '--lines' cannot be used with '--ipc'
  error: the argument '--ipc' cannot be used with '--lines'
  error: the argument '--ipc' cannot be used with:
    --lines
    --json

  $ for words in '--format text --lines' '--lines --format json' '--format github --ipc' '--ipc --format=json' '--ipc --lines --format json'
  > do
  >     geoarrow_check $words x 2>&1 | sed '/^$/,$d'
  > done
  error: the argument '--format <FORMAT>' cannot be used with '--lines'
  error: the argument '--lines' cannot be used with '--format <FORMAT>'
  error: the argument '--format <FORMAT>' cannot be used with '--ipc'
  error: the argument '--ipc' cannot be used with '--format <FORMAT>'
  error: the argument '--ipc' cannot be used with:
    --lines
    --format <FORMAT>

  $ for words in '--same --lines' '--ipc --same' '--json --quiet' '--lines -q' '--problems --ipc' '--json --problems' '-q --format json' '--format=json --problems'
  > do
  >     geoarrow_check $words x 2>&1 | sed '/^$/,$d'
  > done
  error: the argument '--same' cannot be used with '--lines'
  error: the argument '--ipc' cannot be used with '--same'
  error: the argument '--json' cannot be used with '--quiet'
  error: the argument '--lines' cannot be used with '--quiet'
  error: the argument '--problems' cannot be used with '--ipc'
  error: the argument '--json' cannot be used with '--problems'
  error: the argument '--format json' cannot be used with '--quiet'
  error: the argument '--format json' cannot be used with '--problems'

  $ for words in --canonical '--canonical --json' '--quiet --canonical' '--canonical --problems' '--format github --canonical' '--canonical --same' '--canonical --lines --ipc' '--canonical --lines --same' '--canonical --lines --json'
  > do
  >     geoarrow_check $words x 2>&1 | sed '/^$/,$d'
  > done
  error: the argument '--canonical' needs '--lines' or '--ipc'
  error: the argument '--canonical' needs '--lines' or '--ipc'
  error: the argument '--canonical' needs '--lines' or '--ipc'
  error: the argument '--canonical' needs '--lines' or '--ipc'
  error: the argument '--canonical' needs '--lines' or '--ipc'
  error: the argument '--canonical' needs '--lines' or '--ipc'
  error: the argument '--lines' cannot be used with '--ipc'
  error: the argument '--lines' cannot be used with '--same'
  error: the argument '--lines' cannot be used with '--json'

  $ for word in --format=jsn '--format xml' '--format=' '--fromat x'
  > do
  >     geoarrow_check $word 2>&1 | sed '/Usage/,$d' | grep .
  > done
  error: invalid value 'jsn' for '--format <FORMAT>'
    [possible values: text, json, github, sarif]
    tip: a similar value exists: 'json'
  For more information, try '--help'.
  error: invalid value 'xml' for '--format <FORMAT>'
    [possible values: text, json, github, sarif]
  For more information, try '--help'.
  error: a value is required for '--format <FORMAT>' but none was supplied
    [possible values: text, json, github, sarif]
  For more information, try '--help'.
  error: unexpected argument '--fromat' found
    tip: a similar argument exists: '--format'

  $ geoarrow_check --line x 2> /dev/null
  [2]

  $ geoarrow_check --json --lines x 2> /dev/null
  [2]

  $ for words in '' --json '--ipc x y' 'x --expect' '--expect point x'
  > do
  >     geoarrow_check $words 2>&1 | grep .
  >     geoarrow_check $words 2> /dev/null || echo "status $?"
  > done
  error: the following required arguments were not provided:
    <FILE>...
  Usage: geoarrow_check <FILE>...
  For more information, try '--help'.
  status 2
  error: the following required arguments were not provided:
    <FILE>...
  Usage: geoarrow_check --json <FILE>...
  For more information, try '--help'.
  status 2
  error: --ipc takes one file
  Usage: geoarrow_check [OPTIONS] [FILE]...
  For more information, try '--help'.
  status 2
  error: a value is required for '--expect <COLUMN=WANT>' but none was supplied
  For more information, try '--help'.
  status 2
  error: 'point' is no COLUMN=WANT
  Usage: geoarrow_check [OPTIONS] [FILE]...
  For more information, try '--help'.
  status 2

  $ for want in '' --json
  > do
  >     geoarrow_check --expect "$want" x 2>&1 | head -n 1
  > done
  error: '' is no COLUMN=WANT
  error: '--json' is no COLUMN=WANT

Output that fails

  $ for words in --json --lines --ipc --infer --help --format=sarif
  > do
  >     geoarrow_check $words ../crates/geoarrow_check/data/stream.arrows > /dev/full
  > done
  geoarrow_check: No space left on device (os error 28)
  geoarrow_check: No space left on device (os error 28)
  geoarrow_check: No space left on device (os error 28)
  geoarrow_check: No space left on device (os error 28)
  geoarrow_check: No space left on device (os error 28)
  geoarrow_check: No space left on device (os error 28)
  [2]

Output that nobody reads to its end: nothing is said, and the status is that of the files so far

  $ cd "$TMPDIR" && yes '{"name":"a","nullable":true,"type":"null"}' | head -n 50000 > lines && for words in --json --lines --infer
  > do
  >     (geoarrow_check $words lines 2> said; echo $? > status) | head -n 1 > /dev/null
  >     cat said status
  > done
  > (geoarrow_check --json "$top/examples/schema.jsonl" lines 2> said; echo $? > status) | head -n 1 > /dev/null
  > cat said status
  0
  0
  0
  1

The man page and the completions for bash are those that the help makes

  $ ../bin/man "$TMPDIR" && cmp ../docs/geoarrow_check.1 "$TMPDIR/geoarrow_check.1" && cmp ../docs/geoarrow_check.bash "$TMPDIR/geoarrow_check.bash"

  $ cat > "$TMPDIR/completed" <<'END'
  > . ../docs/geoarrow_check.bash
  > completed() { COMP_WORDS=(geoarrow_check "$@"); COMP_CWORD=$#; _geoarrow_check; echo "${COMPREPLY[@]}"; }
  > completed --c
  > completed --format ''
  > completed --color = ne
  > completed --format =
  > completed --deny GeoBb
  > completed x.parquet --explain EmptyF
  > completed ex | wc -w
  > END
  > bash "$TMPDIR/completed"
  --canonical --color --codes
  text json github sarif
  never
  text json github sarif
  GeoBbox GeoBboxOrder GeoBboxRange GeoBboxDimension
  EmptyFile
  0

