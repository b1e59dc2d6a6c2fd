Each stream of --ipc, byte for byte that which flatc read for these columns

  $ python3 - << 'END'
  > import pathlib, struct, subprocess
  > rows = [it for it in pathlib.Path("../crates/ipc_samples/data/written.rows").read_text().split("\n") if not it.startswith("#")]
  > same = other = 0
  > for question, answer in zip(rows[::2], rows[1::2]):
  >     stream = bytes.fromhex(question.partition(" ")[2])
  >     texts = 48 + struct.unpack_from("<I", stream, 48)[0]
  >     if not answer or stream[52] or any(stream[texts : texts + 4]):
  >         continue  # no columns; or big-endian, or with metadata of the schema, which lines do not denote
  >     lines = answer.replace(" | ", "\n").encode() + b"\n"
  >     found = subprocess.run(["geoarrow_check", "--ipc", "-"], input=lines, stdout=subprocess.PIPE).stdout
  >     same, other = same + (found == stream), other + (found != stream)
  > print(f"{same} same, {other} other")
  > END
  6 same, 0 other

Lines beyond a million are answered: as lines of JSON, and as lines of fields

  $ yes '{"name":"a","nullable":true,"type":"int8"}' | head -n 1000005 > "$TMPDIR/lines"
  > geoarrow_check --json "$TMPDIR/lines" | tail -n 2 | sed 's/"file":"[^"]*",//'
  > geoarrow_check --lines - < "$TMPDIR/lines" | cmp - "$TMPDIR/lines"
  {"kind":"column","index":1000004,"column":"a","state":"plain","type":"int8"}
  {"kind":"file","read":true,"columns":1000005,"geometries":0,"errors":0,"warnings":0,"notes":0,"status":0}

Each of 5,000 files is reported

  $ cd "$TMPDIR"
  > echo '{"name":"a","nullable":true,"type":"int8"}' > 1
  > for number in $(seq 2 5000); do ln 1 "$number"; done
  > (seq 5000; echo '{"kind":"summary","files":5000,"unread":0,"failed":0,"errors":0,"warnings":0,"notes":0,"status":0}') > wanted
  > seq 5000 | xargs -n 5000 geoarrow_check --json | grep -v '^{"kind":"file"' | sed 's/^{"kind":"column","file":"\([0-9]*\)","index":0,.*/\1/' | cmp - wanted

Of 1,000 mixed files, a tenth of them broken in ten ways, each broken one is named once, with what helps

  $ python3 - "$TMPDIR/lake" << 'END'
  > import pathlib, sys
  > data, top = pathlib.Path("../crates/geoarrow_check/data"), pathlib.Path(sys.argv[1])
  > whole = {"parquet": (data / "stored.parquet").read_bytes(), "arrow": (data / "file.arrow").read_bytes(), "arrows": (data / "stream.arrows").read_bytes()}
  > whole["jsonl"] = b'{"name":"id","nullable":true,"type":"int64"}\n'
  > broken = {
  >     "empty.parquet": b"",
  >     "cut.parquet": whole["parquet"][:-9],
  >     "encrypted.parquet": b"PARE" + whole["parquet"][4:-4] + b"PARE",
  >     "cut.arrow": whole["arrow"][:-3],
  >     "old.feather": b"FEA1" + bytes(40) + b"FEA1",
  >     "package.parquet": b"SQLite format 3\0" + bytes(100),
  >     "page.jsonl": b"<!DOCTYPE html><html></html>\n",
  >     "pointer.arrow": b"version https://git-lfs.github.com/spec/v1\noid sha256:0\nsize 1\n",
  >     "pretty.jsonl": b'{\n  "name": "id",\n  "nullable": true,\n  "type": "int64"\n}\n',
  >     "storage.jsonl": b'{"metadata":{"ARROW:extension:name":"geoarrow.wkb"},"name":"g","nullable":true,"type":"utf8"}\n',
  > }
  > for number in range(100):
  >     folder = top / f"part={number}"
  >     folder.mkdir(parents=True)
  >     for at in range(9):
  >         kind = list(whole)[at % 4]
  >         (folder / f"{at}.{kind}").write_bytes(whole[kind])
  >     name = list(broken)[number % 10]
  >     (folder / name).write_bytes(broken[name])
  > END
  > cd "$TMPDIR" && geoarrow_check -q lake > found; echo $?; sed 's/.*part=[0-9]*\///' found | LC_ALL=C sort | uniq -c
  2
        1 1000 files: 910 columns, 500 of geometries; 10 errors and 300 warnings in 310 files; 90 files not read
       10 cut.arrow: error[Truncated] byte 813: found 0094010000415252; expected ARROW1 at the end. The file is cut off, or still being written
       10 cut.parquet: error[Truncated] byte 374: found 6120777269746572; expected PAR1 at the end. The file is cut off, or still being written
       10 empty.parquet: error[EmptyFile] byte 0: found 0 bytes, or blanks alone; expected an Arrow file, an Arrow stream, a Parquet file or lines of fields. The writing or the copy broke off before its first byte
       10 encrypted.parquet: error[Encrypted] byte 379: found PARE; expected PAR1. A copy with a plain footer is needed
       10 old.feather: error[ForeignFormat] byte 0: found a Feather file of version 1; expected an Arrow file, an Arrow stream, a Parquet file or lines of fields. Write it anew: pyarrow.feather.read_table, then write_feather
       10 package.parquet: error[ForeignFormat] byte 0: found a GeoPackage or SQLite database; expected an Arrow file, an Arrow stream, a Parquet file or lines of fields. Try ogr2ogr out.parquet FILE
       10 page.jsonl: error[ForeignFormat] byte 0: found an HTML page; expected an Arrow file, an Arrow stream, a Parquet file or lines of fields. A download may have given a page in place of the file
       10 pointer.arrow: error[ForeignFormat] byte 0: found a Git LFS pointer; expected an Arrow file, an Arrow stream, a Parquet file or lines of fields. Try git lfs pull
       10 pretty.jsonl: error[BadLine] byte 1, line 1: found no JSON, or more than 127 levels of it; expected a JSON object. One object on each line: try jq -c . FILE
       10 storage.jsonl: error[WrongStorage] column g, field: found utf8; expected binary, large_binary or binary_view. For WKT use geoarrow.wkt.
