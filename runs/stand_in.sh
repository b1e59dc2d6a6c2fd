# Makes and enters a repository of the scripts alone, with a kit whose `rt` proves nothing: what it builds says what it was started with, word by word, and of
# which sources it is. The crates stand on `low`; `other` is below none.
mkdir -p "$TMPDIR/kit/bin" "$TMPDIR/kit/c" "$TMPDIR/repository/bin" "$TMPDIR/repository/include" "$TMPDIR/repository/native"
cp "$top"/bin/* "$TMPDIR/repository/bin"
cd "$TMPDIR/repository"
for crate in low other fields_program geoarrow_check geoarrow_c; do
    mkdir -p crates/$crate/src
    echo "$crate" > crates/$crate/src/main.rt
done
mkdir crates/low/specs crates/low/proofs
echo more > crates/low/src/more.rt
echo specs > crates/low/specs/Low.antt
echo proofs > crates/low/proofs/Low.antt
mkdir -p crates/check_options/src docs
cp "$top/crates/check_options/src/command.rt" crates/check_options/src
cp "$top/docs/check_help.txt" docs
touch HANDLES include/geoarrow.h
printf '# low\nlow: json\nfields_program: low\ngeoarrow_check: low json\ngeoarrow_c staticlib: json low\nother:\n' > crates.txt
echo 'kit 1' > "$TMPDIR/kit/KIT-ID"
# What a crate of the folder that it is started in is built as: FILE is made of the sources of the crates that are there.
cat > "$TMPDIR/kit/bin/made" << 'END'
#!/bin/sh
sources=$(find crates -name out -prune -o -path 'crates/*/src/*' ! -path 'crates/geoarrow_check/*' ! -path 'crates/check_options/*' -type f -print -o -path 'crates/*/specs/*' -type f -print -o -path 'crates/*/proofs/*' -type f -print | LC_ALL=C sort | xargs cat | cat - "$TMPDIR/kit/KIT-ID" | tr '\n' ' ')
printf '#!/bin/sh\nprintf runs\nprintf " <%%s>" "$@"\necho " %s"\n' "of ${sources% }" > "$1"
chmod +x "$1"
END
cat > "$TMPDIR/kit/bin/rt" << 'END'
#!/bin/sh
fail() {
    echo "rt: $1"
    echo '0 passed, 1 failed'
    exit 1
}
case $1 in
doc) echo "$TMPDIR/kit/START-HERE.md" ;;
version) cat "$TMPDIR/kit/KIT-ID" ;;
lib) cd ../.. && made crates/geoarrow_c/out/libgeoarrow_c.a ;;
ci)
    [ ! -e "$TMPDIR/fails" ] || fail 'it fails'
    sleep 0.5
    [ ! -e "$TMPDIR/meanwhile" ] || sh "$TMPDIR/meanwhile"
    for one in $(sed 's/#.*//; s/ staticlib//; s/:/ /; s/ serde_json//; s/ json//' crates.txt); do
        [ -d "crates/$one/src" ] || fail "there is no crate $one"
        grep -q "^$one[ :]" crates.txt || fail "no line has the crate $one"
    done
    for one in $(sed 's/[ :].*//' crates.txt); do
        mkdir -p "crates/$one/out/rlib/$one.rlib"
        touch "crates/$one/out/rlib/$one.rlib/format"
        made "crates/$one/out/$one"
        echo "rt: $one proved"
    done
    echo '1 passed, 0 failed'
    ;;
esac
END
# (what compiles a program for bin/try, and the tools of C: they make the file behind -o, or the last word's)
cat > bin/unproved << 'END'
#!/bin/sh
cd "$(dirname "$(dirname "$0")")"
[ ! -e "$TMPDIR/meanwhile" ] || sh "$TMPDIR/meanwhile"
made "$2"
END
cat > "$TMPDIR/kit/bin/cc" << 'END'
#!/bin/sh
while [ $# -gt 0 ]; do
    [ "$1" != -o ] || touch "$2"
    shift
done
END
printf '#!/bin/sh\ntouch "$2"\n' > "$TMPDIR/kit/bin/ar"
printf '#!/bin/sh\n' > "$TMPDIR/kit/bin/objcopy"
chmod +x "$TMPDIR/kit/bin"/* bin/unproved
PATH="$TMPDIR/kit/bin:$PATH"
