# Makes and enters a repository of the scripts that test, with an `rt` that proves nothing: `ci` says which edits it would try, and `try` which tests of a
# crate it would run. One that calls `fails` fails; where there is a file `says`, nothing compiles.
mkdir -p "$TMPDIR/repository/runs" "$TMPDIR/repository/docs" "$TMPDIR/repository/crates/fields_program/out" "$TMPDIR/kit"
echo "$(rt doc)" > "$TMPDIR/kit/doc"
cp -r "$top/bin" "$TMPDIR/repository"
cd "$TMPDIR/repository"
printf 'low:\nhigh: low\nnone:\nuses:\n' > crates.txt
touch HANDLES README.md crates/fields_program/out/fields_program
cat > "$TMPDIR/kit/rt" << 'END'
#!/bin/sh
kit=$(dirname "$0")
case $1 in
doc) cat "$kit/doc" ;;
ci)
    [ ! -e "$kit/ci" ] || exec "$kit/ci"
    tried=$(find crates -path '*/must-fail/*.edit' | sed 's:crates/::; s:must-fail/::; s:.edit$::' | LC_ALL=C sort | tr '\n' ' ')
    echo "tried ${tried% }"
    [ -z "$(find crates -name out)" ] || echo 'with what was built'
    echo "$(($# - 1 + $(echo $tried | wc -w))) passed, 0 failed"
    ;;
try)
    [ ! -e "$kit/../repository/says" ] || exit 1
    awk '/^fn example_/ { name = $2; sub(/\(.*/, "", name); says = "ok" }
        /^fails/ { says = "FAILED at src/lib.rt:" NR ":1" }
        /^}/ && name { print "test " name " ... " says; name = "" }' src/lib.rt
    ;;
esac
END
chmod +x "$TMPDIR/kit/rt"
export PATH="$TMPDIR/kit:$PATH"

# Puts programs in place of the parts of bin/test: each has seven tests that pass, but for bin/runs where the file `says` asks for something else.
parts() {
    sed -E 's/\("([a-z_ /]+)", [0-9]+, ([0-9]+)\)/("\1", 7, \2)/g' "$top/bin/test" > bin/test
    mkdir interop native
    for part in bin/runs bin/faults bin/examples interop/test native/test native/test_records ../kit/ci
    do
        printf '#!/bin/sh\necho "7 passed, 0 failed"\n' > "$part"
        chmod +x "$part"
    done
    cat > bin/runs << 'END'
#!/bin/sh
case $(cat says 2> /dev/null) in
'one fewer') echo '6 passed, 0 failed' ;;
'one fails') echo '6 passed, 1 failed'; exit 1 ;;
'ends with 1') echo '7 passed, 0 failed'; exit 1 ;;
'fails and ends with 0') echo '6 passed, 1 failed' ;;
'says nothing') ;;
'says more') echo '7 passed, 0 failed'; echo 'and more' ;;
'all skipped') echo '0 passed, 0 failed, 7 skipped' ;;
*) echo '7 passed, 0 failed' ;;
esac
END
}
