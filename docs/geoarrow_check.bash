# Completions of geoarrow_check for bash; bin/man writes them. In ~/.bashrc: . FOLDER/geoarrow_check.bash
_geoarrow_check() {
    local word=${COMP_WORDS[COMP_CWORD]} before=${COMP_WORDS[COMP_CWORD - 1]} words=
    if [ "$word" = = ]; then word=; elif [ "$before" = = ]; then before=${COMP_WORDS[COMP_CWORD - 2]}; fi
    case $before in
    --format) words='text json github sarif' ;;
    --color) words='auto always never' ;;
    --deny | --allow | --explain) words=$("${COMP_WORDS[0]}" --codes 2> /dev/null | sed 's/^[a-z]*\[\([A-Za-z]*\)\].*/\1/') ;;
    *) case $word in -*) words='--format --json --lines --ipc --canonical --infer --notes --deny --allow -q --quiet --problems --color --require-geometry --same --expect --codes --explain -h --help -V --version' ;; esac ;;
    esac
    COMPREPLY=()
    if [ -n "$words" ]; then mapfile -t COMPREPLY < <(compgen -W "$words" -- "$word"); fi
}
complete -o default -F _geoarrow_check geoarrow_check
