# Completes the words of beamkit in bash: the commands, the words of `show`, and names of files, which are
# those of .beam files and folders; for `asm`, and where there are none of these, they are all files.
_beamkit_files() {
    local word=$1 ending=$2
    compopt -o filenames 2>/dev/null
    mapfile -t COMPREPLY < <(compgen -f -X "!*$ending" -- "$word" | while IFS= read -r name; do
        [[ -d $name ]] || printf '%s\n' "$name"
    done; compgen -d -- "$word")
    if [[ $ending && ${#COMPREPLY[@]} -eq 0 ]]; then
        mapfile -t COMPREPLY < <(compgen -f -- "$word")
    fi
}

_beamkit() {
    local word=${COMP_WORDS[COMP_CWORD]}
    COMPREPLY=()
    case $COMP_CWORD:${COMP_WORDS[1]} in
    1:*)
        mapfile -t COMPREPLY < <(compgen -W "info show disasm asm strip canon cmp validate gen" -- "$word")
        ;;
    2:show)
        mapfile -t COMPREPLY < <(compgen -W \
            "atoms imports exports locals funs literals lines attributes compile" -- "$word")
        ;;
    2:asm) _beamkit_files "$word" "" ;;
    3:show | 2:cmp | 3:cmp | 2:info | 2:disasm | 2:strip | 2:canon | 2:validate)
        _beamkit_files "$word" .beam
        ;;
    esac
}

complete -F _beamkit beamkit
