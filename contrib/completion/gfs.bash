# Completion of the words of gfs in bash: source this file.
_gfs() {
    local word=${COMP_WORDS[COMP_CWORD]} before=${COMP_WORDS[COMP_CWORD-1]}
    COMPREPLY=()
    if [[ $before == --workload ]]; then
        return
    fi
    if [[ $word == -* && " ${COMP_WORDS[*]:1:COMP_CWORD-1} " != *" -- "* ]]; then
        mapfile -t COMPREPLY < <(compgen -W '--make --workload --' -- "$word")
        return
    fi
    mapfile -t COMPREPLY < <(compgen -f -X '!*.@(gf|gft)' -- "$word"; compgen -d -S / -- "$word")
}
shopt -s extglob
complete -o filenames -F _gfs gfs
