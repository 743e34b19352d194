# Completion for bash of difane's arguments and of the desk's scripts: `source desk/completion.bash`.
_difane() {
    local word=${COMP_WORDS[COMP_CWORD]} command=${COMP_WORDS[1]}
    COMPREPLY=()
    if ((COMP_CWORD == 1)); then
        mapfile -t COMPREPLY < <(
            compgen -W 'replay compile show flows rebalance audit load' -- "$word"
        )
    elif [[ $command == load ]]; then
        return
    elif [[ ${COMP_WORDS[COMP_CWORD - 1]} == --net ]]; then
        mapfile -t COMPREPLY < <(compgen -f -X '!*.toml' -- "$word")
    elif [[ $word == -* ]]; then
        [[ $command == audit ]] && return
        local options=--net
        [[ $command == replay ]] && options='--net --quiet'
        mapfile -t COMPREPLY < <(compgen -W "$options" -- "$word")
    elif [[ $command == audit ]] && ((COMP_CWORD == 2)); then
        mapfile -t COMPREPLY < <(compgen -f -X '!*.txt' -- "$word")
    else
        mapfile -t COMPREPLY < <(compgen -f -X '!*.csv' -- "$word")
    fi
}
complete -o filenames -o plusdirs -F _difane difane

# A script of the desk completes what its --help has: after a dash the options, and after FOLDER
# the words that go there. For FOLDER itself there are the examples, and else files.
_difane_desk() {
    local word=${COMP_WORDS[COMP_CWORD]} help words=
    help=$("${COMP_WORDS[0]}" --help 2> /dev/null < /dev/null)
    COMPREPLY=()
    if [[ $word == -* ]]; then
        words=$(grep -oE -- '--[a-z][a-z-]*' <<< "$help" | sort -u)
    elif ((COMP_CWORD > 1)); then
        words=$(sed -nE -e 's,^ +desk/[a-z]+ (FOLDER|DIR) ([a-z]+).*,\2,p' \
            -e 's/^ {4}([a-z]+)( [A-Z]+)?  .*/\1/p' <<< "$help" | sort -u)
    elif [[ $help == *FOLDER* || $help == *DIR* ]]; then
        words=$(cd "$_difane_examples" && ls -- */journal.txt 2> /dev/null | sed 's,/.*,,')
    fi
    mapfile -t COMPREPLY < <(compgen -W "$words" -- "$word")
    if ((COMP_CWORD == 1 || ${#COMPREPLY[@]} == 0)); then
        mapfile -t -O "${#COMPREPLY[@]}" COMPREPLY < <(compgen -f -- "$word")
    fi
}
_difane_here=$(dirname "$(readlink -f "${BASH_SOURCE[0]}")")
_difane_examples=$_difane_here/../crates/examples/data
for _difane_script in "$_difane_here"/*; do
    if [[ -f $_difane_script && -x $_difane_script ]]; then
        _difane_name=${_difane_script##*/}
        complete -o filenames -F _difane_desk "desk/$_difane_name" "./desk/$_difane_name" \
            "$_difane_script" "difane-$_difane_name"
    fi
done
unset _difane_script _difane_name
