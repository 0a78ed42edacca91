# Completions of warmgate and of its helpers for bash: the commands, the options that --help names, and files.
# In a checkout or an unpacked archive: . tools/completions/warmgate.bash

_warmgate() {
    local word=${COMP_WORDS[COMP_CWORD]} before=
    [ "$COMP_CWORD" -eq 0 ] || before=${COMP_WORDS[COMP_CWORD - 1]}
    case $before in
    '<' | '>' | '>>' | '2>') mapfile -t COMPREPLY < <(compgen -f -- "$word") ;;
    *) [ "$COMP_CWORD" -ne 1 ] || mapfile -t COMPREPLY < <(compgen -W "replay run audit soak tls dns chains sotw dump --help --version" -- "$word") ;;
    esac
}

_warmgate_helper() {
    local word=${COMP_WORDS[COMP_CWORD]} options
    case $word in
    -*)
        # The command is what is typed, so that a checkout's own helper is asked.
        options=$("${COMP_WORDS[0]}" --help 2>/dev/null | grep -oE -- '--[a-z][a-z-]*' | sort -u)
        mapfile -t COMPREPLY < <(compgen -W "$options" -- "$word")
        ;;
    *) mapfile -t COMPREPLY < <(compgen -f -- "$word") ;;
    esac
}

complete -o filenames -F _warmgate warmgate ./warmgate
for _warmgate_name in adapt diff explain look plan record tally timeline why; do
    complete -o filenames -F _warmgate_helper "warmgate-$_warmgate_name" "tools/$_warmgate_name"
done
unset _warmgate_name
