# Completion of icinga_site's words for bash: source this file, or put it into
# /usr/share/bash-completion/completions/icinga_site.
_icinga_site() {
    local word=${COMP_WORDS[COMP_CWORD]} at told=() options=" --log --workers --recur --quiet "
    case ${COMP_WORDS[COMP_CWORD - 1]} in
    --log)
        mapfile -t COMPREPLY < <(compgen -W "1 2" -- "$word")
        return
        ;;
    --workers)
        mapfile -t COMPREPLY < <(compgen -W "1 2 4 8 16 32 64" -- "$word")
        return
        ;;
    esac
    # The words so far, without the options and their numbers, which may stand before or after the others, each once. Where --log stands
    # before them, they are those of replay, daemon or resume, and where --recur does, of the first two.
    for ((at = 1; at < COMP_CWORD; at++)); do
        case ${COMP_WORDS[at]} in
        --log | --workers)
            options=${options/ ${COMP_WORDS[at]} / }
            at=$((at + 1))
            ;;
        --recur | --quiet) options=${options/ ${COMP_WORDS[at]} / } ;;
        *) told+=("${COMP_WORDS[at]}") ;;
        esac
    done
    COMPREPLY=()
    case "${#told[@]} ${told[0]-} $options" in
    "0   --log --workers --recur --quiet ") mapfile -t COMPREPLY < <(compgen -W "check objects replay daemon query keep audit resume gen $options --help --version" -- "$word") ;;
    "0 "*" --log "*"--recur "*) mapfile -t COMPREPLY < <(compgen -W "check objects replay daemon query keep audit resume gen $options" -- "$word") ;;
    "0 "*" --recur "*) mapfile -t COMPREPLY < <(compgen -W "replay daemon resume $options" -- "$word") ;;
    "0 "*) mapfile -t COMPREPLY < <(compgen -W "replay daemon $options" -- "$word") ;;
    "1 check "* | "1 objects "* | "1 replay "* | "1 daemon "* | "1 query "* | "1 keep "* | "1 audit "* | "1 resume "*) mapfile -t COMPREPLY < <(compgen -f -- "$word") ;;
    "2 replay "* | "2 query "* | "2 keep "* | "2 audit "* | "3 query "* | "2 resume "* | "3 resume "*) mapfile -t COMPREPLY < <(compgen -f -- "$word") ;;
    "2 daemon "*) mapfile -t COMPREPLY < <(compgen -W "$options" -- "$word"; compgen -f -- "$word") ;;
    "3 replay "* | "3 daemon "*) mapfile -t COMPREPLY < <(compgen -W "$options" -- "$word") ;;
    "4 resume "*) mapfile -t COMPREPLY < <(compgen -W "${options/ --recur / }" -- "$word") ;;
    "2 check "* | "2 objects "* | "2 gen "* | "4 query "* | "3 keep "* | "3 audit "*)
        options=${options/ --log / }
        mapfile -t COMPREPLY < <(compgen -W "${options/ --recur / }" -- "$word")
        ;;
    esac
}
complete -o filenames -F _icinga_site icinga_site
