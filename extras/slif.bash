# Completions of slif, slif_show, slif_glades and slif_lint for bash. extras/install puts this file where bash-completion looks; anywhere else, source it.

# The options that a job takes.
_slif_options() {
    case $1 in
        run) echo '--grammar --input --first --rank --show --stats' ;;
        check) echo '--grammar' ;;
        expect | glades) echo '--grammar --input' ;;
        progress) echo '--grammar --input --at' ;;
        work) echo '--size' ;;
        script) echo '--input' ;;
        more) echo '--grammar --input --after --first --rank --show' ;;
        slip) echo '--grammar --input --give --first --rank --show' ;;
    esac
}

_slif() {
    local word=${COMP_WORDS[COMP_CWORD]} before=${COMP_WORDS[COMP_CWORD - 1]}
    # `--rank=high` reaches this function as three words.
    if [[ $word == '=' ]]; then
        word=''
    elif [[ $before == '=' ]]; then
        before=${COMP_WORDS[COMP_CWORD - 2]}
    fi
    # What stands before the cursor: the job, the options, and whether `--` has ended them. An option's value is none of these.
    local job='' given='' ended='' last='' other
    for other in "${COMP_WORDS[@]:1:COMP_CWORD - 1}"; do
        case $last:$other in
            *:=) continue ;;
            --grammar:* | --input:* | --first:* | --rank:* | --show:* | --at:* | --size:* | --after:* | --give:*) other='' ;;
            *:--) ended=1 ;;
            *:--*) given+=" $other" ;;
            *:run | *:check | *:expect | *:progress | *:work | *:script | *:more | *:slip | *:glades) job=$other ;;
        esac
        last=$other
    done
    COMPREPLY=()
    case $ended:$before in
        :--grammar | :--input)
            compopt -o filenames 2>/dev/null
            mapfile -t COMPREPLY < <(compgen -f -- "$word")
            return
            ;;
        :--rank)
            mapfile -t COMPREPLY < <(compgen -W 'none rule high' -- "$word")
            return
            ;;
        :--show)
            mapfile -t COMPREPLY < <(compgen -W 'array tree' -- "$word")
            return
            ;;
        :--first | :--at | :--size | :--after | :--give) return ;;
    esac
    # The jobs that take all options given, and the options that one of them takes and that are not given.
    local jobs='' left=' ' options fits
    for other in ${job:-run check expect progress work script more slip glades}; do
        options=" $(_slif_options "$other") "
        fits=1
        for last in $given; do
            [[ $options == *" $last "* ]] || fits=''
        done
        if [[ $fits ]]; then
            jobs+=" $other"
            for last in $options; do
                [[ " $given $left" == *" $last "* ]] || left+="$last "
            done
        fi
    done
    [[ $job ]] && jobs=''
    [[ $ended ]] && left=''
    mapfile -t COMPREPLY < <(compgen -W "$jobs $left" -- "$word")
}

_slif_show() {
    COMPREPLY=()
    if ((COMP_CWORD == 1)); then
        mapfile -t COMPREPLY < <(compgen -W '--json --dot --svg --diff --rules' -- "${COMP_WORDS[1]}")
    fi
}

# Each option of slif_glades stands once.
_slif_glades() {
    local word=${COMP_WORDS[COMP_CWORD]} left='' option
    COMPREPLY=()
    case ${COMP_WORDS[COMP_CWORD - 1]} in
        --grammar | --input)
            compopt -o filenames 2>/dev/null
            mapfile -t COMPREPLY < <(compgen -f -- "$word")
            return
            ;;
    esac
    for option in --grammar --input --all; do
        [[ " ${COMP_WORDS[*]:1:COMP_CWORD - 1} " == *" $option "* ]] || left+=" $option"
    done
    mapfile -t COMPREPLY < <(compgen -W "$left" -- "$word")
}

_slif_lint() {
    COMPREPLY=()
    if ((COMP_CWORD == 1)); then
        mapfile -t COMPREPLY < <(compgen -W --grammar -- "${COMP_WORDS[1]}")
    elif ((COMP_CWORD == 2)); then
        compopt -o filenames 2>/dev/null
        mapfile -t COMPREPLY < <(compgen -f -- "${COMP_WORDS[2]}")
    fi
}

complete -F _slif slif
complete -F _slif_show slif_show
complete -F _slif_glades slif_glades
complete -F _slif_lint slif_lint
