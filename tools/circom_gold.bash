# Completes the words of circom_gold in bash. Read it once a shell, as in ~/.bashrc:
#
#     . FOLDER/tools/circom_gold.bash

# The files whose names end so, and folders.
_circom_gold_files() {
    local word=$1 ending
    shift
    COMPREPLY=($(compgen -d -- "$word"))
    for ending in "$@"; do
        COMPREPLY+=($(compgen -f -X "!*$ending" -- "$word"))
    done
    compopt -o filenames 2> /dev/null
}

_circom_gold() {
    local IFS=$'\n'
    local word=${COMP_WORDS[COMP_CWORD]} before=${COMP_WORDS[COMP_CWORD - 1]}
    local commands='check compile witness prove public audit sym batch determine confirm generate'
    local command=${COMP_WORDS[1]} levels='--O0 --O1 --O2 -l' options place=0 at
    COMPREPLY=()
    if [ "$COMP_CWORD" -eq 1 ]; then
        COMPREPLY=($(IFS=' ' compgen -W "$commands --version" -- "$word"))
        return
    fi
    case $before in
        -l) _circom_gold_files "$word"; return ;;
        --proof) COMPREPLY=($(IFS=' ' compgen -W '1 2' -- "$word")); return ;;
        --sym) _circom_gold_files "$word" .sym; return ;;
        --workers | --fuel | --seed) return ;;
    esac
    case $command in
        check) options='--sym' ;;
        compile | sym) options=$levels ;;
        witness | batch) options="$levels --workers --fuel" ;;
        generate) options='--workers --fuel' ;;
        prove) options='--seed --proof' ;;
    esac
    if [[ $word == -* ]]; then
        COMPREPLY=($(IFS=' ' compgen -W "$options" -- "$word"))
        return
    fi
    # Which of the command's files this word is, from 1; options and their values aren't counted.
    for ((at = 2; at <= COMP_CWORD; at++)); do
        case ${COMP_WORDS[at - 1]} in
            -l | --sym | --proof | --workers | --fuel | --seed) continue ;;
        esac
        case ${COMP_WORDS[at]} in
            -?*) ;;
            *) place=$((place + 1)) ;;
        esac
    done
    case $command.$place in
        compile.1 | witness.1 | sym.1 | batch.1) _circom_gold_files "$word" .circom ;;
        witness.2 | audit.2) _circom_gold_files "$word" .json ;;
        check.1 | prove.1 | public.1 | audit.1 | determine.1 | confirm.1)
            _circom_gold_files "$word" .r1cs ;;
        check.2 | prove.2 | public.2) _circom_gold_files "$word" .wtns ;;
        generate.*) ;;
        *) COMPREPLY=($(compgen -f -- "$word")); compopt -o filenames 2> /dev/null ;;
    esac
}

complete -F _circom_gold circom_gold
