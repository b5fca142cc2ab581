# Completes the arguments of wat_tokens in bash.

_wat_tokens() {
    local current=${COMP_WORDS[COMP_CWORD]} previous=${COMP_WORDS[COMP_CWORD - 1]} command= word words
    local options='--json --file --allow-confusing --strict-underscores --help --version -h -V'
    for word in "${COMP_WORDS[@]:1:COMP_CWORD - 1}"; do
        case $word in
            list | sig | play | blank | fmt | module | types | help) command=${command:-$word} ;;
        esac
    done
    case $command in
        '') words="$options list sig play blank fmt module types help" ;;
        fmt) words="$options --check --diff --write" ;;
        module) words="$options -o --output --no-names --no-validate" ;;
        types) words="$options -o --output" ;;
        play) words='look take comment reg= unreg= parens=' ;;
        sig | help) words= ;;
        *) words=$options ;;
    esac
    COMPREPLY=()
    case $previous in
        --file | -o | --output) ;;
        *) mapfile -t COMPREPLY < <(compgen -W "$words" -- "$current") ;;
    esac
    # (without a match here, -o default completes names of files)
}

complete -o default -F _wat_tokens wat_tokens
