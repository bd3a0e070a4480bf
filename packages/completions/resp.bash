# Completions of resp for bash. tools/completions writes this file from the help.
_resp() {
    local word=${COMP_WORDS[COMP_CWORD]} before=${COMP_WORDS[COMP_CWORD - 1]} command=${COMP_WORDS[1]-} options
    local commands="show check canon loop serve tap proxy ask help"
    COMPREPLY=()
    if [ "$COMP_CWORD" -eq 1 ]; then
        COMPREPLY=($(compgen -W "$commands -h --help -V --version" -- "$word"))
        return
    fi
    case $before in
    --record | --replay) compopt -o filenames && COMPREPLY=($(compgen -f -- "$word")) && return ;;
    --color) COMPREPLY=($(compgen -W "auto always never" -- "$word")) && return ;;
    --proto) COMPREPLY=($(compgen -W "2 3" -- "$word")) && return ;;
    --also | --check-every | --client | --client-buffer | --client-buffer-limit | --command | --cut | --depth | \
        --drain-timeout | --items | --key | --length | --max-clients | --max-dedicated | --max-shared | --piece | \
        --pipeline | --port | --report | --server-buffer | --server-timeout | --shown | --slower | --stats-every | \
        --timeout | --torture | --total | --user | --window) return ;;
    esac
    case $command in
    show)
        options="--proto -2 -3 --doubles --color --utf8 --json --explain --no-explain -h --help --depth --length --total \
            --items --no-streamed --piece"
        ;;
    check)
        options="--proto -2 -3 --doubles --explain --no-explain -h --help --depth --length --total --items --no-streamed \
            --piece"
        ;;
    canon)
        options="--proto -2 -3 --doubles --explain --no-explain -h --help --depth --length --total --items --no-streamed \
            --piece"
        ;;
    loop)
        options="--explain --no-explain -h --help"
        ;;
    serve)
        options="--test-server --torture -h --help --max-clients --drain-timeout --client-buffer --depth --length --total \
            --items --no-streamed"
        ;;
    tap)
        options="--stats --stats-every --time --date --connections --json --color --utf8 --shown --show-passwords -h \
            --help --errors --slower --command --key --client --record --replay --port --max-clients --drain-timeout \
            --no-inline --exit-with-output --keep-going --cut --depth --length --total --items --no-streamed"
        ;;
    proxy)
        options="--server-timeout --report --drain --drain-timeout --local-ping --also --learn --no-inline --check-every \
            -h --help --check --all --max-clients --max-dedicated --max-shared --pipeline --client-buffer \
            --client-buffer-limit --server-buffer --depth --length --total --items --no-streamed"
        ;;
    ask)
        options="-3 --user --window --timeout --raw --count --color --utf8 --json -h --help --depth --length --total \
            --items --no-streamed"
        ;;
    help) [ "$COMP_CWORD" -ne 2 ] || COMPREPLY=($(compgen -W "$commands" -- "$word")) ;;
    esac
    case $word in
    -*) COMPREPLY=($(compgen -W "${options-}" -- "$word")) ;;
    *)
        case $command in
        show | check | canon | loop | tap | proxy) compopt -o filenames && COMPREPLY=($(compgen -f -- "$word")) ;;
        esac
        ;;
    esac
}
complete -F _resp resp
