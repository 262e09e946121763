# Completion of the launchers snet, draw, records, explain and drive for bash: source completions/snet.bash

# Offers files whose names end so, and folders.
_snet_files() {
    local word=$1 ending=$2
    mapfile -t COMPREPLY < <(
        compgen -f -X "!*$ending" -- "$word"
        compgen -d -S / -- "$word"
    )
}

_snet_words() {
    mapfile -t COMPREPLY < <(compgen -W "$2" -- "$1")
}

# The command among the words, which is the first that is no option of the launcher, and how many words stand behind it.
_snet_command() {
    local at
    for ((at = 1; at < COMP_CWORD; at++)); do
        case ${COMP_WORDS[at]} in
        --try | --explain) ;;
        *)
            printf '%s %s' "${COMP_WORDS[at]}" $((COMP_CWORD - at))
            return
            ;;
        esac
    done
}

_snet() {
    local word=${COMP_WORDS[COMP_CWORD]} command behind
    read -r command behind < <(_snet_command)
    case $command,$word in
    ,-*) _snet_words "$word" '--try --explain --help' ;;
    ,*) _snet_words "$word" 'run once feed check print plan trace replay sample' ;;
    run,-*) _snet_words "$word" '--workers --fuel --depth --queue --plan' ;;
    trace,-*) _snet_words "$word" '--workers --fuel --depth --queue' ;;
    feed,-*) _snet_words "$word" '--batch --fuel --depth' ;;
    once,-* | replay,-*) _snet_words "$word" '--fuel --depth' ;;
    run,* | once,* | feed,* | trace,* | replay,*)
        if ((behind == 1)); then
            _snet_files "$word" .snet
        else
            _snet_files "$word" ''
        fi
        ;;
    check,* | print,* | plan,*) _snet_files "$word" .snet ;;
    esac
}

_snet_draw() {
    local word=${COMP_WORDS[COMP_CWORD]}
    case $word in
    -*) _snet_words "$word" '--claim --plan --help --version --try' ;;
    *) _snet_files "$word" .snet ;;
    esac
}

_snet_records() {
    _snet_words "${COMP_WORDS[COMP_CWORD]}" 'from-json to-json --help --version --try'
}

_snet_explain() {
    local word=${COMP_WORDS[COMP_CWORD]}
    case $word,$COMP_CWORD in
    -*) _snet_words "$word" '--help --version --try' ;;
    *,1) _snet_files "$word" .snet ;;
    *) _snet_files "$word" '' ;;
    esac
}

_snet_drive() {
    local word=${COMP_WORDS[COMP_CWORD]}
    case $word,$COMP_CWORD in
    -*) _snet_words "$word" '--count --steps' ;;
    *,1) _snet_words "$word" 'next late reverse shuffled --count --steps' ;;
    *,2) _snet_files "$word" .snet ;;
    *) _snet_files "$word" '' ;;
    esac
}

complete -o filenames -F _snet snet ./snet
complete -o filenames -F _snet_draw draw ./draw
complete -o filenames -F _snet_records records ./records
complete -o filenames -F _snet_explain explain ./explain
complete -o filenames -F _snet_drive drive ./drive
