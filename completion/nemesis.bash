# Completion for bash, made by .ci/pages:  . completion/nemesis.bash

_nemesis_words() {
    local word=${COMP_WORDS[COMP_CWORD]} words="--cells --eager"
    [ "$COMP_CWORD" != 1 ] || words="run trace flood plain check parts multi --cells --eager"
    mapfile -t COMPREPLY < <(compgen -W "$words" -- "$word")
}
complete -o default -F _nemesis_words nemesis ./nemesis

_chart_words() {
    local word=${COMP_WORDS[COMP_CWORD]} words="--html --from --to --ranks --of --cells --eager"
    [ "$COMP_CWORD" != 1 ] || words="check --html --from --to --ranks --of --cells --eager"
    mapfile -t COMPREPLY < <(compgen -W "$words" -- "$word")
}
complete -o default -F _chart_words chart ./chart

_outcomes_words() {
    local word=${COMP_WORDS[COMP_CWORD]} words="--cells --eager --trace --among --hangs"
    [ "$COMP_CWORD" != 1 ] || words="--trace --among --cells --eager --hangs"
    mapfile -t COMPREPLY < <(compgen -W "$words" -- "$word")
}
complete -o default -F _outcomes_words outcomes ./outcomes

_verdict_words() {
    local word=${COMP_WORDS[COMP_CWORD]} words="--cells --eager"
    mapfile -t COMPREPLY < <(compgen -W "$words" -- "$word")
}
complete -o default -F _verdict_words verdict ./verdict

_lawful_words() {
    local word=${COMP_WORDS[COMP_CWORD]} words="--cut"
    mapfile -t COMPREPLY < <(compgen -W "$words" -- "$word")
}
complete -o default -F _lawful_words lawful ./lawful

_why_words() {
    local word=${COMP_WORDS[COMP_CWORD]} words="--cells --eager"
    mapfile -t COMPREPLY < <(compgen -W "$words" -- "$word")
}
complete -o default -F _why_words why ./why

_ways_words() {
    local word=${COMP_WORDS[COMP_CWORD]} words="--cells --eager"
    mapfile -t COMPREPLY < <(compgen -W "$words" -- "$word")
}
complete -o default -F _ways_words ways ./ways
