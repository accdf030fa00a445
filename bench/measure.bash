# Read by run and listing: what the program `speed` of each side in `programs` needs on a plan. `sides` has those that are measured.

# What a side writes of so many rounds on a plan: came_to SIDE PLAN ROUNDS
came_to() {
    printf '%s %s\n' "$2" "$3" | "${programs[$1]}"
}

nanoseconds() {
    local begun=$EPOCHREALTIME ended
    came_to "$@" >/dev/null
    ended=$EPOCHREALTIME
    echo $(((${ended/./} - ${begun/./}) * 1000))
}

instructions() {
    printf '%s %s\n' "$2" "$3" | valgrind --tool=callgrind --trace-children=yes --callgrind-out-file=/dev/null "${programs[$1]}" 2>&1 >/dev/null |
        sed -n 's/.*Collected : *//p'
}

# What each side needs for so many rounds more than one, the least of so many trials: measure MEASURE PLAN ROUNDS TRIALS
measure() {
    local side i taken
    local -A one=() more=()
    for ((i = 0; i < $4; i++)); do
        for side in "${sides[@]}"; do
            taken=$("$1" "$side" "$2" 1)
            ((taken >= ${one[$side]:-taken + 1})) || one[$side]=$taken
            taken=$("$1" "$side" "$2" $((1 + $3)))
            ((taken >= ${more[$side]:-taken + 1})) || more[$side]=$taken
        done
    done
    for side in "${sides[@]}"; do
        needed[$side]=$((more[$side] - one[$side]))
    done
}

# What it is measured on: machine VERSIONS..
machine() {
    local model
    model=$(sed -n 's/^model name[^:]*: //p' /proc/cpuinfo | head -n 1)
    [ -n "$model" ] || model=$(lscpu | sed -n 's/^Model name: *//p' | head -n 1)
    printf '%s, %s' "$(uname -m)" "$model"
    printf ', %s' "$@" "$(rt version)"
    printf '\n'
}
