# What ./ramp and ./try answer without the program: its help and version, as docs/help has them, and what is wrong with a command line.
# Nothing is refused here that the program accepts. `tools/service-test` compares both.

help=$top/docs/help

# Prints one sentence and exits as the program does for a wrong command line.
refuse() {
    echo "ramp: Options: $1" >&2
    exit 2
}

# Prints one of the texts, and exits as the program does.
print_text() {
    cat "$help/$1.txt" 2>/dev/null && exit
    echo 'ramp: Device' >&2
    exit 4
}

# Whether the word is a tenant's name.
is_name() {
    [[ $1 =~ ^[a-z0-9_]{1,16}$ ]]
}

# Reads the options of a command from its help: `takes` has each option, with `flag` or its range, "LEAST MOST".
read_options() {
    local line range=' ([0-9]+) to ([0-9]+)([; ].*)?$' option='^ +--([a-z]+)( <[A-Z]+>)?  '
    while IFS= read -r line; do
        if [[ $line =~ $option ]]; then
            local name=${BASH_REMATCH[1]} value=${BASH_REMATCH[2]}
            takes[$name]=any
            if [ -z "$value" ]; then takes[$name]=flag; fi
            order+=" --$name"
        fi
        if [[ $line =~ $range && ${takes[${name-none}]-} = any ]]; then takes[$name]="${BASH_REMATCH[1]} ${BASH_REMATCH[2]}"; fi
    done <"$1"
}

# Refuses the value of an option where it is no number, or out of the range of the option.
check_value() {
    local option=$1 value=$2 least most digits
    read -r least most <<<"${takes[$option]}"
    if [ "$least" = any ]; then return; fi
    [[ $value =~ ^[+-]?0*([0-9]+)$ ]] || refuse "--$option takes a number from $least to $most, and \"$value\" is none"
    digits=${BASH_REMATCH[1]}
    if [[ $value = -* ]] && [ "$digits" != 0 ] || [ "${#digits}" -gt 10 ] || ((digits < least || digits > most)); then
        refuse "--$option takes a number from $least to $most, and $value is out of range"
    fi
}

# Refuses these names of tenants where one is no name or comes twice, or where there are none, or more than 64.
check_tenants() {
    local name
    local -A seen=()
    for name; do
        is_name "$name" || refuse "\"$name\" is no tenant's name: 1 to 16 characters of a-z, 0-9 and _"
        [ -z "${seen[$name]-}" ] || refuse "tenant $name is named twice"
        seen[$name]=1
    done
    [ $# -gt 0 ] || refuse "no tenant is named; for example: ramp $command t"
    [ $# -le 64 ] || refuse "$# tenants are named, and a store has at most 64"
}

# Refuses more seats of a load than its tenants have clients.
check_seats() {
    local seats=${given[seats]-4} clients=${given[clients]-16}
    [ "$command" = load ] || return 0
    ((10#${seats#+} <= 10#${clients#+})) || refuse "--seats is $seats and --clients $clients: each seat is a client of its own"
}

# Refuses a server that is to record nothing and to have epochs checked.
check_record() {
    local epoch=${given[epoch]-0}
    [ -z "${given[unrecorded]-}" ] || ((10#${epoch#[+-]} == 0)) ||
        refuse "--unrecorded and --epoch $epoch exclude each other: a server that records nothing has no epochs to check"
}

# Answers help, or exits with what is wrong with the words of a command.
answer_command() {
    local command=$1 word option has_value
    local -A takes=() given=()
    local order= tenants=()
    shift
    read_options "$help/$command.txt"
    while [ $# -gt 0 ]; do
        word=$1
        shift
        case $word in
            -h | --help) print_text "$command" ;;
            --)
                tenants+=("$@")
                break
                ;;
            --*)
                option=${word#--} has_value=
                if [[ $option = *=* ]]; then has_value=1; fi
                option=${option%%=*}
                [ -n "$option" ] && [ -n "${takes[$option]-}" ] || refuse "ramp $command has no option --$option; it has$order"
                [ -z "${given[$option]-}" ] || refuse "--$option is given twice"
                given[$option]=yes
                if [ "${takes[$option]}" = flag ]; then
                    [ -z "$has_value" ] || refuse "--$option takes no value"
                elif [ -n "$has_value" ]; then
                    given[$option]=${word#*=}
                    check_value "$option" "${given[$option]}"
                else
                    [[ $# -gt 0 && $1 != -* ]] || refuse "--$option lacks its value"
                    check_value "$option" "$1"
                    given[$option]=$1
                    shift
                fi
                ;;
            -?*) refuse "ramp $command has no option $word; it has$order" ;;
            *) tenants+=("$word") ;;
        esac
    done
    if [ "$command" != cell ]; then
        check_tenants ${tenants+"${tenants[@]}"}
        check_seats
        check_record
    elif [ ${#tenants[@]} -gt 0 ]; then
        refuse "ramp cell names no tenant, and \"${tenants[0]}\" is one"
    fi
}

# Answers what follows `help`: nothing, or one command.
answer_help() {
    [ $# -gt 0 ] || print_text ramp
    [ $# -eq 1 ] || refuse "ramp help takes one command, and \"$2\" is one more"
    case $1 in
        cell | sim | serve | load | help) print_text "$1" ;;
        *) refuse "ramp has no command \"$1\"; it has cell, sim, serve and load" ;;
    esac
}

# Prints help or the version and exits, or exits with what is wrong with these words; returns where the program has to run.
answer() {
    case ${1-} in
        '') refuse 'no command; cell, sim, serve or load, and ramp --help says what they do' ;;
        -h | --help) print_text ramp ;;
        -V | --version) print_text version ;;
        cell | sim | serve | load) answer_command "$@" ;;
        help) answer_help "${@:2}" ;;
        -*) refuse "ramp has no option $1; ramp --help lists what it has" ;;
        *) refuse "ramp has no command \"$1\"; it has cell, sim, serve and load" ;;
    esac
}
