#!/bin/sh
# Four clients of each of two tenants put, get and search at once, where room is scarce, and their answers are settled.
# usage: examples/load.sh     takes the program that is built, the proved one first, and builds none
top=$(dirname "$(readlink -f "$0")")/..
case ${1-} in
    '') ;;
    -h | --help)
        sed -n '2,3s/^# //p' "$0"
        exit
        ;;
    *)
        echo "load.sh: no arguments are expected, and \"$1\" is one" >&2
        exit 2
        ;;
esac
for program in "$top/crates/ramp/out/ramp" "$top/.tried/ramp"; do
    [ ! -x "$program" ] || exec "$program" load --keep 1 --every 1 --slots 16 --keys 4 t u
done
echo 'load.sh: no program is built; ./try --where builds one unverified in a minute or two, ./ramp --where the proved one in some 30 minutes' >&2
exit 125
