# readme.sh BUILD: what README.md tells a newcomer to type: controller at the other end of one line, or of two, and tha-gateway with
# example.table.
set -eu
build=$1
runs=$(mktemp -d)
gateway=
controller=
panel=
trap 'for pid in $gateway $controller $panel; do kill -s KILL "$pid"; done; rm -rf "$runs"' EXIT

# Waits until a test holds, for half a minute at most.
until_holds() {
    tries=0
    until test "$@"; do
        tries=$((tries + 1))
        if [ "$tries" -gt 300 ]; then
            echo "readme.sh: never came about: $*" >&2
            exit 1
        fi
        sleep 0.1
    done
}

# Types 000's Request on a line, and waits for a reply. The process is $!.
ask() {
    : > "$runs/$1.replies"
    {
        echo "ca 09 06 01 1f 01 00 00 01 00 00 00 31 35"
        until_holds -s "$runs/$1.replies"
    } | "$build/controller" "$runs/$1" > "$runs/$1.replies" &
    until_holds -e "$runs/$1"
}

# The reply has come, and the link is gone.
check() {
    if [ "$(cat "$runs/$1.replies")" != "ca 09 06 04 1f 01 00 00 01 00 0b 00 3f 35" ]; then
        echo "readme.sh: the reply on the $1 is '$(cat "$runs/$1.replies")'" >&2
        exit 1
    fi
    if [ -L "$runs/$1" ]; then
        echo "readme.sh: controller leaves its link" >&2
        exit 1
    fi
}

end_gateway() {
    kill "$gateway"
    wait "$gateway"
    gateway=
}

ask line
controller=$!
"$build/tha-gateway" "$runs/line" example.table 2> "$runs/log" &
gateway=$!
wait "$controller"
controller=
end_gateway
check line

ask line
controller=$!
ask panel
panel=$!
"$build/tha-gateway" --panel "$runs/panel" "$runs/line" example.table 2> "$runs/log" &
gateway=$!
wait "$controller"
controller=
wait "$panel"
panel=
end_gateway
check line
check panel

# Ctrl-C, while the input is open.
mkfifo "$runs/typed"
exec 3<> "$runs/typed"
for name in INT TERM; do
    "$build/controller" "$runs/line" < "$runs/typed" > "$runs/replies" &
    controller=$!
    until_holds -L "$runs/line"
    kill -s "$name" "$controller"
    until_holds ! -L "$runs/line"
    wait "$controller"
    controller=
done
echo "readme.sh: the README's exchanges work, signals end controller and take its link away"
