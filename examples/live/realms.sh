# shellcheck shell=bash
# Two realms that both are 10.0.0.0/24, as network namespaces, and the gateway between them. To be sourced, by root. All that is
# made is taken away when the shell ends, also when it is interrupted.

here="$(cd "$(dirname "${BASH_SOURCE[0]}")" && pwd)"
top="$(cd "$here/../.." && pwd)"
program="${PROGRAM:-}"
left="left-$$" right="right-$$"
work="$(mktemp -d)"
started=() made=() pump=

in_left() { ip netns exec "$left" "$@"; }
in_right() { ip netns exec "$right" "$@"; }

# Ends what was started, the last first, and removes the namespaces and files.
take_away() {
    local i
    trap '' INT TERM
    for ((i = ${#started[@]} - 1; i >= 0; i--)); do kill "${started[i]}" 2>/dev/null; done
    wait 2>/dev/null
    for i in "${made[@]}"; do
        for id in $(ip netns pids "$i"); do kill "$id" 2>/dev/null; done
        ip netns del "$i"
        rm -rf "/etc/netns/$i"
    done
    rmdir /etc/netns 2>/dev/null
    rm -rf "$work"
}
trap take_away EXIT
trap 'exit 130' INT
trap 'exit 143' TERM

fail() { echo "$*" >&2; exit 1; }

# Runs words in the background, to be ended with the shell; what they say goes into a file of $work.
start() {
    local log="$work/$1"
    shift
    : >"$log"
    "$@" >"$log" 2>&1 &
    started+=("$!")
}

# Ends where one of these programs isn't there.
need() {
    local word
    for word in "$@"; do command -v "$word" >/dev/null || fail "this needs $word"; done
}

make_realms() {
    local realm
    [ "$(id -u)" = 0 ] || fail "this needs root: it makes network namespaces"
    [ -n "$program" ] || program="$("$top/rendapil" --program)" || fail "the program could not be built"
    [ -x "$program" ] || fail "$program isn't there"
    for realm in "$left" "$right"; do
        ip netns add "$realm"
        made+=("$realm")
        ip -n "$realm" link set lo up
        # No IPv6. And a server whose queue is full must not answer by cookies: where the client's acknowledgement is lost then,
        # the server never knows of the connection.
        ip netns exec "$realm" sh -c 'cd /proc/sys/net && echo 1 >ipv6/conf/all/disable_ipv6 &&
            echo 1 >ipv6/conf/default/disable_ipv6 && echo 0 >ipv4/tcp_syncookies'
    done
}

# Starts the pump with the words given, and waits until it is live.
start_pump() {
    start pump python3 "$here/pump.py" --queue 1000 "$@" "$program" "$here/settings.toml" "tun:realm0@$left" "tun:realm0@$right"
    pump="${started[-1]}"
    until grep -qx live "$work/pump"; do
        kill -0 "$pump" 2>/dev/null || fail "$(cat "$work/pump")"
        sleep 0.1
    done
}

# The pump ends the captures, and the program ends by itself.
end_pump() {
    kill "$pump"
    wait "$pump"
}

# Hosts and the route to the pool, in each realm. 10.0.0.5 is a host of both.
add_hosts() {
    local host
    for host in 5 6 8; do ip -n "$left" address add "10.0.0.$host/32" dev realm0; done
    ip -n "$left" route add 192.168.200.0/24 dev realm0 src 10.0.0.5
    for host in 5 7 53 77; do ip -n "$right" address add "10.0.0.$host/32" dev realm0; done
    ip -n "$right" route add 172.16.9.0/24 dev realm0 src 10.0.0.5
}
