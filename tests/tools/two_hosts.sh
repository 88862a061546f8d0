#!/usr/bin/env bash
# Two machines for tests: network namespaces, each with an sshd and with a folder of its own hidden.
#
#     tests/tools/two_hosts.sh up FOLDER HIDDEN
#     tests/tools/two_hosts.sh cut FOLDER NAME
#     tests/tools/two_hosts.sh join FOLDER NAME
#     tests/tools/two_hosts.sh down FOLDER
#
# `up` makes the machines one and two, and writes into FOLDER what belongs to them. From then on
# `ssh -F FOLDER/config one` works; `refusing` is a machine on which no daemon listens. On one
# and two the folder HIDDEN is empty, and so they have a home of their own; all else they share with
# this one. Needs root, iproute2, openssh-server and the right to make namespaces; ends with status
# 3 where something of that isn't there. `cut` unplugs a machine's cable, and nobody finds a way to
# it any more; `join` plugs it in again. `down` ends the daemons by their numbers and takes the
# namespaces away. Several such pairs can stand side by side.
set -euo pipefail

lacking() { # WHAT
    echo "hosts: $1" >&2
    exit 3
}

keys() { # FOLDER
    local name
    for name in host user; do
        ssh-keygen -q -t ed25519 -N '' -f "$1/$name"
    done
    cp "$1/user.pub" "$1/known"
}

daemon_config() { # FOLDER NAME ADDRESS
    cat >"$1/$2.config" <<END_OF_FILE
Port 22
ListenAddress $3
HostKey $1/host
AuthorizedKeysFile $1/known
StrictModes no
PermitRootLogin yes
UsePAM no
PidFile none
END_OF_FILE
}

free_net() { # the begin of addresses that no interface has
    local number
    for number in {0..127}; do
        number=$((64 + ($$ + number) % 128))
        if [[ -z $(ip -4 addr show to "10.$number.0.0/16") ]]; then break; fi
    done
    echo "10.$number"
}

machine() { # FOLDER HIDDEN NAME NUMBER NET
    local space=$3.$$ line=$3.$$ net=$5.$4 address
    address=$net.2
    ip netns add "$space"
    echo "$space" >>"$1/spaces"
    ip link add "$line" type veth peer name end netns "$space"
    echo "$line" >"$1/$3.line"
    echo "$address" >"$1/$3.address"
    ip addr add "$net.1/24" dev "$line"
    ip link set "$line" up
    ip -n "$space" addr add "$address/24" dev end
    ip -n "$space" link set end up
    ip -n "$space" link set lo up
    daemon_config "$1" "$3" "$address"
    # shellcheck disable=SC2016 # these are words of the inner shell
    ip netns exec "$space" unshare -m bash -c '
        mount --make-rprivate / && mount -t tmpfs none "$2" && mount -t tmpfs none "$HOME" &&
            mkdir -p /run/sshd && exec /usr/sbin/sshd -D -e -f "$1"' \
        - "$1/$3.config" "$2" >"$1/$3.log" 2>&1 &
    echo $! >>"$1/daemons"
    printf 'Host %s\n HostName %s\n' "$3" "$address" >>"$1/config"
}

up() { # FOLDER HIDDEN
    local tries net
    if [[ $(id -u) -ne 0 ]]; then lacking 'only root may make network namespaces'; fi
    for tool in ip ssh ssh-keygen unshare /usr/sbin/sshd; do
        command -v "$tool" >/dev/null || lacking "there is no $tool"
    done
    ip netns add "try.$$" 2>/dev/null || lacking 'network namespaces are not allowed here'
    ip netns del "try.$$"
    mkdir -p "$1"
    chmod 700 "$1"
    keys "$1"
    net=$(free_net)
    machine "$1" "$2" one 1 "$net"
    machine "$1" "$2" two 2 "$net"
    printf 'Host refusing\n HostName 127.0.0.1\n Port 9\n' >>"$1/config"
    cat >>"$1/config" <<END_OF_FILE
Host *
 IdentityFile $1/user
 StrictHostKeyChecking no
 UserKnownHostsFile /dev/null
 LogLevel ERROR
END_OF_FILE
    for name in one two; do
        for tries in {1..600}; do
            if ssh -F "$1/config" "$name" true 2>/dev/null; then break; fi
            if [[ $tries -eq 600 ]]; then lacking "the machine $name doesn't answer"; fi
            sleep 0.1
        done
    done
}

down() { # FOLDER
    local number space file
    while read -r number; do kill "$number" || true; done <"$1/daemons"
    while read -r space; do ip netns del "$space" || true; done <"$1/spaces"
    for file in "$1"/*.line; do ip link del "$(<"$file")" 2>/dev/null || true; done
    for file in "$1"/*.address; do
        ip route del unreachable "$(<"$file")" 2>/dev/null || true
    done
}

case ${1-} in
    up) up "$(readlink -f "$2")" "$(readlink -f "$3")" ;;
    cut)
        ip link set "$(<"$2/$3.line")" down
        ip route add unreachable "$(<"$2/$3.address")"
        ;;
    join)
        ip route del unreachable "$(<"$2/$3.address")"
        ip link set "$(<"$2/$3.line")" up
        ;;
    down) down "$2" ;;
    *)
        sed -n '2,17s/^# \{0,1\}//p' "${BASH_SOURCE[0]}" >&2
        exit 2
        ;;
esac
