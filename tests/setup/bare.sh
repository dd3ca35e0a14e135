#!/bin/sh
# Runs in a bare Debian, as root: installs the package /root/package.deb, uses what it brings, and removes it.
#
# Each step's output goes into /root/told/STEP, and its status into /root/told/STEP.status; test_bare.py judges them.
export LC_ALL=C.UTF-8 DEBIAN_FRONTEND=noninteractive
told=/root/told
examples=/usr/share/estserve/examples
mkdir "$told"

step() {
    name=$1
    shift
    "$@" > "$told/$name" 2>&1 < /dev/null
    echo $? > "$told/$name.status"
}

files() {
    find / -xdev \( -path /proc -o -path /sys -o -path /dev -o -path /root -o -path /tmp -o -path /run \) -prune -o -print | sort
}

as_team="setpriv --reuid=estserve-main --regid=estserve-main --init-groups"
as_page="setpriv --reuid=estserve-page-main --regid=estserve-page-main --init-groups"

# The words of a unit of the team main.
words_of() {
    sed -n 's/^ExecStart=//p' "/usr/lib/systemd/system/$1@.service" | sed 's/%i/main/g'
}

# Waits until a line of a file begins or goes on so.
wait_for() {
    for _ in $(seq 600); do
        grep -qs "$1" "$2" && return
        kill -0 "$3" || return
        sleep 0.1
    done
}

# The gateway and its page, by the words of their units; until a client has been served.
serve_login() {
    state=/var/lib/estserve/main
    install -d -o estserve-main -g estserve-main -m 750 "$state"
    $as_team env STATE_DIRECTORY="$state" TEAM_WORDS= sh -c "exec $(words_of estserve-team)" > /tmp/gateway 2>&1 &
    gateway=$!
    wait_for '^ready: ' /tmp/gateway $gateway
    $as_page env PAGE_WORDS='--http 127.0.0.1:0' sh -c "exec $(words_of estserve-page)" > /tmp/page 2>&1 &
    page=$!
    wait_for 'the page is at' /tmp/page $page
    echo 'adduser ann' | $as_team estserve-client shell --socket "$state/team.sock"
    served=$?
    place=$(sed -n 's/.*the page is at \(http[^,]*\),.*/\1/p' /tmp/page)
    python3 -c 'import sys, urllib.request as u; print("page", u.urlopen(sys.argv[1]).status)' "$place"
    kill -TERM $page
    wait $page
    echo "page's process $?"
    kill -TERM $gateway
    wait $gateway
    echo "gateway $?"
    cat /tmp/gateway /tmp/page
    return $served
}

step before files
step install apt-get install --yes /root/package.deb
step program_version estserve --version
step client_version estserve-client --version
step proof estserve-client proof
step abro estserve-client run $examples/abro/abro.strl --inputs $examples/abro/abro.inputs --wave
step lab sh -c 'command -v estlab || echo none'
step prove estserve-client prove $examples/abro
step login serve_login
step units systemd-analyze verify --man=no estserve-team@main.service estserve-page@main.service estserve@main.service
step import /usr/bin/python3 -c 'import estserve; print(estserve.__version__)'
step remove apt-get purge --yes "$(dpkg-deb --field /root/package.deb Package)"
step after files
