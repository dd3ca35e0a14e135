#!/usr/bin/env bash
# Installs the Debian packages that some tests need: aiohttp, hypothesis, a browser and its driver for the
# gateway's page, black, mypy and node for how code is written, mmdebstrap and lintian for the package, and
# compilers and valgrind for the library for C. It waits while another process installs packages. Where they can't
# be installed (no network, no root, no Debian) it says so and ends with status 0: the tests that need them say that
# they were skipped.
set -u
PACKAGES="python3-aiohttp python3-hypothesis python3-selenium chromium chromium-driver"
PACKAGES="$PACKAGES black mypy nodejs mmdebstrap lintian gcc g++ valgrind rustc"
WAIT=300 # seconds for the lock of the package manager

missing() {
    for package in $PACKAGES; do
        dpkg-query --show --showformat='${db:Status-Status}\n' "$package" 2> /dev/null \
            | grep -qx installed || echo "$package"
    done
}

install() {
    apt-get install --yes --no-install-recommends --option "DPkg::Lock::Timeout=$WAIT" $PACKAGES
}

# Debian's packages are for Debian's python3, and the page is run by the python3 of the path.
check_interpreter() {
    path=$(command -v python3) || return
    if ! "$path" -c 'import aiohttp' 2> /dev/null; then
        echo "install_debian.sh: $path has no aiohttp, so start the page by /usr/bin/python3," \
            "or: $path -m pip install aiohttp" >&2
    fi
}

if ! command -v apt-get > /dev/null; then
    echo "install_debian.sh: no apt-get here: $PACKAGES are not installed" >&2
    exit 0
fi
if [ -z "$(missing)" ]; then
    echo "install_debian.sh: $PACKAGES are installed"
    check_interpreter
    exit 0
fi
export DEBIAN_FRONTEND=noninteractive
log=$(mktemp)
if install > "$log" 2>&1 || { apt-get update >> "$log" 2>&1; install >> "$log" 2>&1; }; then
    echo "install_debian.sh: $PACKAGES are installed"
else
    tail -n 3 "$log" >&2
    echo "install_debian.sh: not installed: $(missing | tr '\n' ' ')" >&2
fi
rm -f "$log"
check_interpreter
exit 0
