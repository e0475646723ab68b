#!/bin/sh
# Prints the Debian packages that the tests need and this machine lacks, one per line; the status is 1 if there are
# any. With --all, prints every package that the tests need. With --install, as root, installs the missing ones. A
# tool that was installed another way, such as cargo by rustup, counts as present. A test whose tool is missing is
# skipped, and named in a line 'skipped: NAME'.
set -u
cd "$(dirname "$0")/.." || exit 1

# Each package, with the command, the Python modules, the file, or the crate that shows that it is installed.
needs='
    gcc              command cc
    g++              command c++
    binutils         command objcopy
    make             command make
    pkg-config       command pkg-config
    valgrind         command valgrind
    perl-base        command perl
    bash             command bash
    zsh              command zsh
    mandoc           command mandoc
    man-db           command man
    cargo            command cargo
    rust-clippy      command cargo-clippy
    python3          modules sys
    python3-pytest   modules pytest, tomllib
    python3-flask    modules flask, waitress, pytest
    python3-waitress modules flask, waitress, pytest
    python3-selenium modules flask, waitress, pytest, selenium, PIL
    python3-pil      modules flask, waitress, pytest, selenium, PIL
    chromium         command chromium
    chromium-driver  command chromedriver
    nginx-light      command nginx
    openssl          command openssl
    systemd          command systemd-analyze
    fonts-dejavu-core  file /usr/share/fonts/truetype/dejavu/DejaVuSerif.ttf
    librust-serde-dev       crate serde
    librust-serde-json-dev  crate serde_json
    mypy             modules mypy
    python3-pandas   modules pandas
    python3-openpyxl modules openpyxl
    python3-hypothesis modules hypothesis
    python3-rich     modules rich
    python3-tqdm     modules tqdm
    python3-distributed modules distributed
    python3-setuptools  modules setuptools, wheel, pip
    python3-wheel    modules setuptools, wheel, pip
    python3-pip      modules setuptools, wheel, pip
    python3-build    modules build, setuptools, wheel
    dpkg-dev         command dpkg-buildpackage
    debhelper        command dh
    dh-python        command dh_python3
    bash-completion  command dh_bash-completion
    lintian          command lintian
    abigail-tools    command abidiff
    qemu-user-static command qemu-x86_64-static
    debootstrap      command debootstrap
    iproute2         command ip
    faketime         command faketime
    postgresql-15    command /usr/lib/postgresql/15/bin/initdb
    postgresql-server-dev-15  file /usr/include/postgresql/15/server/postgres.h
'

# The packages of all rows, or with the word `missing` of the rows whose command or modules are missing.
packages() {
    echo "$needs" | while read -r package kind names; do
        [ -n "$package" ] || continue
        if [ "$1" = missing ]; then
            case $kind in
                command) command -v "$names" > /dev/null && continue ;;
                modules) sh tools/python_with.sh "$names" > /dev/null && continue ;;
                file) [ -e "$names" ] && continue ;;
                crate) ls -d "/usr/share/cargo/registry/$names-"[0-9]* > /dev/null 2>&1 && continue ;;
            esac
        fi
        echo "$package"
    done
}

case ${1:-} in
    '') ;;
    --all)
        packages all
        exit
        ;;
    --install)
        missing=$(packages missing)
        if [ -n "$missing" ] && [ "$(id -u)" != 0 ]; then
            echo 'the tests need packages that only root can install:' >&2
        elif [ -n "$missing" ]; then
            echo installing: $missing
            export DEBIAN_FRONTEND=noninteractive
            apt-get update -q && apt-get install -q -y --no-install-recommends $missing
        fi
        ;;
    *)
        echo 'usage: sh tools/needs.sh [--all | --install]' >&2
        exit 2
        ;;
esac
missing=$(packages missing)
[ -z "$missing" ] && exit 0
echo "$missing"
exit 1
