# The wheel, and the Debian package for Python: the tests of the package, its examples, and its command line.
try 'there is no compiler here' sh -c '! command -v cc && ! command -v gcc && ! command -v clang'
cd /given/source || exit 1
export PYTHONDONTWRITEBYTECODE=1
export PIP_BREAK_SYSTEM_PACKAGES=1 PIP_ROOT_USER_ACTION=ignore PIP_DISABLE_PIP_VERSION_CHECK=1
printf 'name,description\nA,"sec. 5, lot 1."\nB,"sec. 5, N1/2."\n' > "$work/list.csv"

# The package that is installed, wherever it is.
works() {
    try "$1: it is not the sources" sh -c 'python3 -c "import township; print(township.__file__)" | grep -v /given/'
    build=$(ls /given/dist/*.whl | sed 's/.*township-\(.*\)-py3-none-.*/\1/')
    try "$1: it names its build" sh -c 'python3 -m township --version | grep -F "$1"' sh "$build"
    count "$1: its tests" python3 bindings/python/tests/run.py
    (cd / && python3 -m township batch $samples/b1.csv "$work/list.csv" > "$work/answers" 2> "$work/errors"
        echo "status $?" >> "$work/answers")
    for line in '^name,description,acres,refusal,at,sentence' '^A,"sec. 5, lot 1.",40.45,,,' \
        '^B,"sec. 5, N1/2.",,66,8,this part includes lots' '^status 1$'; do
        try "$1: python -m township batch: $line" grep "$line" "$work/answers"
    done
}

# A computer with systemd, which only writes down what it is asked to do. apt gives scripts a path of its own.
echo 'DPkg::Path "/usr/local/sbin:/usr/sbin:/usr/bin:/sbin:/bin";' > /etc/apt/apt.conf.d/path
mkdir -p /run/systemd/system
asked=$work/asked
for program in systemctl deb-systemd-invoke; do
    printf '#!/bin/sh\necho "%s $*" >> "%s"\n' "$program" "$asked" > "/usr/local/sbin/$program"
    chmod +x "/usr/local/sbin/$program"
done
: > "$asked"
# What it was asked since the last time.
asks() {
    grep -v 'daemon-reload' "$asked" > "$work/found"
    printf '%s' "${2:+$2
}" > "$work/wanted"
    same "$1"
    : > "$asked"
}

files > "$work/before"
try 'pip installs the wheel' pip install -q --no-index /given/dist/township-*.whl
works 'the wheel'
try 'pip removes the wheel' pip uninstall -q -y township
files > "$work/after"
try 'nothing is left of the wheel' diff "$work/before" "$work/after"

# The service is restarted by an upgrade if it runs, and stopped before it is removed; nothing starts or enables it.
upgrades "asks installation" libtownship1 python3-township township-doc
asks 'what an upgrade asks of systemd' 'deb-systemd-invoke try-restart township.service'
works 'the Debian package'
man -P cat python3-township > "$work/page" 2>&1
try 'its man page' grep -q 'acreage of lists of land' "$work/page"
try 'its service is not enabled' sh -c '[ -e /lib/systemd/system/township.service ] && \
    [ -z "$(find /etc/systemd -name township.service)" ]'
try 'its test for autopkgtest' sh /given/source/packaging/debian/tests/python
removes_all 'the package for Python'
asks 'what the removal asks of systemd' 'deb-systemd-invoke stop township.service'
