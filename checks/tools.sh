#!/bin/sh
# The tests of `vcp_tools` (tools/tests): `.ci/run` calls it after `rt ci`. They use the programs that are built, or those of VCP=FILE and VCP_STUDY=FILE.
# What a missing program would do is skipped, and so is what needs a package that is missing and can't be installed; without Python 3 nothing is run. The
# types and the layout are looked at where `mypy` and `flake8` are installed. The status is 1 where a test fails.
top=$(CDPATH='' cd -- "$(dirname -- "$0")/.." && pwd) || exit 1
command -v python3 >/dev/null 2>&1 || {
    echo "tools: no test is run, since python3 isn't there"
    exit 0
}
cd "$top/tools" || exit 1
export PYTHONDONTWRITEBYTECODE=1

# Whether a module is there, also where Debian keeps it for its own Python.
has_module() {
    python3 -c "import sys; sys.path.append('/usr/lib/python3/dist-packages'); import $1" 2>/dev/null
}

has_all() {
    has_module lark && has_module z3 && has_module hypothesis && command -v parallel >/dev/null 2>&1 && command -v mypy >/dev/null 2>&1 && command -v flake8 >/dev/null 2>&1
}

if ! has_all && [ "$(id -u)" = 0 ] && command -v apt-get >/dev/null 2>&1; then
    for package in python3-lark python3-z3 parallel python3-hypothesis mypy flake8; do
        DEBIAN_FRONTEND=noninteractive apt-get install -y -qq "$package" >/dev/null 2>&1 || echo "tools: apt-get couldn't install $package"
    done
fi
for module in lark z3 hypothesis; do
    has_module $module || echo "tools: the module $module isn't installed: the tests that need it are skipped"
done
status=0
if command -v mypy >/dev/null 2>&1; then
    mypy --config-file pyproject.toml --cache-dir=/dev/null || status=1
else
    echo "tools: mypy isn't installed: types aren't looked at"
fi
if command -v flake8 >/dev/null 2>&1; then
    flake8 || status=1
else
    echo "tools: flake8 isn't installed: the layout isn't looked at"
fi
python3 -B -m unittest discover -s tests -t . || status=1
exit "$status"
