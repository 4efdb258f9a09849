#!/bin/sh
# Prints the Python that has the modules named, or else what the package python/ and its examples and tests need: the first on the PATH,
# or Debian's own. If none has, it says so on standard error and ends with 1. On Debian:
#     apt install python3-numpy python3-networkx python3-matplotlib python3-pytest python3-distributed
# Tests run side by side with python3-pytest-xdist, and look at types with mypy, at names and imports with ruff or flake8.
set -u
[ $# -gt 0 ] || set -- numpy networkx matplotlib pytest distributed
for python in python3 /usr/bin/python3; do
    if "$python" -c "import sys, $(echo "$*" | tr ' ' ','); sys.exit(sys.version_info < (3, 11))" 2>/dev/null; then
        command -v "$python"
        exit 0
    fi
done
echo "find_python: no Python of version 3.11 or later has all of $*" >&2
exit 1
