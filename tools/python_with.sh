#!/bin/sh
# Prints the first Python that has the modules named by the first word, such as 'setuptools, wheel': the one that
# PYTHON names, the one on the path, or the system's. The status is 1 if there is none.
for python in "${PYTHON:-python3}" python3 /usr/bin/python3; do
    if "$python" -c "import $1" > /dev/null 2>&1; then
        echo "$python"
        exit 0
    fi
done
exit 1
