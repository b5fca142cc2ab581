# A function that finds Python. Sourced by .ci/run and tools/release/dist.sh.

# python_with MODULE..: prints the first of $PYTHON, python3 and /usr/bin/python3 that has the modules; fails if there is none
python_with() {
    local python
    for python in ${PYTHON:+"$PYTHON"} python3 /usr/bin/python3; do
        "$python" -c "import sys$(printf ", %s" "$@")" 2> /dev/null < /dev/null || continue
        echo "$python" && return
    done
    return 1
}
