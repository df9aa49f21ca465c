# For the benches. need TOOL=PACKAGE..: prints `skipped` and ends where a tool is missing. built NAME: the path of a program of
# the repository, proved and built. Sets top, the repository; the bench goes to a new folder in memory that is removed at the end.
top=$(dirname "$(dirname "$(readlink -f "${BASH_SOURCE[0]}")")")
export PYTHONDONTWRITEBYTECODE=1 PYTHONPATH=$top/bench
need() {
    local row
    for row in "$@"; do
        if ! command -v "${row%%=*}" >/dev/null; then
            echo "skipped: ${row%%=*} is missing (Debian package ${row##*=})"
            exit 0
        fi
    done
    if ! echo '#include <sndfile.h>' | gcc -E - >/dev/null 2>&1; then
        echo "skipped: sndfile.h is missing (Debian package libsndfile1-dev)"
        exit 0
    fi
}
built() {
    "$top/tools/build" "$1"
}
folder=$(mktemp -d -p /dev/shm)
trap 'rm -rf "$folder"' EXIT
cd "$folder" || exit 1
