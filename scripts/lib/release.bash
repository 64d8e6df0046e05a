# Reads the release from VERSION, which has one line such as `1.0.0 2026-11-24`: $version, and $date, its day. A script sources this.
release=$(cat "$(dirname "${BASH_SOURCE[0]}")/../../VERSION")
[[ $release =~ ^[0-9]+\.[0-9]+\.[0-9]+\ [0-9]{4}-[0-9]{2}-[0-9]{2}$ ]] || { echo "VERSION has to be one line such as 1.0.0 2026-11-24" >&2; exit 1; }
version=${release% *}
date=${release#* }

# released: ends with 0 if the tree is that of a release: it has no changes, and the first heading of CHANGELOG.md has the version and
# the date of VERSION, in the form `## 1.0.0 - 2026-11-24`. Otherwise it says why not. It ignores the files that the tree's own .gitignore
# names, and no others.
released() {
    local changes heading
    changes=$(git status --porcelain --untracked-files=no && git ls-files --others --exclude-per-directory=.gitignore | sed 's/^/?? /') || return
    if [ -n "$changes" ]; then
        printf 'The tree is not that of a commit. These files are changed or new:\n%s\n' "$changes" >&2
        return 1
    fi
    heading=$(grep -m 1 '^## ' CHANGELOG.md) || true
    if [ "$heading" != "## $version - $date" ]; then
        echo "The tree is not that of a release. VERSION asks for '## $version - $date' as the first heading of CHANGELOG.md, which is '$heading'" >&2
        return 1
    fi
}

# without_symbols FILE NEW: writes the program, shared library or archive to the new file, without the symbols that it does not need to run or
# to be linked. Of an archive these are the ones for a debugger.
without_symbols() {
    local which=()
    case $1 in
        *.a) which=(--strip-debug --enable-deterministic-archives) ;;
        *.so.*) which=(--strip-unneeded) ;;
    esac
    strip "${which[@]}" --remove-section=.comment --remove-section=.note -o "$2" "$1"
}
