# What the scripts in this folder share: messages, a scratch folder, the version, and the same result for everybody.
# shellcheck shell=bash
set -u

# neither the caller's language nor the caller's habits may change a byte
export LC_ALL=C
unset TAR_OPTIONS GREP_OPTIONS POSIXLY_CORRECT
umask 022

script=$(basename "$0")
root=$(dirname "$(dirname "$(readlink -f "${BASH_SOURCE[0]}")")")
scratch=''

say() { printf '%s: %s\n' "$script" "$*"; }

fail() { # REASON
    say "FAILED: $1" >&2
    exit 1
}

remove_scratch() { [ -z "$scratch" ] || rm -rf "$scratch"; }

make_scratch() {
    trap remove_scratch EXIT
    trap 'exit 130' INT
    trap 'exit 143' TERM
    scratch=$(mktemp -d) || fail "cannot make a temporary folder; see that TMPDIR can be written to"
}

# The version has one place: the C header.
version() {
    local part number numbers=()
    for part in MAJOR MINOR PATCH; do
        number=$(sed -n "s/^#define FRONTIER_VERSION_$part \([0-9][0-9]*\)\$/\1/p" "$root/include/frontier.h")
        [ -n "$number" ] || fail "include/frontier.h has no line '#define FRONTIER_VERSION_$part NUMBER'; add it"
        numbers+=("$number")
    done
    (IFS=. && printf '%s\n' "${numbers[*]}")
}

need_gnu_tar() {
    tar --version 2>/dev/null | grep -q 'GNU tar' ||
        fail "'tar' is not GNU tar, which alone can fix order, times and owners; install GNU tar and put it on the PATH as 'tar'"
}

# The tools that have to be the same for the same bytes, as lines of a MANIFEST.
print_tools() {
    print_tool kit rt version && print_tool rustc rustc --version && print_tool cargo cargo --version &&
        print_tool cc cc --version
}

print_tool() { # NAME COMMAND...
    local told
    told=$("${@:2}" | head -n 1)
    [ -n "$told" ] || fail "'${*:2}' tells no version; put $2 on the PATH"
    printf '%s: %s\n' "$1" "$told"
}

# The files of a folder with their digests and lengths, in the order of their names: the list of a MANIFEST.
list_files() { # FOLDER
    (
        cd "$1" || exit 1
        find . -type f ! -path ./MANIFEST -printf '%P\0' | sort -z | while IFS= read -r -d '' file; do
            printf '%s  %8d  %s\n' "$(sha256sum <"$file" | cut -d ' ' -f 1)" "$(wc -c <"$file")" "$file"
        done
    )
}

# Clones a commit into a new folder and makes its disc there.
build_disc() { # COMMIT FOLDER
    local began=$SECONDS log=$scratch/log
    { git clone -q --no-checkout "$root" "$2" && git -C "$2" checkout -q --detach "$1"; } ||
        fail "this repository has no commit $1; fetch it from where the disc was made, and try again"
    say "building commit $1 in $2; what rt has not proved on this machine takes long"
    env -u MAKEFLAGS make -C "$2" disc >"$log" 2>&1 </dev/null || {
        tail -n 20 "$log"
        fail "'make disc' failed in a clone of commit $1; see above"
    }
    say "built in $((SECONDS - began)) s"
}

# The disc that 'make disc' has left in a repository's folder.
disc_in() { # FOLDER
    local discs=("$1"/target/disc/*.tar)
    { [ -f "${discs[0]}" ] && [ "${#discs[@]}" -eq 1 ]; } || fail "'make disc' has left no disc, or several, in $1/target/disc"
    printf '%s\n' "${discs[0]}"
}

# Unpacks a disc, which must be one folder with a MANIFEST in it, into a new folder, and sets 'unpacked' to the disc's.
unpack_disc() { # FILE FOLDER
    mkdir "$2" || fail "cannot make the folder $2; see above"
    tar --extract --no-same-owner --preserve-permissions --directory="$2" --file="$1" ||
        fail "$1 is no whole tar archive; get it again from where it comes from"
    unpacked=$2/$(ls -A "$2")
    [ -f "$unpacked/MANIFEST" ] || fail "$1 is no disc: it must hold one folder with a MANIFEST in it"
}

# Names the first file in which two discs differ. The MANIFEST, which differs with every other file, is the last.
compare_discs() { # FILE FILE
    local first second file
    unpack_disc "$1" "$scratch/first" && first=$unpacked
    unpack_disc "$2" "$scratch/second" && second=$unpacked
    while IFS= read -r file; do
        cmp "$first/$file" "$second/$file" || fail "$file is the first file that differs"
    done < <({ list_files "$first" && list_files "$second"; } | awk '{ print $3 }' | sort -u)
    diff "$first/MANIFEST" "$second/MANIFEST" || fail "all files are the same, and MANIFEST differs as shown above"
    cmp "$1" "$2" || fail "all files are the same, and the archives differ: in a name, a mode or a time, or they were written by another tar"
}
