#!/usr/bin/env bash
# packages.sh WHO NAME..: installs those of Debian's packages that are missing; @NAME stands for a line of packages.txt.
# Root installs at once. Another user is told what it would be and asked, where there is a terminal and sudo; else one
# line says what to type. An installation that goes on elsewhere is waited for, and one that was interrupted is ended.
# Ends with 1 where they can't be had; what it says begins with WHO.
set -u
who=$1
shift
table=${BASH_SOURCE[0]%/*}/packages.txt

# The names of packages that words stand for.
names() {
    local word
    for word in "$@"; do
        case $word in
            @*)
                # shellcheck disable=SC2046 # words of a line
                names $(sed -n "s/^${word#@}: //p" "$table")
                ;;
            *) echo "$word" ;;
        esac
    done
}

mapfile -t wanted < <(names "$@" | sort -u)
missing=()
for package in "${wanted[@]}"; do
    dpkg-query -W -f '${Status}\n' "$package" 2> /dev/null | grep -q ' installed$' || missing+=("$package")
done
[ ${#missing[@]} -gt 0 ] || exit 0
install=(apt-get -qy -o DPkg::Lock::Timeout=300 install --no-install-recommends "${missing[@]}")
as_root=()
if [ "$(id -u)" != 0 ]; then
    update='apt-get update' typed="apt-get install --no-install-recommends ${missing[*]}"
    if [ ! -t 0 ] || [ ! -t 2 ] || ! command -v sudo > /dev/null; then
        echo "$who: first, as root: $update && $typed" >&2
        exit 1
    fi
    printf '%s: packages are missing; this would install them:\n    sudo %s && sudo %s\n' "$who" "$update" "$typed" >&2
    [[ " ${missing[*]} " != *' openssh-server '* ]] || echo "openssh-server also starts a server of the machine's, on port 22." >&2
    read -r -p 'Install them now? [y/N] ' answer
    case $answer in
        [yY] | [yY][eE][sS]) as_root=(sudo) ;;
        *) echo "$who: not installed" >&2; exit 1 ;;
    esac
fi
echo "$who: installing ${missing[*]}"
export DEBIAN_FRONTEND=noninteractive
try() { "${as_root[@]}" apt-get -q update && "${as_root[@]}" "${install[@]}"; }
{ try || { "${as_root[@]}" dpkg --configure -a && try; }; } > /dev/null && exit 0
echo "$who: apt-get couldn't install ${missing[*]}" >&2
exit 1
