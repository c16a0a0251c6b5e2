#!/bin/sh
# Puts the program, its man pages and its completions under a prefix.
#
#     ./install.sh [PREFIX [EXECUTABLE]]
#
# PREFIX is /usr/local if it is left out, and EXECUTABLE the proved program, which `rt run` in crates/workbench leaves there.
set -eu
top=$(cd "$(dirname "$0")" && pwd)
prefix=${1:-/usr/local}
program=${2:-$top/crates/workbench/out/workbench}
if [ ! -f "$program" ]; then
    echo "install.sh: there is no $program; \`rt run -- --version\` in crates/workbench proves and builds it" >&2
    exit 1
fi
install -v -D -m 755 "$program" "$prefix/bin/workbench"
for page in workbench.1 workbench.5; do
    install -v -D -m 644 "$top/man/$page" "$prefix/share/man/man${page##*.}/$page"
done
install -v -D -m 644 "$top/completions/workbench.bash" "$prefix/share/bash-completion/completions/workbench"
install -v -D -m 644 "$top/completions/_workbench" "$prefix/share/zsh/site-functions/_workbench"
install -v -D -m 644 "$top/completions/workbench.fish" "$prefix/share/fish/vendor_completions.d/workbench.fish"
