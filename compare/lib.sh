# What the scripts of the comparison share: where things are, and the build. To be sourced.
unset CDPATH
compare=$(cd "$(dirname "${BASH_SOURCE[0]}")" && pwd)
root=$(dirname "$compare")
target=$root/target/compare
bin=$target/release

# Ends the script with a message that names what failed.
fail() {
    echo "${0##*/}: $*" >&2
    exit 1
}

# The published files, byte for byte: names each that is missing or differs.
check_sums() {
    (cd "$root/third_party/inkemu" 2>/dev/null) || { echo "third_party/inkemu is missing"; return 1; }
    (cd "$root/third_party/inkemu" && sha256sum --check --quiet SHA256SUMS 2>&1)
}

# Builds the programs; quiet unless it fails.
build() {
    local log
    log=$(cd "$compare" && CARGO_TARGET_DIR=$target cargo build --release --offline --quiet 2>&1) || {
        echo "$log" >&2
        return 1
    }
}

# The names of the profiles, in order.
profiles() {
    "$bin/gen" --list | cut -d' ' -f1
}
