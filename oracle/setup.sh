#!/usr/bin/env bash
# Builds the genuine crate's sources into the program WORK/oracle.
# usage: oracle/setup.sh SOURCES WORK
#   SOURCES  the published crate's folder, in which src/ is
#   WORK     a folder to build in, outside the repository; it is made if need be
set -euo pipefail
here=$(cd "$(dirname "$0")" && pwd)
sources=$(cd "${1:?the folder of the published crate}" && pwd)/src
mkdir -p "${2:?a folder to build in}"
work=$(cd "$2" && pwd)

# third-party crates: Debian's packages, unpacked into WORK and not installed
if [ ! -e "$work/unpacked" ]; then
    mkdir -p "$work/packages" "$work/root"
    (cd "$work/packages" && xargs apt-get download -qq -o APT::Sandbox::User=root <"$here/packages.txt")
    for package in "$work"/packages/*.deb; do dpkg -x "$package" "$work/root"; done
    # a call that the genuine error.rs makes and a later chrono has
    datetime=$(echo "$work"/root/usr/share/cargo/registry/chrono-0.4*/src/naive/datetime/mod.rs)
    if ! grep -q 'fn and_utc' "$datetime"; then
        cat >>"$datetime" <<'R'

impl NaiveDateTime {
    /// The same time, as one of UTC.
    pub fn and_utc(&self) -> crate::DateTime<crate::Utc> {
        crate::DateTime::from_utc(*self, crate::Utc)
    }
}
R
    fi
    touch "$work/unpacked"
fi

# the program, with the genuine files at their places
rm -rf "$work/program"
cp -r "$here/program" "$work/program"
while read -r file; do
    cp "$sources/$file" "$work/program/src/$file"
done <"$here/genuine.txt"
mkdir -p "$work/program/.cargo"
cat >"$work/program/.cargo/config.toml" <<E
[source.crates-io]
replace-with = "debian"
[source.debian]
directory = "$work/root/usr/share/cargo/registry"
[net]
offline = true
[build]
target-dir = "$work/target"
E
(cd "$work/program" && cargo build --release --quiet)
cp "$work/target/release/oracle" "$work/oracle"
