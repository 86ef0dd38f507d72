# Sourced by the commands of native/, in the project's folder: where the kit's C library stands, what is not installed installed, and what
# is not proved proved. The kit, what it makes and so these commands are for x86-64.
[ "$(uname -m)" = x86_64 ] || {
    echo "native: the Rattle kit and what it builds are for x86-64, and this machine is $(uname -m)"
    exit 1
}
lib=$(dirname "$(rt doc)")/toolchain/lib
out=target/native
mkdir -p "$out"

install_package() { # PACKAGE
    echo "native: installing $1"
    apt-get install -y "$1" >/dev/null
}

need() { # COMMAND PACKAGE
    command -v "$1" >/dev/null || install_package "$2"
}

prove() { # CRATE WORD: `rt WORD` in the crate's folder, which proves and builds what it stands on first; shows what it says only where it fails
    (cd "crates/$1" && env -u RT_BACKEND -u RT_ALLOW_C rt "$2") >"$out/$1.log" 2>&1 </dev/null || {
        tail -20 "$out/$1.log"
        exit 1
    }
}
