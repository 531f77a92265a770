# Sourced by the commands that link the library; sets `root`.
root=$(cd "$(dirname "${BASH_SOURCE[0]}")/.." && pwd)

refuse() {
    echo "$1" >&2
    exit 2
}

# N and SEED, then words among CHOICES; anything else is refused before anything is built.
takes() { # USAGE CHOICES WORDS...
    local usage=$1 choices=$2 word
    shift 2
    for word in "${1-}" "${2-}"; do
        case $word in '' | *[!0-9]*) refuse "usage: $usage" ;; esac
    done
    for word in "${@:3}"; do
        case " $choices " in *" $word "*) ;; *) refuse "usage: $usage" ;; esac
    done
}

# Exports SIMMERROOF_LIB, the folder of the libsimmerroof.a to link: as it is set, or else crates/simmerroof/out, where tools/build
# proves and writes it if it is absent or older than a source. Before anything is built it refuses a processor that cannot run
# what is linked.
library() { # COMMAND
    if [ -n "${SIMMERROOF_LIB-}" ]; then
        [ -f "$SIMMERROOF_LIB/libsimmerroof.a" ] || refuse "$1: there is no libsimmerroof.a in $SIMMERROOF_LIB (SIMMERROOF_LIB)"
    elif [ "$(uname -m)" != x86_64 ]; then
        refuse "$1: needs x86-64, and this is $(uname -m): run it there, or set SIMMERROOF_LIB to the folder of a libsimmerroof.a for this processor"
    else
        "$root/tools/build" library simmerroof
        SIMMERROOF_LIB=$root/crates/simmerroof/out
    fi
    SIMMERROOF_LIB=$(cd "$SIMMERROOF_LIB" && pwd)
    export SIMMERROOF_LIB
}

needs() { # COMMAND TOOL
    command -v "$2" > /dev/null || refuse "$1: needs $2"
}
