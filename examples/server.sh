# shellcheck shell=sh
#
# What fetch-site, drift, deploy and each-server share; they read it by `.`, from the folder in which they are.

export LC_ALL=C

# Says what is wrong, and ends with status 2.
fail() {
    echo "${0##*/}: $1" >&2
    exit 2
}

# Makes the folder $room for temporary files, which goes when the script ends. (Its owner alone may look into it.)
make_room() {
    room=$(mktemp -d "${TMPDIR:-/tmp}/${0##*/}.XXXXXX") || fail "no temporary folder can be made"
    trap 'rm -rf "$room"' EXIT
    trap 'exit 2' HUP INT TERM
}

# Refuses the name of a server that ssh(1) would take for an option, or for none.
check_server() {
    case $1 in
    '' | -* | *[[:space:]]*) fail "\"$1\" is not the name of a server" ;;
    esac
}

# Prints the mount points of a server as --mounts reads them, by the file in which `mount -p` of it is: the second word of each line
# but for what has no files to export. (exportdesk would read such a file, too, but not \040, which stands there for a blank.)
mount_points() {
    awk '
        NF != 6 {
            print FILENAME ":" FNR ": this line does not have the six words of a line of `mount -p`" >"/dev/stderr"
            exit 2
        }
        $3 ~ /^(devfs|fdescfs|procfs|linprocfs|linsysfs|autofs|swap)$/ { next }
        {
            gsub(/\\040/, " ", $2)
            gsub(/\\011/, "\t", $2)
            gsub(/\\134/, "\\", $2)
            gsub(/[\\"]/, "\\\\&", $2)
            print "\"" $2 "\""
        }' "$1"
}

# Runs a command of exportdesk with the mount points and the tables of a server, by its folder: by_tables_of DIR WORD..
by_tables_of() {
    tables=$1
    shift
    mount_points "$tables/mounts" >"$room/mount-points" || return 2
    exportdesk "$@" --mounts "$room/mount-points" --hosts "$tables/hosts" --networks "$tables/networks" \
        --passwd "$tables/passwd" --group "$tables/group" --netgroup "$tables/netgroup"
}
