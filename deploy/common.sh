# What commands of goshelf share. They source it from /usr/share/goshelf/deploy, and it is no command of its own.
# shellcheck shell=sh disable=SC2034,SC2154  # (it sets for them what they read, and reads what they set)

# Says why a command ends, and ends it.
fail() {
    echo "${0##*/}: $*" >&2
    exit 1
}

# Ends a command whose words are wrong.
wrong() {
    usage >&2
    printf '\n%s: %s\n' "${0##*/}" "$*" >&2
    exit 2
}

# Refuses words that are not those of the usage: `take_words LEAST NAMES WORD..`. NAMES has a name for each word, of which the
# first LEAST are needed.
take_words() {
    least=$1 names=$2
    shift 2
    for it; do case $it in -*) wrong "there is no option $it" ;; esac done
    for it in $names; do
        [ $# -gt 0 ] || { [ "$least" -le 0 ] && return; } || wrong "$it is missing"
        [ -n "$1" ] || wrong "$it is empty"
        least=$((least - 1))
        shift
    done
    [ $# = 0 ] || wrong "one word too many: $1"
}

# Refuses whoever is not root, and a unit with a name that none has.
begin() {
    [ "$(id -u)" = 0 ] || fail "this needs root: sudo ${0##*/}"
    case $unit in *[!a-z0-9-]*) fail "no unit has the name $unit" ;; esac
}

# Refuses a host without the store's folder.
need_home() {
    [ -d "$home" ] || fail "there is no folder $home: install goshelf, or name another unit by GOSHELF_UNIT"
}

# Lets one command that reads or changes the backups run at a time. (9 is the lock)
lock_backups() {
    exec 9< "$backups"
    flock -n 9 || fail 'another goshelf-backup, goshelf-restore or goshelf-forget has not ended'
}

# Stops goshelf, and its port, at which a connection would start it again. A start of goshelf starts both.
stop_goshelf() {
    ! systemctl is-active -q "$unit.socket" || systemctl stop "$unit.socket"
    systemctl stop "$unit"
}

# Gives files that root left beside the store to the store's user, as goshelf.service does.
own_files() {
    chown -Rh --reference="$home" "$home" || :
}

# nginx's log of publishes, which only grows
publishes=/var/log/goshelf/publishes.log

# Appends to the log of publishes, which may be append-only, the lines of its copy beside the backups that it lacks, and
# sets `count`. The copy is the log again.
mend_log() {
    kept=$backups/publishes.log
    room=$(mktemp -d "$backups/new-log-XXXXXX")
    [ -d "${publishes%/*}" ] || install -d -m 755 "${publishes%/*}"
    [ -e "$publishes" ] || install -m 640 /dev/null "$publishes"
    sort "$publishes" > "$room/log"
    sort "$kept" | comm -13 "$room/log" - > "$room/lines"
    cat "$room/lines" >> "$publishes"
    cat "$publishes" > "$room/whole"
    mv "$room/whole" "$kept"
    count=$(wc -l < "$room/lines")
    rm -r "$room"
}

# the name of a backup
stamp='2[0-9][0-9][0-9]-[0-9][0-9]-[0-9][0-9]T[0-9][0-9][0-9][0-9][0-9][0-9]Z'

# Prints the name that a backup gets now.
now() {
    date -u +%Y-%m-%dT%H%M%SZ
}

# Runs a command as the owner of $place. The user of the store can replace whatever is beside it, so root reads and
# writes nothing there. (9 is the lock of a command)
as_owner() {
    setpriv --reuid="$(stat -c %u "$place")" --regid="$(stat -c %g "$place")" --clear-groups --no-new-privs -- "$@" 9<&-
}

# Has sqlite3 change a store by the SQL on standard input, and leave the pages that it writes in the log. It gives none a
# sum, and goshelf gives those of a log theirs when it opens the store. So only goshelf may be the next to open it.
change_store() {
    {
        printf '%s\n' '.output /dev/null' '.dbconfig no_ckpt_on_close on' 'PRAGMA wal_autocheckpoint = 0;' .output
        cat
    } | sqlite3 -bail "$@"
}

# Has goshelf copy its store to this file. goshelf writes the copy itself, and its unit lets it write only beside its
# store. It makes one copy or one catalog at a time, and another command may have ordered one.
order_copy() {
    tries=0
    until told=$(goshelf copy --control "$control" --to "$1" 2>&1); do
        [ "$told" = 'goshelf: busy' ] || fail "goshelf does not copy its store: $told"
        [ $((tries += 1)) -le 600 ] || fail 'goshelf has made copies or catalogs for ten minutes'
        sleep 1
    done
}
