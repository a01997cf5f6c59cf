# shellcheck shell=sh disable=SC2154
# The trials of deploy, which try-examples reads.

# The exports of an edit that keeps the promises: what the server gets.
exportdesk init edited.db "$examples/site" >/dev/null 2>&1
printf hello >ulf.key
{ exportdesk cat edited.db exports:/u2 && echo '/u2 -ro 131.104.48.22'; } >u2
exportdesk put edited.db exports:/u2 u2 --base 1 --caller ulf --key-file ulf.key >/dev/null 2>&1
mkdir edited
exportdesk write edited.db edited >/dev/null

# Sees that a server has the old text in force, as before: where no reload was, and after one of the new and one of the old text.
is_unchanged() {
    trial 0 cmp written/exports servers/nfs1/etc/exports <<'END'
END
    trial 0 find servers/nfs1 -name 'exports.n*' -o -name read <<'END'
END
}

is_back() {
    trial 0 cmp written/exports servers/nfs1/etc/exports <<'END'
END
    { echo "== reload" && cat edited/exports && echo "== reload" && cat written/exports; } >reads
    trial 0 cmp reads servers/nfs1/plays/read <<'END'
END
    trial 0 stat -c %a servers/nfs1/etc/exports <<'END'
640
END
    trial 0 find servers/nfs1 -name 'exports.n*' <<'END'
END
}

about "an edit that mountd takes: the new text is in force, with the mode of the old one, which is kept"
make_server nfs1
trial 0 deploy root@nfs1 edited.db 'our promises' <<'END'
6 expectations, 0 broken
deploy: the newest exports of edited.db are in force on root@nfs1, and those before are in /etc/exports.old there
END
trial 0 cmp edited/exports servers/nfs1/etc/exports <<'END'
END
trial 0 cmp written/exports servers/nfs1/etc/exports.old <<'END'
END
{ echo "== reload" && cat edited/exports; } >reads
trial 0 cmp reads servers/nfs1/plays/read <<'END'
END
trial 0 ls servers/nfs1/etc <<'END'
exports
exports.old
group
hosts
netgroup
networks
passwd
END
trial 0 stat -c %a servers/nfs1/etc/exports <<'END'
640
END

about "the same again, beside a file of ZFS"
mkdir servers/nfs1/etc/zfs
echo '# (nothing)' >servers/nfs1/etc/zfs/exports
trial 0 deploy nfs1 edited.db 'our promises' <<'END'
6 expectations, 0 broken
deploy: the newest exports of edited.db are in force on nfs1, and those before are in /etc/exports.old there
END
echo '/usr -network 10' >>servers/nfs1/etc/zfs/exports
trial 0 deploy nfs1 edited.db 'our promises' <<'END'
6 expectations, 0 broken
mountd also reads lines of etc/zfs/exports, of which the database knows nothing
deploy: the newest exports of edited.db are in force on nfs1, and those before are in /etc/exports.old there
END

about "a promise that is broken: nothing is changed"
make_server nfs1
echo 'everybody may not mount /u2' >'a broken promise'
trial 1 deploy nfs1 edited.db 'a broken promise' <<'END'
a broken promise:1: broken: everybody may not mount /u2
== /u2
131.104.48.0-131.104.48.19 granted line 2 rw sec=sys root=65534:65533
131.104.48.20-131.104.48.21 granted line 1 rw sec=sys root=0:0:5
131.104.48.22-131.104.48.22 granted line 3 ro sec=sys root=65534:65533
131.104.48.23-131.104.48.255 granted line 2 rw sec=sys root=65534:65533
1 expectation, 1 broken
deploy: the texts of edited.db do not keep a broken promise, or cannot be read; nothing was changed on nfs1
END
is_unchanged

about "promises that have a fault, or are not there; a database that is not there, or is none"
echo 'everybody must mount /u2' >'a fault'
trial 3 deploy nfs1 edited.db 'a fault' <<'END'
a fault:1:22: fault 2 Form: "/u2" is not where it belongs: write WHOM [but NAME..] may [not] ACTION DIR.., as in everybody but adm may not write /usr/...
everybody must mount /u2
                     ^^^
fault expectations line 1 rule 2 Form
deploy: the texts of edited.db do not keep a fault, or cannot be read; nothing was changed on nfs1
END
trial 2 deploy nfs1 edited.db nothing <<'END'
exportdesk: EXPECTATIONS "nothing": No such file or directory (os error 2)
deploy: the texts of edited.db do not keep nothing, or cannot be read; nothing was changed on nfs1
END
trial 2 deploy nfs1 no.db 'our promises' <<'END'
exportdesk: DB "no.db": No such file or directory (os error 2)
deploy: the texts of no.db cannot be written, and nothing was changed on nfs1
END
trial 4 deploy nfs1 'our promises' 'our promises' <<'END'
exportdesk: DB "our promises": it is not a database of SQLite
refused 201 Store
deploy: the texts of our promises cannot be written, and nothing was changed on nfs1
END
is_unchanged

about "an edit while the promises are tested"
mkdir meddling
cat >meddling/exportdesk <<END
#!/bin/sh
# Plays somebody who puts an edit once the promises are tested.
"$work/bin/exportdesk" "\$@" || exit
[ "\$1" != audit ] ||
    "$work/bin/exportdesk" put meddled.db exports:/u2 u2 --base 1 --caller ulf --key-file ulf.key >/dev/null 2>&1
END
chmod +x meddling/exportdesk
exportdesk init meddled.db "$examples/site" >/dev/null 2>&1
trial 2 env PATH="$trials/bin:$work/meddling:$examples:$PATH" deploy nfs1 meddled.db 'our promises' <<'END'
6 expectations, 0 broken
deploy: meddled.db was edited meanwhile, and nothing was changed on nfs1: run it again
END
is_unchanged

about "mountd does not take a line: the old text is back, and mountd has read it"
make_server nfs1
echo 131.104.48.22 >servers/nfs1/plays/mountd.refuses
trial 1 deploy nfs1 edited.db 'our promises' <<'END'
6 expectations, 0 broken
Nov 29 12:00:02 nfs1 mountd[723]: bad exports list line /u2 -ro 131.104.48.22
deploy: nfs1 does not take the newest exports of edited.db; its old ones are in force again
END
is_back

about "the log is written elsewhere, so that nobody sees what mountd says: the old text is back"
make_server nfs1
: >servers/nfs1/plays/logger.elsewhere
trial 1 deploy nfs1 edited.db 'our promises' <<'END'
6 expectations, 0 broken
var/log/messages does not show what mountd says
deploy: nfs1 does not take the newest exports of edited.db; its old ones are in force again
END
is_back

about "newsyslog(8) begins a new log meanwhile"
make_server nfs1
echo "mv var/log/messages var/log/messages.0" >servers/nfs1/plays/mountd.reads
trial 1 deploy nfs1 edited.db 'our promises' <<'END'
6 expectations, 0 broken
var/log/messages does not show what mountd says
deploy: nfs1 does not take the newest exports of edited.db; its old ones are in force again
END
is_back

about "mountd does not run: the old text is back, which it cannot be told either"
make_server nfs1
: >servers/nfs1/plays/mountd.down
trial 2 deploy nfs1 edited.db 'our promises' <<'END'
6 expectations, 0 broken
mountd not running? (check /var/run/mountd.pid).
mountd not running? (check /var/run/mountd.pid).
deploy: nfs1 does not take the newest exports of edited.db; its old ones are in /etc/exports again, but mountd cannot be reloaded
END
trial 0 cmp written/exports servers/nfs1/etc/exports <<'END'
END

about "mountd fails to read the new text, and reads the old one"
make_server nfs1
echo 'if grep -q 131.104.48.22 etc/exports; then echo "mountd ended." && exit 1; fi' >servers/nfs1/plays/mountd.reads
trial 1 deploy nfs1 edited.db 'our promises' <<'END'
6 expectations, 0 broken
mountd ended.
deploy: nfs1 does not take the newest exports of edited.db; its old ones are in force again
END
is_back

about "the connection breaks"
make_server nfs1
: >servers/nfs1/plays/ssh.breaks
trial 2 deploy nfs1 edited.db 'our promises' <<'END'
6 expectations, 0 broken
deploy: it is not known which exports are in force on nfs1: look at /etc/exports and /etc/exports.old there
END
about "the shell of the server gets nothing to do"
make_server nfs1
: >servers/nfs1/plays/ssh.loses
trial 2 deploy nfs1 edited.db 'our promises' <<'END'
6 expectations, 0 broken
deploy: it is not known which exports are in force on nfs1: look at /etc/exports and /etc/exports.old there
END

about "what cannot be reached, copied or kept is not changed"
make_server nfs1
trial 2 deploy gone edited.db 'our promises' <<'END'
6 expectations, 0 broken
scp: gone:/etc/exports.new: cannot be written
deploy: gone:/etc/exports.new cannot be written, and /etc/exports there was not changed
END
: >servers/nfs1/plays/scp.fails
trial 2 deploy nfs1 edited.db 'our promises' <<'END'
6 expectations, 0 broken
scp: nfs1:/etc/exports.new: cannot be written
deploy: nfs1:/etc/exports.new cannot be written, and /etc/exports there was not changed
END
is_unchanged
rm servers/nfs1/plays/scp.fails
: >servers/nfs1/plays/logger.fails
trial 2 deploy nfs1 edited.db 'our promises' <<'END'
6 expectations, 0 broken
deploy: /etc/exports cannot be kept or written on nfs1, and was not changed
END
is_unchanged
rm servers/nfs1/plays/logger.fails servers/nfs1/etc/exports*
trial 2 deploy nfs1 edited.db 'our promises' <<'END'
6 expectations, 0 broken
cp says why
deploy: /etc/exports cannot be kept or written on nfs1, and was not changed
END
trial 0 find servers/nfs1 -name 'exports*' -o -name read <<'END'
END

about "words that are wrong"
trial 2 deploy nfs1 edited.db <<'END'
usage: deploy SERVER DB PROMISES
END
trial 2 deploy -x edited.db 'our promises' <<'END'
deploy: "-x" is not the name of a server
END
trial 2 env WAIT='1; reboot' deploy nfs1 edited.db 'our promises' <<'END'
deploy: WAIT is a number of seconds, and "1; reboot" is none
END
