# Completes the words of exportdesk in bash. (Printed by docs/commands.)
_exportdesk()
{
    local word=${COMP_WORDS[COMP_CWORD]} before=${COMP_WORDS[COMP_CWORD - 1]} choices=--help
    local command=${COMP_WORDS[1]} count=0 is_value=no place
    COMPREPLY=()
    if [ "$COMP_CWORD" -eq 1 ]; then
        choices='try split check clients lists terms compare test init ask show exports who put impact audit log cat proposal files report write copy serve --help --version'
        mapfile -t COMPREPLY < <(compgen -W "$choices" -- "$word")
        return
    fi
    # The arguments before this word, without options and their values.
    for ((place = 2; place < COMP_CWORD; place++)); do
        # (readline takes `=` and `:` for words of their own, so that `exports:/usr` is three)
        case $is_value:${COMP_WORDS[place]} in
        # (a folder stands for the first word)
        no:--site) is_value=yes count=$((count + 1)) ;;
        no:--and | no:--as | no:--base | no:--caller | \
            no:--connections | no:--group | no:--hosts | no:--ignore | \
            no:--key | no:--key-file | no:--mounts | no:--netgroup | \
            no:--networks | no:--passwd | no:--port | no:--proposal | \
            no:--rev | no:--timeout) is_value=yes ;;
        yes:=) ;;
        yes:*) is_value=no ;;
        no::) count=$((count - 1)) ;;
        no:-?*) ;;
        *) count=$((count + 1)) ;;
        esac
    done
    case $command in
    try) choices='--hosts --networks --passwd --group --netgroup --mounts --site --and --zfs --as --why --mountd --json --help' ;;
    check) choices='--hosts --networks --passwd --group --netgroup --mounts --site --and --zfs --brief --strict --json --sarif --opinions --ignore --help' ;;
    clients) choices='--hosts --networks --passwd --group --netgroup --mounts --site --and --zfs --mountd --json --help' ;;
    lists) choices='--hosts --networks --passwd --group --netgroup --mounts --site --and --zfs --help' ;;
    terms) choices='--hosts --networks --passwd --group --netgroup --mounts --site --and --zfs --help' ;;
    compare) choices='--hosts --networks --passwd --group --netgroup --mounts --site --all --json --help' ;;
    test) choices='--hosts --networks --passwd --group --netgroup --mounts --site --and --zfs --json --sarif --help' ;;
    ask) choices='--as --why --mountd --json --help' ;;
    show) choices='--json --help' ;;
    exports) choices='--terms --json --help' ;;
    who) choices='--mountd --json --help' ;;
    put) choices='--proposal --base --caller --key --key-file --help' ;;
    impact) choices='--all --proposal --json --help' ;;
    audit) choices='--proposal --json --sarif --help' ;;
    log) choices='--json --help' ;;
    cat) choices='--rev --json --help' ;;
    proposal) choices='--json --help' ;;
    files) choices='--json --help' ;;
    serve) choices='--port --connections --timeout --help' ;;
    esac
    # A mount point follows `exports:`.
    if [ "$word" = : ] || [ "$before" = : ]; then
        compopt -o filenames
        mapfile -t COMPREPLY < <(compgen -d -- "${word#:}")
        return
    fi
    if [ "$word" = = ]; then
        word=''
    elif [ "$before" = = ]; then
        before=${COMP_WORDS[COMP_CWORD - 2]}
    fi
    case $command:$before:$word in
    check:--and:* | check:--group:* | check:--hosts:* | check:--mounts:* | \
        check:--netgroup:* | check:--networks:* | check:--passwd:* | clients:--and:* | \
        clients:--group:* | clients:--hosts:* | clients:--mounts:* | clients:--netgroup:* | \
        clients:--networks:* | clients:--passwd:* | compare:--group:* | compare:--hosts:* | \
        compare:--mounts:* | compare:--netgroup:* | compare:--networks:* | compare:--passwd:* | \
        lists:--and:* | lists:--group:* | lists:--hosts:* | lists:--mounts:* | \
        lists:--netgroup:* | lists:--networks:* | lists:--passwd:* | put:--key-file:* | \
        terms:--and:* | terms:--group:* | terms:--hosts:* | terms:--mounts:* | \
        terms:--netgroup:* | terms:--networks:* | terms:--passwd:* | test:--and:* | \
        test:--group:* | test:--hosts:* | test:--mounts:* | test:--netgroup:* | \
        test:--networks:* | test:--passwd:* | try:--and:* | try:--group:* | \
        try:--hosts:* | try:--mounts:* | try:--netgroup:* | try:--networks:* | \
        try:--passwd:*)
        compopt -o filenames
        mapfile -t COMPREPLY < <(compgen -f -- "$word")
        ;;
    check:--site:* | clients:--site:* | compare:--site:* | lists:--site:* | \
        terms:--site:* | test:--site:* | try:--site:*)
        compopt -o filenames
        mapfile -t COMPREPLY < <(compgen -d -- "$word")
        ;;
    ask:--as:* | cat:--rev:* | check:--ignore:* | put:--base:* | \
        put:--caller:* | put:--key:* | put:--proposal:* | serve:--connections:* | \
        serve:--port:* | serve:--timeout:* | try:--as:*) ;;
    *:-?*) mapfile -t COMPREPLY < <(compgen -W "$choices" -- "$word") ;;
    *)
        case $command:$count in
        put:1 | impact:1 | audit:2 | log:1 | cat:1 | proposal:1)
            choices='custodians filesystems hosts networks passwd group netgroup exports:'
            mapfile -t COMPREPLY < <(compgen -W "$choices" -- "$word")
            [ "${COMPREPLY[*]}" != exports: ] || compopt -o nospace
            return
            ;;
        esac
        compopt -o filenames
        case $command:$count in
        try:0 | split:0 | split:1 | check:0 | clients:0 | lists:0 | terms:0 | compare:0 | \
            compare:1 | test:0 | test:1 | init:0 | ask:0 | show:0 | exports:0 | who:0 | \
            put:0 | put:2 | impact:0 | impact:2 | audit:0 | audit:1 | audit:3 | log:0 | \
            cat:0 | proposal:0 | files:0 | report:0 | write:0 | copy:0 | copy:1 | serve:0)
            mapfile -t COMPREPLY < <(compgen -f -- "$word")
            ;;
        try:1 | lists:1 | ask:1 | show:1) ;;
        try:2 | clients:1 | init:1 | ask:2 | who:1 | write:1 | try:* | check:* | \
            clients:* | lists:* | terms:* | compare:* | test:*)
            mapfile -t COMPREPLY < <(compgen -d -- "$word")
            ;;
        esac
        ;;
    esac
}
complete -F _exportdesk exportdesk
