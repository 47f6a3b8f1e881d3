# What the operator's scripts share: read by them with `.`, and no script itself.
#
# DESKS is nginx's file of desks; STATE the folder of the desks' folders; FARES the program; RUN_NGINX and NGINX_PID how nginx is
# called and where its number stands. They are as the package has them, unless the environment says otherwise.
DESKS=${DESKS:-/etc/fares/desks.conf}
STATE=${STATE:-/var/lib}
FARES=${FARES:-fares}
RUN_NGINX=${RUN_NGINX:-nginx}
NGINX_PID=${NGINX_PID:-/run/nginx.pid}

# Shows the head of the script, and ends with status 2.
usage() {
    sed -n '2,/^[^#]/s/^# \{0,1\}//p' "$0" >&2
    exit 2
}

# The word has to be a desk's digit.
need_digit() {
    case $1 in
    [1-9]) ;;
    *) usage ;;
    esac
}

# The ports of the desks, or of those of one upstream.
ports() {
    sed -n "/^upstream ${1:-}/,/^}/s/^ *server 127\.0\.0\.1:\([0-9]*\) .*/\1/p" "$DESKS"
}

# The addresses of the desks.
addresses() {
    ports | sed 's|^|http://127.0.0.1:|'
}

# get DESK PATH FILE: what the desk answers to GET. The status is curl's: 7 where nothing listens.
get() {
    curl --silent --show-error --fail --noproxy '*' --max-time "${PATIENCE:-120}" --output "$3" "$1/$2"
}

# mark DIGIT WORD: nginx's line of the desk ends with ` WORD;`, or with `;` where WORD is empty. The status is 1 where nothing
# was changed, or there is no such line.
mark() {
    [ -e "$DESKS" ] || return 1
    (
        flock 9
        cp -p "$DESKS" "$DESKS.new" &&
            sed "/127\.0\.0\.1:810$1 /{s/ down;/;/;s/;/${2:+ $2};/;}" "$DESKS" > "$DESKS.new" || exit 1
        if cmp -s "$DESKS" "$DESKS.new"; then
            rm "$DESKS.new"
            exit 1
        fi
        mv "$DESKS.new" "$DESKS"
    ) 9> "$DESKS.lock"
}

# nginx's processes that take requests, without those that only finish what they have.
workers() {
    ps --ppid "$(cat "$NGINX_PID")" -o pid=,args= | sed -n 's/^ *\([0-9]*\) nginx: worker process$/\1/p'
}

# nginx reads its configuration anew; when this returns, no process takes requests by the former one. Where no nginx runs
# there is nothing to do.
reload() {
    [ -s "$NGINX_PID" ] || return 0
    $RUN_NGINX -q -t || return 1
    former=$(workers)
    kill -HUP "$(cat "$NGINX_PID")"
    for _ in $(seq 100); do
        [ -n "$(printf '%s\n' "$former" "$(workers)" | sort | uniq -d)" ] || return 0
        sleep 0.1
    done
    echo "nginx hasn't taken its new configuration" >&2
    return 1
}

# How many connections the desk of a digit has, those among them that wait to be taken.
connections() {
    ss -Htn state established "( sport = :810$1 )" | wc -l
}

# Whether something listens at the port of a digit.
listens() {
    [ -n "$(ss -Hltn "( sport = :810$1 )")" ]
}

# copy_of FILE TARGET: copies a file of editions that no desk has open. Its log, FILE-wal, is a part of it.
copy_of() {
    for end in '' -wal; do
        [ ! -e "$1$end" ] || cp "$1$end" "$2$end" || return 1
    done
}

# whole FILE TARGET: the editions of a file and of its log in one new file.
whole() {
    sqlite3 "$1" "vacuum into '$2'"
}

# lay FILE FOLDER: a copy of the file stands beside the desk's, with the folder's owner, and for the owner alone.
lay() {
    cp "$1" "$2/editions.new" && chmod 600 "$2/editions.new" && chown --reference "$2" "$2/editions.new"
}

# swap FOLDER: of a stopped desk, that copy becomes the file. The former one and its log get the time into their names.
swap() {
    now=$(date +%Y%m%dT%H%M%S)
    for end in '' -wal; do
        [ ! -e "$1/editions$end" ] || mv "$1/editions$end" "$1/editions-before-$now$end" || return 1
    done
    mv "$1/editions.new" "$1/editions"
}
