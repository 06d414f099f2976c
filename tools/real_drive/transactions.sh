# Transactions of SQLite. Four databases are written at once, one for each mode of the journal.
#
# Transaction N adds three rows, removes those of N - 100, and writes N to a table of one row. So it can be seen whether
# a part of one was done. The text of each row follows from its numbers.
#
# All have synchronous=FULL but `delete`, where a commit is the removal of the journal. There only EXTRA syncs the
# folder after that: with FULL a power cut may take back the last transaction, as SQLite's pages say.
MODES="delete truncate persist wal"

# The text of a row, as an expression.
TEXT="printf('%d.%d.%.*c', n, part, n * 37 % 3000 + part, 'x')"

# Loses a row of the last transaction, and at another start a page.
spoil_database() {
    if spoils_now row.$1; then
        sqlite3 $database "DELETE FROM rows WHERE n = $committed AND part = 2"
    elif spoils_now page.$1; then
        sqlite3 $database "PRAGMA wal_checkpoint(TRUNCATE)" > /dev/null
        dd if=/dev/zero of=$database bs=4096 seek=2 count=1 conv=notrunc 2> /dev/null
    fi
}

# Looks whether a database is sound, and has each transaction that was committed.
look_at() {
    committed=$(tail -n 1 /share/done.$1 2> /dev/null)
    committed=${committed:-0}
    database=/tmp/files/$1
    [ $committed -gt 0 ] && spoil_database $1
    sound=$(sqlite3 $database "PRAGMA integrity_check" 2>&1)
    [ "$sound" = ok ] || tell "$1: integrity_check says $sound"
    # Before the first commit there may be no table yet.
    last=$(sqlite3 $database "SELECT n FROM last" 2>&1)
    case $last in
    '' | *[!0-9]*)
        [ $committed = 0 ] || tell "$1: $committed is committed, and found is: $last"
        return
        ;;
    esac
    # What is committed is written down a little later.
    [ $last -ge $committed ] || tell "$1: $committed is committed, and $last is found"
    kept=$((last > 100 ? 100 : last))
    found=$(sqlite3 $database "SELECT count(*), min(n), max(n), coalesce(sum(text = $TEXT), 0) FROM rows" 2>&1)
    [ $last = 0 ] || [ "$found" = "$((3 * kept))|$((last - kept + 1))|$last|$((3 * kept))" ] ||
        tell "$1: $last is the last, $kept are kept, and the rows are $found"
    echo "$1 $committed $last $found" >> /share/found
}

look() {
    for mode in $MODES; do look_at $mode; done
}

# What is asked of SQLite, without an end. It writes the number of each transaction once that is committed.
statements() {
    echo "PRAGMA journal_mode=$1; PRAGMA synchronous=$([ $1 = delete ] && echo EXTRA || echo FULL);"
    echo "PRAGMA wal_autocheckpoint=50;"
    echo "CREATE TABLE IF NOT EXISTS rows(n, part, text, PRIMARY KEY(n, part));"
    echo "CREATE TABLE IF NOT EXISTS last(n);"
    echo "INSERT INTO last SELECT 0 WHERE NOT EXISTS(SELECT * FROM last);"
    awk -v text="$TEXT" -v n="$2" 'BEGIN { while (1) {
        n++
        print "BEGIN; WITH p(part) AS (VALUES(0), (1), (2)), r(n, part) AS (SELECT " n ", part FROM p)"
        print "INSERT INTO rows SELECT n, part, " text " FROM r;"
        print "DELETE FROM rows WHERE n <= " n " - 100; UPDATE last SET n = " n "; COMMIT;"
        print "SELECT " "\047done " n "\047;"
    } }'
}

# Works on one database until that fails.
work_on() {
    last=$(sqlite3 /tmp/files/$1 "SELECT n FROM last" 2> /dev/null)
    statements $1 ${last:-0} 2> /dev/null | sqlite3 -batch -bail /tmp/files/$1 2> /tmp/stopped.$1 |
        while read -r said number; do
            [ "$said" = "done" ] && echo $number >> /share/done.$1
        done
}

work() {
    for mode in $MODES; do work_on $mode & done
    wait
}
