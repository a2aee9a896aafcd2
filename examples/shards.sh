#!/usr/bin/env bash
# Runs jpq or jpgrep over blocks of a file, or jpq over many files as if they were one, side by side, and writes what one run
# over all of it would write:
#
#     shards.sh [--seq] SCRIPT BLOCKS FILE                 a script of jpq over a file, cut between texts into BLOCKS blocks
#     shards.sh [--seq] SCRIPT 1 FILE FILE..               the same over several files, in their order
#     shards.sh --jpgrep BLOCKS FILE [OPTION].. [QUERY]    jpgrep over a file, cut between lines
#
# Of several files each but the last ends with a line feed; with --seq each begins with the byte 1E. The script may have all
# commands but the two that edit. jpgrep may have the options that ask each line by itself: -e, -w, --each, -v, -o, -p, -c, -r,
# -j, -n, -s, -h, --csv and --tsv with --header and --names, and --refused, in their long forms too.
#
# It runs on GNU parallel, whose options can be given in the variable PARALLEL. With MACHINES=one,two (what parallel takes after
# --sshlogin) the blocks go to two other machines, which need the program, perl and rsync on their paths; a block that is lost
# with a machine is tried on the others.
#
# Each row is about one text, so a block answers for its texts what the whole would. Only the numbers differ. To those of jpq's
# rows the number of texts before the block is added, which jpq itself counts (`check`), and the counts are summed. jpgrep reads
# a blank line for each line before the block, so its rows and messages have the right numbers.
#
# Status of jpq: 0: what was written is what one run would write. 2: the arguments or the files are wrong. 1: a block was not
# answered, or ran out of memory for a command (`error: memory`): nothing was written, and more blocks may help. 15: the answers
# cannot be written. If `head` has read enough it is 141.
#
# Status of jpgrep: as that of one run, which is 2 if it is 2 for a block, else 0 if it is 0 for a block, else 1. 3: a block was
# not answered, and nothing was written.
set -euo pipefail
export LC_ALL=C
refuse() { echo "shards.sh: $2" >&2; exit "$1"; }
usage() {
    echo 'usage: shards.sh [--seq] SCRIPT BLOCKS FILE..' >&2
    echo '       shards.sh --jpgrep BLOCKS FILE [OPTION].. [QUERY]' >&2
    exit 2
}
# is_cuttable FILE: refuses what is not a file, as a pipe, which can be read only once.
is_cuttable() { [ -f "$1" ] && [ -r "$1" ] || refuse 2 "no file that can be read and cut: $1"; }
# is_number BLOCKS
is_number() { [[ $1 =~ ^[1-9][0-9]*$ ]] || refuse 2 "not a number of blocks: $1"; }
# enter: makes the folder $room, where all blocks and answers are until the end.
enter() {
    room=$(mktemp -d)
    trap 'rm -rf "$room"' EXIT
}
# cut NUMBER BLOCKS FILE: cuts a file after the byte $end, and puts $front at the front of each block but the very first.
end=$'\n' front=''
export front
cut() {
    split -e -n "l/$2" -t "$end" -a 4 \
        --filter='{ case $FILE in */000001.aaaa) ;; *) printf %s "$front" ;; esac; cat; } > "$FILE"' \
        "$3" "$room/$(printf %06d "$1")."
}
# on_machines SHARED BLOCK ANSWER..: what parallel is told where there are other machines.
elsewhere=()
on_machines() {
    local answer
    [ -n "${MACHINES-}" ] || return 0
    elsewhere=(--sshlogin "$MACHINES" --workdir ... --transferfile "$1" --transferfile "$2" --cleanup --retries 3)
    for answer in "${@:3}"; do elsewhere+=(--return "$answer"); done
}

# Reads the arguments of jpgrep into `arguments`, and into `others` without what prints a header, as only the first block does.
short=e:w:vopcrjnsh
long=query:,where:,each:,invert-match,refused,only-matching,path,count,raw,canonical,tsv,csv,header,names:,line-number
long=$long,no-messages,no-filename
read_arguments() {
    local parsed most=1
    arguments=("$@") others=() is_counted=''
    parsed=$(getopt -n shards.sh -o $short -l $long -- "$@") || refuse 2 'not for jpgrep over blocks'
    eval "set -- $parsed"
    while [ "$1" != -- ]; do
        case $1 in
            -c | --count) is_counted=1 ;;
            -e | --query | -w | --where | --each | --refused) most=0 ;;
        esac
        case $1 in
            -e | --query) others+=("--query=$2"); shift ;;
            -w | --where) others+=("--where=$2"); shift ;;
            --each) others+=("--each=$2"); shift ;;
            --names) shift ;;
            --header) ;;
            *) others+=("$1") ;;
        esac
        shift
    done
    others+=("$@")
    [ $# -le $((most + 1)) ] || refuse 2 'jpgrep over blocks takes one file'
}
# quoted ARGUMENT..: the arguments as sh reads them.
quoted() { printf "'%s' " "${@//\'/\'\\\'\'}"; }
# is_filled BLOCK BEFORE: whether a line of the block is not blank. A byte order mark at the front of the file is not part of one.
is_filled() {
    awk -v before="$2" 'NR == 1 && before == 0 { sub(/^\xef\xbb\xbf/, "") }
        /[^ \t\r]/ { found = 1; exit }
        END { exit !found }' "$1"
}
# of_blocks: the messages of all blocks in turn, without those in the file `early`, which each block writes before it reads a line,
# and without the note in the file `note`, which a block ends with if no line is selected in it; if one is, the file `selected`
# is made. That a text goes on in the next line is said of the first line that is not blank, and only there.
of_blocks() {
    local before part lines had_lines=''
    lines=$(wc -l < note)
    while read -r before part; do
        tail -n "+$(($(wc -l < early) + 1))" "$part.said" > rest
        if [ "$lines" -gt 0 ] && tail -n "$lines" rest | cmp -s - note; then
            head -n "-$lines" rest
        else
            : > selected
            cat rest
        fi | { [ -z "$had_lines" ] && cat || grep -a -v '^jpgrep: (standard input): a JSON text goes on' || true; }
        [ -n "$had_lines" ] || ! is_filled "$part" "$before" || had_lines=1
    done < parts
}
# as_one NAME: the messages of all blocks become those of one run: on ten refused lines, and on how many more there are.
as_one() {
    name=$1 awk '
        BEGIN { start = "jpgrep: (standard input):" }
        function tell(message) { print "jpgrep: " ENVIRON["name"] ":" message }
        substr($0, 1, length(start)) != start { print; next }
        { said = substr($0, length(start) + 1) }
        said ~ /^ [0-9]+ more lines? (is|are) refused;/ { more += $4; next }
        said ~ /^ a JSON text goes on/ { goes_on = said; next }
        said ~ /^[0-9]+: [a-z0-9]+$/ && ++told > 10 { more++; next }
        { tell(said) }
        END {
            if (more) tell(" " more (more == 1 ? " more line is" : " more lines are") " refused; --refused lists them")
            if (goes_on) tell(goes_on)
        }'
}
over_blocks() {
    local blocks=$1 name=$2 file=$2 status=0 checked=0 before=0 part
    is_number "$blocks"
    case $file in -*) file=./$file ;; esac
    is_cuttable "$file"
    read_arguments "${@:3}"
    enter
    # What jpgrep writes before it reads a line, such as what is wrong with a query, is written once. After a pattern that is not
    # valid, of which --check warns with status 1, it goes on, and ends with status 2 in any case.
    jpgrep --check "${arguments[@]}" > /dev/null 2>&1 || checked=$?
    jpgrep "${arguments[@]}" < /dev/null > /dev/null 2> "$room/common" || status=$?
    [ $status -le 1 ] || [ $status,$checked = 2,1 ] || { cat "$room/common" >&2; exit $((status == 2 ? 2 : 3)); }
    # Compressed data are refused as a whole; their first bytes are enough to recognize them.
    status=0
    head -c 16 "$file" | jpgrep -q --refused 2> /dev/null || status=$?
    [ $status -le 1 ] || { status=0; jpgrep "${arguments[@]}" "$file" || status=$?; exit $status; }
    cut 1 "$blocks" "$file"
    [ -s "$file" ] || : > "$room/000001.aaaa"
    cd "$room"
    for part in ./[0-9]*; do
        echo "$before $part"
        before=$((before + $(wc -l < "$part")))
    done > parts
    {
        echo "before=\$1 block=\$2 status=0"
        echo "if [ \$before = 0 ]; then set -- $(quoted "${arguments[@]}"); else set -- $(quoted "${others[@]}"); fi"
        cat << 'END'
{ yes '' 2> /dev/null | head -n "$before"; cat "$block"; } | jpgrep "$@" > "$block.rows" 2> "$block.said" || status=$?
echo $status > "$block.status"
[ $status -le 2 ]
END
    } > run
    on_machines ./run '{2}' '{2}.rows' '{2}.said' '{2}.status'
    parallel -k --colsep ' ' "${elsewhere[@]}" 'sh ./run {1} {2}' < parts > /dev/null || refuse 3 'a block was not answered'
    sed '/^jpgrep: note: /,$d' common > early
    sed -n '/^jpgrep: note: /,$p' common > note
    of_blocks > said
    status=0
    if [ -n "$is_counted" ]; then
        awk '{ count += $1 } END { printf "%.0f\n", count }' ./*.rows
    else
        cat ./*.rows 2> /dev/null
    fi || status=$?
    { cat early && as_one "$name" < said && { [ -e selected ] || cat note; }; } >&2
    case $status,$(sort -u ./*.status | paste -s -d ' ') in
        0,*2) exit 2 ;;
        0,0*) exit 0 ;;
        0,*) exit 1 ;;
        141,*) exit 2 ;;
        *) echo 'jpgrep: cannot write' >&2; exit 2 ;;
    esac
}

if [ "${1-}" = --jpgrep ]; then
    [ $# -ge 3 ] || usage
    over_blocks "${@:2}"
fi
seq=''
if [ "${1-}" = --seq ]; then
    seq=--seq
    shift
fi
[ $# -ge 3 ] || usage
script=$1 blocks=$2
shift 2
is_number "$blocks"
enter
cat -- "$script" > "$room/script" || refuse 2 "cannot read $script"
if edit=$(grep -a -n -E '^(append|replace) ' "$room/script"); then
    refuse 2 "not for a script with: $(head -n 1 <<< "$edit")"
fi
printf '\ncheck\n' >> "$room/script"

# jpq drops one byte order mark at the front of a collection. Each block but the first gets one to be dropped, so that a mark
# that it begins with stays, and its line is refused as in one run. With --seq a block is cut after the byte 1E, so the next
# gets that at its front instead.
front=$'\xef\xbb\xbf'
[ -z "$seq" ] || end=$'\x1e' front=$'\x1e'
number=0 last=''
for file; do
    # for `split` a hyphen in front begins an option
    case $file in -*) file=./$file ;; esac
    is_cuttable "$file"
    [ -s "$file" ] || continue
    if [ -z "$seq" ] && [ -n "$last" ] && [ -n "$(tail -c 1 "$last")" ]; then
        refuse 2 "no line feed at the end of $last"
    elif [ -n "$seq" ] && [ -n "$last" ] && [ "$(head -c 1 "$file")" != "$end" ]; then
        refuse 2 "no 1E at the front of $file"
    fi
    last=$file number=$((number + 1))
    cut "$number" "$blocks" "$file"
done
[ $number -gt 0 ] || : > "$room/000001.aaaa"
# The names are told from here on, so that on another machine they stand in a folder of its own.
cd "$room"
on_machines ./script '{}' '{}.rows'
printf './%s\n' [0-9]* > parts
parallel -k "${elsewhere[@]}" "jpq {} --script ./script $seq > {}.rows" < parts || refuse 1 'a block was not answered'

# The rows of each command go to a file of their own, block by block. A line that begins with one of the words below ends an
# answer: no row begins so, and no line within a value.
awk -v seq="$seq" '
    function fails(why) {
        print "shards.sh: " why > "/dev/stderr"
        failed = 1
        exit 1
    }
    # the numbers of two closing lines added, word by word
    function sum(old, new,    words, more, count, place, text) {
        count = split(old, words, " ")
        split(new, more, " ")
        for (place = 1; place <= count; place++) {
            if (more[place] ~ /^[0-9]+$/) words[place] = sprintf("%.0f", words[place] + more[place])
            text = text (place > 1 ? " " : "") words[place]
        }
        return text
    }
    function ends(row) { return row ~ /^(= |error: |open |indexed |dropped)/ }
    # the end of an answer, joined to what is kept from the blocks before
    function joined(kept, row, is_first, is_list) {
        if (row == "error: memory") fails("a block has no memory for command " command + 1)
        if (is_first || kept == row && (is_list || row ~ /^(error: |dropped)/)) return row
        if (is_list || kept ~ /^(error: |dropped)/ || row ~ /^(error: |dropped)/)
            fails("the blocks differ on command " command + 1)
        return sum(kept, row)
    }
    {
        part = $0
        is_first = NR == 1
        command = 0
        in_value = is_list = 0
        row_start = seq == "" ? 1 : 2
        while ((getline row < (part ".rows")) > 0) {
            rows = "rows." command
            if (ends(row)) {
                close(rows)
                end[command] = joined(end[command], row, is_first, is_list)
                command++
                in_value = is_list = 0
            } else if (in_value && substr(row, 1, 1) != "\036") {
                print row >> rows
            } else if (substr(row, 1, row_start) ~ /[0-9]$/) {
                tab = index(row, "\t")
                number = sprintf("%.0f", substr(row, row_start, tab - row_start) + before)
                print substr(row, 1, row_start - 1) number substr(row, tab) >> rows
                in_value = seq != ""
            } else {
                # a path of `indexes`, a step of `explain`: each block says the same
                is_list = is_list || substr(row, 1, 1) == "$"
                if (is_first) print row >> rows
            }
        }
        close(part ".rows")
        split(end[command - 1], words, " ")
        before = words[2]
    }
    END {
        if (failed) exit 1
        for (command = 0; (command + 1) in end; command++) {
            while ((getline row < ("rows." command)) > 0) print row
            print end[command]
        }
    }' parts || {
    status=$?
    [ $status -ne 2 ] || refuse 15 'cannot write' # awk's own status for that
    exit $status
}
