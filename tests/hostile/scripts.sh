#!/usr/bin/env bash
# Sends `fj` scripts and trees as an attacker would write them: cut after each byte, with lines that are none, without a line feed in a gigabyte,
# of the largest limits and past them. Each run must end with a status and a text of docs/SCRIPT.md, with the right replies before it, in the
# memory that it may have.
# Needs the built program, crates/fj/out/fj, and some twenty seconds.
set -euo pipefail
cd "$(dirname "${BASH_SOURCE[0]}")/../.."
. tests/hostile/trial.bash

# gives WHAT COMMAND INPUT OUTPUT STATUS TEXT: what the command does with this input. In both `;` stands for a line feed.
gives() {
    printf '%s' "${3//;/$'\n'}" > "$folder/in"
    printf '%s' "${4//;/$'\n'}" > "$folder/wanted"
    run "$2" < "$folder/in" > "$folder/out"
    ended "$1" "$5" "$6"
    cmp "$folder/wanted" "$folder/out" || fail "$1: other replies"
}

# is_cut INPUT OUTPUT: a script, of whose lines only the first has no reply, is cut after each byte.
is_cut() {
    local input=$1 replies=$2 length part whole wanted
    for ((length = 0; length <= ${#input}; length++)); do
        part=${input:0:length}
        whole=${part//[^;]/}
        wanted=$(cut -d ';' -f "1-$((${#whole} > 1 ? ${#whole} - 1 : 0))" 2> /dev/null <<< "$replies" || true)
        [[ -z $wanted ]] || wanted+=';'
        if [[ $part == *';' ]]; then
            gives "a script, after $length bytes" replay "$part" "$wanted" 0 ""
        else
            gives "a script, after $length bytes" replay "$part" "$wanted" 3 "fault: line $((${#whole} + 1))"
        fi
    done
}
is_cut \
    'async 1 1 4 64;submit 0;poll 0 0;trigger 0 1;fork 0 1 0 relay;fork 0 1 0 relay;end 0 ok;poll 0 0;end 0 try;hook 0;poll 0 0;end 0 try;hook 0;hook 0;state 1;state 2;' \
    'task 0;run 0;task 1;task 2;task 3;done;run 2;hook 2;counted 1;run 3;hook 3;hook 1;root 1;state gone normal;state gone undone;'

# A tree has a value for each beginning of whole lines, and none for any other: of the nodes 5, 2, 3 and 4, 5 + 1 * 2 and so on.
tree='- 5;0 2;0 3;1 4;'
values=('' 5 7 13 17)
for ((length = 0; length <= ${#tree}; length++)); do
    part=${tree:0:length}
    whole=${part//[^;]/}
    if [[ $part == *';' ]]; then
        gives "a tree, after $length bytes" tree "$part" "${values[${#whole}]};" 0 ""
    else
        gives "a tree, after $length bytes" tree "$part" "" 3 "fault: line $((${#whole} + 1))"
    fi
done

# What is no line, behind a good one.
letters=$(printf 'a%.0s' {1..65})
no_steps=('' ' submit 0' 'submit  0' 'submit 0 ' 'submit 00' 'submit +1' 'submit -1' 'submit 4294967296' 'SUBMIT 0' 'Submit 0' $'submit 0\r' $'submit\t0'
    'fork 0 - 0' 'end 0 fail' 'state -' 'submit' 'submit 0 0' 'async 1 1 1 4' 'seal' $'\xff' $'submit 0\xff' $'\xef\xbb\xbfsubmit 0' "$letters" "${letters}a" "${letters}aa")
for line in "${no_steps[@]}"; do
    gives "the line '$line'" replay "async 1 1 1 4;$line;submit 0;" "" 3 "fault: line 2"
done
no_nodes=('' ' 0 2' '0  2' '0 2 ' '00 2' '0 02' '+0 2' '0 +2' '0 -1' '0 1000000007' '1 2' '- 2' '0' '0 2 3' $'0 2\r' $'0\t2' $'\xff' "$letters" "${letters}aa")
for line in "${no_nodes[@]}"; do
    gives "the node '$line'" tree "- 5;$line;0 3;" "" 3 "fault: line 2"
done
printf 'async 1 1 1 4\nsubmit 0\0\n' > "$folder/in"
run replay < "$folder/in" > "$folder/out"
ended "a zero byte" 3 "fault: line 2"

# A line of a gigabyte is at fault, and takes no memory: there are 64 MB of addresses.
for command in replay tree; do
    { [[ $command == tree ]] && echo '- 5' || echo 'async 1 1 1 4'; head -c 1000000000 /dev/zero | tr '\0' a; } |
        { ulimit -v 65536; run $command > "$folder/out"; echo "$status" > "$folder/status"; } || true
    status=$(cat "$folder/status")
    ended "fj $command, a line without an end" 3 "fault: line 2"
done

# The largest limits: as many tasks as may be kept, all of the last submitter, and then each number too large by one, or as large as may be.
cat > "$folder/rows" << 'EOF_ROWS'
submit 31 > refused 2
submit 31 65536 relay > refused 10
submit 32 > refused 4
poll 31 63 > run 0
poll 30 4294967295 > run 1
poll 31 0 > refused 14
state 4294967295 > refused 5
fork 29 4294967295 0 relay > refused 6
fork 30 4294967295 0 relay > refused 5
EOF_ROWS
{ echo "async 32 32 4096 1048576"; for ((i = 0; i < 4096; i++)); do echo "submit 31"; done; sed 's/ > .*//' "$folder/rows"; } > "$folder/in"
{ for ((i = 0; i < 4096; i++)); do echo "task $i"; done; sed 's/.* > //' "$folder/rows"; } > "$folder/replies"
run replay < "$folder/in" > "$folder/out"
ended "the largest limits" 0 ""
cmp "$folder/replies" "$folder/out"
for numbers in "33 1 1 1" "1 33 1 1" "1 1 4097 1" "1 1 1 1048577" "0 1 1 1" "1 0 1 1" "1 1 0 1" "1 1 1 0" "4294967295 4294967295 4294967295 4294967295"; do
    gives "limits $numbers" replay "async $numbers;submit 0;" "" 3 "refused 13"
done

# The largest history, full to its last event, in 128 MB of addresses.
awk 'BEGIN { print "async 32 32 4096 1048576"
    for (i = 0; i < 209715; i++) print "submit 0\npoll 0 0\nend 0 ok\nrelease " i
    print "submit 0\nsubmit 0\nshutdown\nstate 209715\nstate 0" }' > "$folder/in"
awk 'BEGIN { for (i = 0; i < 209715; i++) print "task " i "\nrun " i "\ndone\ndone"
    print "task 209715\nrefused 3\nrefused 3\nstate queued 0 undone\nrefused 5" }' > "$folder/replies"
(ulimit -v 131072; run replay < "$folder/in" > "$folder/out"; ended "the largest history" 0 "")
cmp "$folder/replies" "$folder/out"

# 3,000 names in as many epochs, and in ten, end well.
for each in 1 300; do
    awk -v each=$each 'BEGIN { print "fj 2\nasync 1 1 1", 5 * each
        for (i = 0; i < 3000; i++) print "submit n" i " 0\npoll 0 0\nend 0 ok\nrelease n" i ((i + 1) % each ? "" : "\nseal") }' > "$folder/in"
    awk -v each=$each 'BEGIN { for (i = 0; i < 3000; i++)
        print "task n" i "\nrun n" i "\ndone\ndone" ((i + 1) % each ? "" : "\nsealed " int(i / each) " " 5 * each) }' > "$folder/replies"
    run replay < "$folder/in" > "$folder/out"
    ended "3,000 names, sealed after each $each" 0 ""
    cmp "$folder/replies" "$folder/out"
done

# Of names there is no end, so they come to the end of what memory there is, here 24 MB of addresses: a beginning of the replies has gone out.
awk 'BEGIN { print "fj 2\nasync 1 1 2 16"
    for (i = 0; i < 600000; i++) print "submit a" i " 0\npoll 0 0\nend 0 ok\nrelease a" i "\nseal" }' > "$folder/in"
awk 'BEGIN { for (i = 0; i < 600000; i++) print "task a" i "\nrun a" i "\ndone\ndone\nsealed " i " 5" }' > "$folder/replies"
(ulimit -v 24576; run replay < "$folder/in" > "$folder/out"; ended "names without end" 4 "out of memory")
[[ -s $folder/out ]] || fail "names without end: no replies"
begins "names without end" "$folder/out"

# The largest trees: 4,000 nodes below each other, or all below the first. One node more is a fault of its line.
chain=$(awk 'BEGIN { print "- 1"; for (i = 0; i < 3999; i++) print i " 1" }')
star=$(awk 'BEGIN { print "- 1"; for (i = 0; i < 3999; i++) print "0 1" }')
for workers in 1 4 32; do
    for rows in "$chain > 4000" "$star > 7998001"; do
        run tree --workers "$workers" <<< "${rows% > *}" > "$folder/out"
        ended "a tree of 4,000 nodes, by $workers" 0 ""
        [[ $(cat "$folder/out") == "${rows##* > }" ]] || fail "a tree of 4,000 nodes, by $workers: $(cat "$folder/out")"
    done
done
run tree <<< "$star"$'\n'"0 1" > "$folder/out"
ended "a tree of 4,001 nodes" 3 "fault: line 4001"
echo "each script and each tree ended as documented"
