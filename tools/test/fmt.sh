#!/usr/bin/env bash
# Runs `fmt` of the program wat_tokens to each of its exit statuses, in a new folder, and checks its output, its reports and the files that it leaves.
#
# usage: tools/test/fmt.sh PROGRAM
set -euo pipefail
umask 022
program=$(realpath "${1:?usage: tools/test/fmt.sh PROGRAM}")
tools=$(realpath "$(dirname "$0")/..")
room=$(mktemp -d)
trap 'rm -rf "$room"' EXIT
mkdir "$room/files"
cd "$room/files"
faults=0 compared=0

# The command prefix that runs the program as a user without root's permissions.
plain_user=()
if [ "$(id -u)" = 0 ]; then
    plain_user=(setpriv --reuid=65534 --regid=65534 --clear-groups)
    chmod 755 "$room"
    cp "$program" "$room/program"
    chmod 755 "$room/program"
    program=$room/program
fi
user=()

# expect NAME WANTED GOT: compares two strings
expect() {
    compared=$((compared + 1))
    if [ "$2" != "$3" ]; then
        printf 'fmt.sh: %s: wanted %q, got %q\n' "$1" "$2" "$3"
        faults=$((faults + 1))
    fi
}

# run STATUS ARGUMENT..: runs the program on the text in the file `in`, for two minutes at most, and compares its status
run() {
    local wanted=$1 status=0
    shift
    timeout 120 "${user[@]}" "$program" "$@" < in > out 2> err || status=$?
    expect "status of $*" "$wanted" "$status"
}

# can_be_plain: succeeds if the program can be run as that user
can_be_plain() {
    "${plain_user[@]}" "$program" --version > /dev/null 2>&1 || {
        echo 'fmt.sh: what another user may not do is left out, as the program can not be run as one here'
        return 1
    }
}

# run_plain STATUS ARGUMENT..: runs the program like `run`, as that user
run_plain() {
    user=("${plain_user[@]}")
    run "$@"
    user=()
}

printf '( a\n b )\n' > messy
printf '(a\n  b)\n' > neat
printf 'a "' > faulty
printf 'a \351' > bytes
cp messy in

run 0 fmt
expect 'standard output' "$(cat neat)" "$(cat out)"
run 0 fmt -
expect 'standard input as a file' "$(cat neat)" "$(cat out)"
run 0 fmt messy neat
expect 'two files' "$(cat neat neat)" "$(cat out)"
run 1 fmt --check
expect '--check of standard input' '<stdin>' "$(cat out)"
run 1 fmt --check -
expect '--check of standard input as a file' '<stdin>' "$(cat out)"
run 1 fmt --check neat messy
expect '--check of files' messy "$(cat out)"
run 0 fmt --check -- neat
expect '--check of a neat file' '' "$(cat out)"
expect '--check reports nothing' '' "$(cat err)"
run 1 fmt faulty
expect 'nothing is written of a fault' '' "$(cat out)"
expect 'report of a fault' $'unexpected end-of-file\n     --> faulty:1:4\n      |\n    1 | a "\n      |    ^' "$(cat err)"
run 1 fmt --check faulty
expect '--check of a fault' $'unexpected end-of-file\n     --> faulty:1:4\n      |\n    1 | a "\n      |    ^' "$(cat err)"
run 2 fmt bytes neat
expect 'report of bytes' 'wat_tokens: bytes: input is not UTF-8 at byte 2' "$(cat err)"
expect 'the file after them' "$(cat neat)" "$(cat out)"
run 2 fmt missing
expect 'report of a missing file' 'wat_tokens: missing: open failed: no such file or directory' "$(cat err)"
run 2 fmt --check missing messy
expect '--check goes on' messy "$(cat out)"
run 2 fmt --no-such-option
run 1 fmt messy --check
expect 'an option after a file' messy "$(cat out)"
run 2 fmt --check --write
expect 'two options of what is done' 'wat_tokens: fmt takes one of --check, --write and --diff' "$(head -1 err)"
run 2 --json fmt
for words in '--write' '--write -' '--write -- -'; do
    # shellcheck disable=SC2086
    run 2 fmt $words
    expect "report of $words" 'wat_tokens: <stdin>: no file to write' "$(cat err)"
    expect 'nothing is written then' '' "$(cat out)"
done

chmod 640 messy
ln -s messy link
before=$(stat -c '%i %Y' neat)
run 1 fmt --write link neat faulty
expect 'a file that is written' "$(cat neat)" "$(cat messy)"
expect 'its permissions' 640 "$(stat -c %a messy)"
expect 'a link stays a link' 'symbolic link' "$(stat -c %F link)"
expect 'a neat file is not touched' "$before" "$(stat -c '%i %Y' neat)"
expect 'a file with a fault stays' 'a "' "$(cat faulty)"
expect '--write writes nothing else' '' "$(cat out)"
expect 'nothing is left beside' 'bytes err faulty in link messy neat out' "$(echo *)"
run 0 fmt --check messy link

printf '( a )' > busy
touch busy.wat_tokens
run 2 fmt --write busy
expect 'report of a temporary file that is there' 'wat_tokens: busy: busy.wat_tokens is there already: remove it, or another run is at work' "$(cat err)"
expect 'a file whose temporary one is there stays' '( a )' "$(cat busy)"
expect 'and that one too' '' "$(cat busy.wat_tokens)"
ln -s busy to_busy
run 2 fmt --write to_busy
expect 'the same by a link' "wat_tokens: to_busy: $(realpath busy).wat_tokens is there already: remove it, or another run is at work" "$(cat err)"
rm busy.wat_tokens to_busy
run 0 fmt --write busy
expect 'and is written without it' '(a)' "$(cat busy)"

# A full disk, and a limit of 40 KiB for files that the formatted text exceeds: the file must stay as it was.
if [ -w /dev/full ]; then
    status=0
    "$program" fmt messy > /dev/full 2> err || status=$?
    expect 'status of a full disk' 2 "$status"
    expect 'report of a full disk' 'wat_tokens: messy: write failed: no space left on device' "$(cat err)"
fi
status=0
(ulimit -f 40; trap '' XFSZ; { printf '(a\n%.0s' {1..9000}; } > deep; cp deep old; "$program" fmt --write deep 2> err) || status=$?
expect 'status of a file too large' 2 "$status"
expect 'report of a file too large' 'wat_tokens: deep: write failed: file too large' "$(cat err)"
expect 'the file is as it was' "$(md5sum < old)" "$(md5sum < deep)"
expect 'and nothing is left beside it' 'deep.*' "$(echo deep.*)"

# A temporary file that cannot be created.
long=$(printf 'n%.0s' {1..250})
printf '( a )' > "$long"
run 2 fmt --write "$long"
expect 'report of a name too long' "wat_tokens: $long: $long.wat_tokens: open failed: file name too long" "$(cat err)"
expect 'that file stays' '( a )' "$(cat "$long")"
if can_be_plain; then
    mkdir locked
    printf '( a )' > locked/a.wat
    chmod 555 locked
    run_plain 2 fmt --write locked/a.wat
    expect 'report of a folder that may not be written' 'wat_tokens: locked/a.wat: locked/a.wat.wat_tokens: open failed: permission denied' "$(cat err)"
    expect 'its file stays' '( a )' "$(cat locked/a.wat)"
    chmod 755 locked
fi

# A file that nobody may write.
printf '( a )' > fixed
printf '(b)\n' > laid
chmod 444 fixed laid
before=$(stat -c '%i %Y %a' fixed)
run 2 fmt --write fixed
expect 'report of a read-only file' 'wat_tokens: fixed: read-only, left as it is' "$(cat err)"
expect 'it stays' "( a ) $before" "$(cat fixed) $(stat -c '%i %Y %a' fixed)"
expect 'and nothing is left beside it' 'fixed' "$(echo fixed*)"
ln -s fixed to_fixed
run 2 fmt --write to_fixed
expect 'the same by a link' 'wat_tokens: to_fixed: read-only, left as it is' "$(cat err)"
run 0 fmt --write laid
expect 'one that is laid out is not reported' '' "$(cat err)"
chmod 424 fixed
run 0 fmt --write fixed
expect 'one that some may write is written' '(a) 424' "$(cat fixed) $(stat -c %a fixed)"

# What is not a regular file. Something writes to the FIFO, since otherwise a program that opens it would wait.
mkfifo pipe
ln -s pipe to_pipe
for file in pipe to_pipe /dev/null; do
    (printf '( a )' > pipe) &
    writer=$!
    run 2 fmt --write "$file"
    expect "report of $file" "wat_tokens: $file: not a regular file, left as it is" "$(cat err)"
    kill "$writer" 2> /dev/null || true
    wait "$writer" 2> /dev/null || true
done
run 2 fmt --write pipe
expect 'report of a FIFO that nobody writes' 'wat_tokens: pipe: not a regular file, left as it is' "$(cat err)"
expect 'a FIFO stays one' 'fifo character special file' "$(stat -c %F pipe /dev/null | tr '\n' ' ' | sed 's/ $//')"
rm pipe to_pipe

# state FILE..: prints the type, inode, owner, group, permissions, length, time and a hash of the text of files
state() {
    stat -c '%F %i %u:%g %a %s %y' "$@" 2>&1 || true
    cat "$@" 2>&1 | md5sum || true
}

# Owners and groups.
if [ "$(id -u)" = 0 ]; then
    for mode in 600 664 4755 2755 6711; do
        printf '( a )' > owned
        chown 1000:3000 owned
        chmod "$mode" owned
        run 0 fmt --write owned
        expect "owner and group of a file with permissions $mode" "(a) 1000:3000 $mode" "$(cat owned) $(stat -c '%u:%g %a' owned)"
    done
    for owner in 1000:0 0:3000; do
        printf '( a )' > owned
        chown "$owner" owned
        run 0 fmt --write owned
        expect "a file of $owner" "(a) $owner" "$(cat owned) $(stat -c %u:%g owned)"
    done
    mkdir of_group
    chown :2000 of_group
    chmod 2775 of_group
    printf '( a )' > of_group/a.wat
    chown 1000:3000 of_group/a.wat
    run 0 fmt --write of_group
    expect 'owner and group in a set-group-ID folder' '(a) 1000:3000' "$(cat of_group/a.wat) $(stat -c %u:%g of_group/a.wat)"
fi
if [ "$(id -u)" = 0 ] && can_be_plain; then
    mkdir plain
    printf '( a )' | tee plain/of_root plain/of_group > plain/all_own
    cp plain/of_root plain/set_id
    chown 65534:65534 plain plain/all_own
    chown 65534:0 plain/of_group
    chmod 4755 plain/set_id
    for file in of_root of_group set_id; do
        before=$(state "plain/$file")
        run_plain 2 fmt --write "plain/$file"
        expect "report of $file" "wat_tokens: plain/$file: its owner or group cannot be kept, left as it is" "$(cat err)"
        expect "$file stays" "$before" "$(state "plain/$file")"
    done
    run_plain 0 fmt --write plain/all_own
    expect 'a file whose owner and group stay is written' '(a) 65534:65534' "$(cat plain/all_own) $(stat -c %u:%g plain/all_own)"
    expect 'and nothing is left beside them' 'plain/all_own plain/of_group plain/of_root plain/set_id' "$(echo plain/*)"
fi

# A private file: another user opens its temporary file as often as possible; if no other user can run Python, this one does.
watch=(python3)
for python in $(type -ap python3); do
    ! "${plain_user[@]}" "$python" -c '' 2> /dev/null || watch=("${plain_user[@]}" "$python")
done
printf '( a )' > private
chmod 600 private
"${watch[@]}" - private.wat_tokens < "$tools/test/fmt/open_often.py" > watched &
watcher=$!
until [ -s watched ] || ! kill -0 "$watcher"; do sleep 0.1; done
for ((i = 0; i < 300; i++)); do
    kill -0 "$watcher" 2> /dev/null || break
    printf '( a )' > private
    "$program" fmt --write private || expect 'status of a private file' 0 $?
done
kill "$watcher" 2> /dev/null || true
wait "$watcher" || true
expect 'a private file is written' '(a) 600' "$(cat private) $(stat -c %a private)"
expect 'its temporary file is not open to others' $'ready\n0 opened, 0 read' "$(cat watched)"

# process_state PID: prints the letter of a process's state, or nothing if there is no such process
process_state() {
    local letter=
    { read -r _ _ letter _ < "/proc/$1/stat"; } 2> /dev/null || true
    echo "$letter"
}

# stop_midway: starts `fmt --write changing` as process `pid`, and stops it while it writes the 20 MB of its temporary file
stop_midway() {
    local try
    for try in {1..20}; do
        # The file is changed in the second in which it is made, unless the machine is slow.
        until [[ $(date +%N) < 3 ]]; do :; done
        rm -f changing
        cp long changing
        "$program" fmt --write changing < /dev/null > out 2> err &
        pid=$!
        until [ -e changing.wat_tokens ] || [[ $(process_state "$pid") != [RSD] ]]; do :; done
        kill -STOP "$pid" 2> /dev/null || true
        while [[ $(process_state "$pid") = [RSD] ]]; do :; done
        [ "$(process_state "$pid")" != T ] || [ ! -e changing.wat_tokens ] || return 0
        kill -CONT "$pid" 2> /dev/null || true
        wait "$pid" || true
    done
    echo "fmt.sh: the program ended $try times before it was stopped"
    return 1
}

# change NAME COMMAND: runs a command while the program is stopped, and checks that the program leaves what the command left
change() {
    local before status=0
    stop_midway || {
        faults=$((faults + 1))
        return
    }
    eval "$2"
    before=$(state changing)
    kill -CONT "$pid"
    wait "$pid" || status=$?
    expect "status: $1" 2 "$status"
    expect "report: $1" 'wat_tokens: changing: changed or removed meanwhile, left as it is' "$(cat err)"
    expect "the file: $1" "$before" "$(state changing)"
    expect "nothing is left beside it: $1" 'changing.*' "$(echo changing.*)"
}

# Files that change after they were opened.
if [ -e /proc/self/stat ]; then
    { printf '( a )\n;; '; head -c 20000000 /dev/zero | tr '\0' x; } > long
    change 'another text' "printf '(other work)' > changing"
    change 'another text of this length and time' \
        'touch -r changing time; printf b | dd of=changing bs=1 seek=2 conv=notrunc status=none; touch -r time changing'
    change 'another file' 'cp long other; mv other changing'
    change 'no file' 'rm changing'
    change 'a link' 'rm changing; ln -s neat changing'
    change 'other permissions' 'chmod 600 changing'
    rm -f changing long time
else
    echo 'fmt.sh: what happens if a file changes is left out, as there is no /proc here'
fi

# Files of more than 1 MB.
seq -f '( a %.0f )' 300000 > large
seq -f '(a %.0f)' 300000 > large_layout
before=$(state large)
run 0 fmt large
expect 'a large text' "$(md5sum < large_layout)" "$(md5sum < out)"
run 1 fmt --check large
expect '--check of a large text' large "$(cat out)"
run 1 fmt --diff large
expect 'a diff of a large text' 600003 "$(wc -l < out)"
expect 'a large file that is not written' "$before" "$(state large)"
run 0 fmt --write large
expect 'a large file that is written' "$(md5sum < large_layout)" "$(md5sum < large)"
before=$(state large)
run 0 fmt --check large
run 0 fmt --write large
expect 'a large neat file is not touched' "$before" "$(state large)"
rm large large_layout

# One report for each of several files.
printf '( c )' > third
printf '( d )' > busy
: > busy.wat_tokens
chmod 444 third
run 2 fmt --write missing third faulty busy bytes fixed
expect 'reports of several files' 'wat_tokens: missing: open failed: no such file or directory
wat_tokens: third: read-only, left as it is
unexpected end-of-file
     --> faulty:1:4
      |
    1 | a "
      |    ^
wat_tokens: busy: busy.wat_tokens is there already: remove it, or another run is at work
wat_tokens: bytes: input is not UTF-8 at byte 2' "$(cat err)"
rm -f busy busy.wat_tokens third

# Names with control characters: a letter that would be the escape, U+007F, U+0085.
odd=$'a\001\033[31m\177\302\205b'
shown=$'a\342\220\201\342\220\233[31m\342\220\241\357\277\275b'
printf '( a )' > "$odd"
run 1 fmt --check "$odd"
expect 'an odd name in the list' "$shown" "$(cat out)"
run 1 fmt --diff "$odd"
expect 'an odd name in a diff' "--- $shown +++ $shown" "$(head -2 out | tr '\n' ' ' | sed 's/ $//')"
: > "$odd.wat_tokens"
run 2 fmt --write "$odd"
expect 'an odd name in a report' "wat_tokens: $shown: $shown.wat_tokens is there already: remove it, or another run is at work" "$(cat err)"

# --diff
printf '( a\n b )\n' > in
run 1 fmt --diff
expect 'a diff of standard input' '--- <stdin>
+++ <stdin>
@@ -1,2 +1,2 @@
-( a
- b )
+(a
+  b)' "$(cat out)"
expect 'a diff reports nothing' '' "$(cat err)"
run 1 fmt --diff -
expect 'a diff of standard input as a file' '--- <stdin>' "$(head -1 out)"
run 0 fmt --diff neat
expect 'no diff of a neat file' '' "$(cat out)"
run 1 fmt --diff faulty
expect 'no diff of a fault' '' "$(cat out)"
expect 'but its report' 'unexpected end-of-file' "$(head -1 err)"
run 2 fmt --diff bytes missing in
expect 'reports of a diff of several files' 'wat_tokens: bytes: input is not UTF-8 at byte 2
wat_tokens: missing: open failed: no such file or directory' "$(cat err)"
expect 'and the diff of the last' '--- in' "$(head -1 out)"
run 1 fmt --diff in neat in
expect 'diffs of several files' 2 "$(grep -c '^--- in$' out)"

# A last line without a line end. Changes six lines apart belong to one hunk, changes seven apart to two.
printf '( a )' > 'no end'
run 1 fmt --diff 'no end'
expect 'a text without a last line end' $'--- no end\t\n+++ no end\t\n@@ -1 +1 @@\n-( a )\n\\ No newline at end of file\n+(a)' "$(cat out)"
printf '( a )\n1\n2\n3\n4\n5\n6\n( b )\n1\n2\n3\n4\n5\n6\n7\n( c )\n\n\n\n1\n\n' > hunks
run 1 fmt --diff hunks
expect 'hunks' '--- hunks
+++ hunks
@@ -1,11 +1,11 @@
-( a )
+(a)
 1
 2
 3
 4
 5
 6
-( b )
+(b)
 1
 2
 3
@@ -13,9 +13,6 @@
 5
 6
 7
-( c )
+(c)
 
-
-
 1
-' "$(cat out)"
printf '(\n\n(\na)\n  b)\n1\n2\n3\n4\n' > joined
run 1 fmt --diff joined
expect 'lines that become one' '--- joined
+++ joined
@@ -1,7 +1,4 @@
-(
-
-(
-a)
+((a)
   b)
 1
 2' "$(cat out)"
printf '\n \n' > blank
run 1 fmt --diff blank
expect 'a text of white space' $'--- blank\n+++ blank\n@@ -1,2 +0,0 @@\n-\n- ' "$(cat out)"
: > empty
run 0 fmt --diff empty
expect 'no diff of an empty text' '' "$(cat out)"

# patched NAME FILE: checks that `patch` with the diff turns the file into the output of `fmt`
patched() {
    "$program" fmt "$2" > wanted
    "$program" fmt --diff "$2" > changes || true
    rm -f got
    patch -s --binary -F 0 -o got "$2" changes > err 2>&1 || true
    expect "patch: $1" "$(md5sum < wanted)" "$(md5sum < got)"
    expect "patch: $1: its words" '' "$(cat err)"
}

if command -v patch > /dev/null; then
    patched 'a messy text' in
    patched 'a blank in the name' 'no end'
    patched 'hunks' hunks
    patched 'white space' blank
    printf '\r\n( a\r\n\r\n\r\n b )\r\nc\r\n' > file
    patched 'CR LF' file
    printf '( a\r b )\rc' > file
    patched 'CR' file
    printf '\n\n(a ;; b\n;; c\n  (; d\n\n e ;)\n)\n\n\n;; f' > file
    patched 'comments' file
    printf '(\n\n\n(a\n\n)\n\n)\n\t\n \n\n(\n;; b\n)\n' > file
    patched 'blank lines' file
    printf '(a\n(a\n(a\n)))\n%.0s' {1..400} > file
    patched 'many changes' file
    "$tools/lib/generate_text.py" 0.3 > file
    patched 'a generated text' file
    "$program" fmt file > neat_file
    sed '0~50s/^/ /; 0~70s/$/ /; 0~90G' neat_file > file
    patched 'its layout with some lines changed' file
    expect 'these are some thousand lines' 1 "$(($(wc -l < file) > 3000))"
    (cat file; printf ' ( ') > file_without_end
    patched 'the same without an end' file_without_end
else
    echo 'fmt.sh: the command patch is not here, so no diff is applied'
fi

# Folders.
mkdir -p tree/b tree/a.wat tree/.c/d tree/none
for file in tree/z.wat tree/a.wast tree/b/x.wat tree/b/y.wast tree/a.wat/in.wat tree/.c/d/e.wat; do
    printf '( %s )' "$(basename "$file" | tr . _)" > "$file"
done
printf '( a )' > tree/a.txt
printf '( a )' > tree/wat
printf '( a )' > outside.wat
mkfifo tree/pipe.wat
ln -s ../b tree/b/around
ln -s b tree/b.wat
ln -s nowhere tree/.lock.wat
ln -s ../outside.wat tree/link.wat
ln -s b/x.wat tree/inside.wat
listed='tree/.c/d/e.wat
tree/a.wast
tree/a.wat/in.wat
tree/b/x.wat
tree/b/y.wast
tree/z.wat'
run 1 fmt --check tree
expect 'the texts below a folder' "$listed" "$(cat out)"
expect 'and nothing is reported' '' "$(cat err)"
run 1 fmt --check tree/
expect 'a slash after its name' "$listed" "$(cat out)"
run 1 fmt --check neat tree in tree/b
expect 'files and folders, as they are named' "$listed"$'\nin\ntree/b/x.wat\ntree/b/y.wast' "$(cat out)"
ln -s tree to_tree
run 1 fmt --check to_tree
expect 'a link to a folder that is named itself' "${listed//tree\//to_tree/}" "$(cat out)"
(cd tree && "$program" fmt --check .) > out || true
expect 'the folder at hand' "${listed//tree\//./}" "$(cat out)"
run 0 fmt tree
expect 'layouts of a folder' '(e_wat) (a_wast) (in_wat) (x_wat) (y_wast) (z_wat)' "$(tr '\n' ' ' < out | sed 's/ $//')"
run 1 fmt --diff tree
expect 'diffs of a folder' "$listed" "$(sed -n 's/^--- //p' out)"
run 0 fmt tree/none
run 0 fmt --check tree/none
run 0 fmt --diff tree/none
run 0 fmt --write tree/none
expect 'a folder without texts' '' "$(cat out err)"
chmod 444 tree/b/x.wat
run 2 fmt --write tree
expect 'report of a file in a folder' 'wat_tokens: tree/b/x.wat: read-only, left as it is' "$(cat err)"
expect 'the texts of a folder are written' '(e_wat) (a_wast) (in_wat) (y_wast) (z_wat) ( x_wat )' "$(cat tree/.c/d/e.wat tree/a.wast tree/a.wat/in.wat tree/b/y.wast tree/z.wat tree/b/x.wat | tr '\n' ' ')"
expect 'but not the file of a link' '( a ) symbolic link' "$(cat outside.wat) $(stat -c %F tree/link.wat)"
expect 'and no others' '( a )( a )' "$(cat tree/a.txt tree/wat)"
run 1 fmt --check tree
expect 'then they are laid out' 'tree/b/x.wat' "$(cat out)"
run 0 fmt --write tree/link.wat
expect 'the file of a link that is named itself' '(a) symbolic link' "$(cat outside.wat) $(stat -c %F tree/link.wat)"
mkdir names
printf '( a )' > names/a.wat
if printf '( a )' > $'names/\351.wat' 2> err; then
    run 2 fmt --check names
    expect 'a name in a folder that is not UTF-8' 'wat_tokens: names: a name in it is not UTF-8' "$(cat err)"
    expect 'the others are done' names/a.wat "$(cat out)"
fi
if can_be_plain; then
    mkdir closed closed/in
    printf '( a )' > closed/a.wat
    chmod 0 closed/in
    run_plain 2 fmt --check closed
    expect 'report of a folder that may not be read' 'wat_tokens: closed/in: open failed: permission denied' "$(cat err)"
    expect 'the others are done' closed/a.wat "$(cat out)"
    chmod 444 closed
    run_plain 2 fmt --check closed
    expect 'reports of what may not be looked at' 'wat_tokens: closed/a.wat: open failed: permission denied
wat_tokens: closed/in: open failed: permission denied' "$(cat err)"
    chmod 755 closed closed/in
fi
deep=chain
for ((i = 0; i < 100; i++)); do deep=$deep/d; done
mkdir -p "$deep"
printf '( a )' > "$deep/a.wat"
run 1 fmt --check chain
expect 'a hundred folders in each other' "$deep/a.wat" "$(cat out)"

printf ';;\342\200\256' > confusing
run 1 fmt confusing
run 0 --allow-confusing fmt confusing
"$program" fmt messy | true || expect 'a pipe that nobody reads' 0 $?
echo "fmt.sh: $compared comparisons, $faults faults"
[ "$faults" = 0 ]
