#!/usr/bin/env bash
# Builds the program without waiting for proofs and runs each job on the bundled examples: what a job writes
# is shown, then the line that it answers. What `link` makes is run, and must write what the C program wrote.
# Ends with 1 where a job doesn't answer as listed below.
set -u
cd "$(dirname "$0")/../crates/gtirb_a64" || exit 1
command -v rt >/dev/null || { echo "demo: the Rattle kit's rt is not on the path"; exit 1; }
work=$(mktemp -d) || exit 1
trap 'rm -rf "$work"' EXIT
examples=$PWD/../../examples
mkdir "$work/images" "$work/to_patch" "$work/to_print"
cp "$examples/programs/checksum_o1.gtirb" "$work/to_patch"
cp "$examples/programs/exit_three.gtirb" "$work/to_print"

# A job's words, the folder whose files it takes one by one from standard input, and each file with the exit
# status and the line that is answered.
jobs='recode in=- out=-|recode
check in=- plain=*|programs
layout in=- out=- plain=*|programs
link in=- out=- plain=*|programs
run in=- out=-|run
sim in=- out=- plain=*|programs'
answers='
recode exit_three.gtirb 0 done bytes=354
recode smallest.gtirb 0 done bytes=28
recode two_versions.gtirb 7 format: version 4 and 3
check exit_three.gtirb 0 ok sections=1 intervals=1 blocks=2 symbols=1 exprs=1 edges=1 tables=0 opaque=0
check checksum_o1.gtirb 0 ok sections=5 intervals=5 blocks=222 symbols=126 exprs=216 edges=314 tables=5 opaque=0
check checksum_os.gtirb 0 ok sections=6 intervals=6 blocks=198 symbols=115 exprs=185 edges=274 tables=5 opaque=0
layout exit_three.gtirb 0 done bytes=73
link exit_three.gtirb 0 done bytes=72
link checksum_o1.gtirb 0 done bytes=4324
run exit_three.image 0 steps=3 exit 3
run hello.image 0 steps=8 exit 0
sim exit_three.gtirb 0 steps=4 exit 3
sim checksum_o1.gtirb 0 steps=23708 exit 0
sim checksum_os.gtirb 0 steps=22145 exit 0
patched checksum_o1.gtirb 0 done bytes=4620
printed exit_three.gtirb 0 done bytes=136
linked exit_three.gtirb 0 steps=4 exit 3
linked checksum_o1.gtirb 0 steps=23708 exit 0
linked checksum_os.gtirb 0 steps=22145 exit 0
linked patched-checksum_o1.gtirb 0 steps=50142 exit 0
'

# Does a job with each file of a folder: name, words, folder, and a further word.
job() {
    local name=$1 folder=$3
    local -a words
    read -ra words <<<"$2"
    rt try --cases "$folder" -- "${words[@]}" "${@:4}" >"$work/$name" 2>&1
}

# The line before that of a case, and the case's status.
answered() {
    LC_ALL=C awk -v name="$2" 'index($0, "case=" name " ") == 1 { sub("status=", "", $3); print $3 " " last } { last = $0 }' "$work/$1"
}

# The images that a job wrote, each as a file of its own, cut out by their mark and their length: the job's name, and
# what stands before the names of the files.
keep_images() {
    local start name length
    paste -d ' ' <(LC_ALL=C grep -abo GRIMG001 "$work/$1" | cut -d: -f1) \
        <(LC_ALL=C awk 'index($0, "case=") == 1 { sub("case=", "", $1); sub(".*done bytes=", "", last); print $1, last } { last = $0 }' "$work/$1") |
        while read -r start name length; do
            tail -c +"$((start + 1))" "$work/$1" | head -c "$length" >"$work/images/$2$name"
        done
}

show() {
    echo "\$ gtirb_a64 $2    on each file of $3"
    grep -av '^cases=\|^rt:' "$work/$1" | cat -v
    echo
}

# The jobs are built two at a time: a build takes a gigabyte and more.
while IFS='|' read -r words folder; do
    [ "$(jobs -rp | wc -l)" -lt 2 ] || wait -n
    job "${words%% *}" "$words" "$examples/$folder" &
done <<<"$jobs"
[ "$(jobs -rp | wc -l)" -lt 2 ] || wait -n
job patched "link in=- out=- plain=*" "$work/to_patch" "patch=$examples/patches/checksum_o1.patch" &
[ "$(jobs -rp | wc -l)" -lt 2 ] || wait -n
job printed "print in=- out=- plain=*" "$work/to_print" &
wait
while IFS='|' read -r words folder; do show "${words%% *}" "$words" "examples/$folder"; done <<<"$jobs"
show printed "print in=- out=- plain=*" "exit_three.gtirb"
show patched "link in=- out=- plain=* patch=examples/patches/checksum_o1.patch" "checksum_o1.gtirb"
keep_images link ""
keep_images patched patched-
job linked "run in=- out=-" "$work/images"
show linked "run in=- out=-" "what link wrote"

status=0
while read -r name file answer; do
    [ -n "$name" ] || continue
    if [ "$(answered "$name" "$file")" != "$answer" ]; then
        echo "demo: $name of $file answers \"$(answered "$name" "$file")\" and not \"$answer\""
        status=1
    fi
done <<<"$answers"
for output in "$examples"/outputs/*; do
    while read -r line; do
        grep -aqxF "$line" "$work/linked" && continue
        echo "demo: no image writes the line \"$line\" of $(basename "$output")"
        status=1
    done <"$output"
done
exit "$status"
