# ten records of one script in both kinds: each file is the one that a replay prints
. files/live.bash
{
    head -n 6 dfr/replay/first/in
    printf '%s\n' 'limits 3,4,12,20' go
    for k in {0..299}; do
        echo "scan $((k * 7919 % 18001 - 9001))/"
        case $((k % 30)) in 11) echo trigger ;; 14) [ $((k % 60)) = 14 ] && echo trigger ;; esac
    done
} > "$folder/script"
for kind in ascii binary; do
    "$dfr" live --kind $kind "$folder/script" "$folder" | tail -n 1
    { cat "$folder/script"; for k in {1..10}; do echo take; done; } | "$dfr" replay --kind $kind > "$folder/printed"
    for k in {1..10}; do
        printf 'cfg %d\n' "$(wc -c < "$folder/rec$k.cfg")"; cat "$folder/rec$k.cfg"
        printf 'dat %d\n' "$(wc -c < "$folder/rec$k.dat")"; cat "$folder/rec$k.dat"; echo
    done > "$folder/files"
    grep -av '^scan \|^trigger \|^record ' "$folder/printed" | cmp - "$folder/files" && echo same
done
