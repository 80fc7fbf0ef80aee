# no memory for the threads' stacks: where a thread can't be started the run ends; where some of them can, one may be done, and its
# stack free, before the next is started
. files/live.bash
ulimit -s 8192
for kilobytes in 5000 8000; do
    (ulimit -v $kilobytes; "$dfr" live dfr/replay/first/in "$folder")
    echo "status $?"
    names
done
for kilobytes in 12000 16000 20000 24000; do
    (ulimit -v $kilobytes; "$dfr" live dfr/replay/first/in "$folder" > "$folder/out" 2> "$folder/err")
    echo "status $?" >> "$folder/out"
    case $(cat "$folder/out" "$folder/err" | tr '\n' '|') in
        'status 1|dfr: memory|' | 'at 4 trigger opened 1|scans 6 refused 0 records 1 left 0|status 0|') echo ended ;;
        *) cat "$folder/out" "$folder/err" ;;
    esac
done
