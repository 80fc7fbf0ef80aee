# the example with gaps, recorded in three threads; its files were worked out by the example's own check
. files/live.bash
"$dfr" live ../examples/lost-scans/script "$folder"
for ending in cfg dat; do
    cmp "$folder/rec1.$ending" "../examples/lost-scans/rec1.$ending" && echo same
done
