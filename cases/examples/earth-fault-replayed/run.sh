# the example, whose expected text was worked out by its own check
"$dfr" < ../examples/earth-fault/script | cmp - ../examples/earth-fault/printed && echo same
