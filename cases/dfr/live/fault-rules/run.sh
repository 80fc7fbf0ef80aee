# rules after `go` that don't fit are a fault before anything runs: the first such line is named
. files/live.bash
rules() { { cat dfr/replay/first/in; printf '%s\n' "$@"; } | "$dfr" live /dev/stdin "$folder"; echo "status $?"; names; }
rules 'rules level 0 over 5' 'rules edge 0 rise' 'rules level 1 over 5'
rules '# a comment' 'rules level 1 over 5;level 0 over 5'
rules "rules $(for k in {1..33}; do printf 'level 0 over %d;' "$k"; done | sed 's/;$//')"
rules "rules $(for k in {1..32}; do printf 'level 0 over %d;' "$k"; done | sed 's/;$//')"
