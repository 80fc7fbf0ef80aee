# ids that would become equal stay distinct; NUL bytes after texts are left out
of=import/alike
. files/import/each.sh
