# docs/INSTALL.md: each way has at most twenty lines, and packaging/try types its commands. The set-up of the example is that of
# examples/station. The symbols of the shared library are the calls of comtrade.h. Scripts have no long line.
cd ..
awk '/^## / { if (name) print name ": " lines; name = substr($0, 4); lines = 0 } name && NF { lines++ } END { print name ": " lines }' docs/INSTALL.md |
    awk -F': ' '{ print $1 ": " ($2 <= 20 ? "at most 20 lines" : $2 " lines") }'
sed -n 's/^## //p' docs/INSTALL.md | while read -r name; do
    grep -qF -e "block '$name'" -e "block $name)" packaging/try-*.sh || echo "packaging/try doesn't type the commands of: $name"
done
diff <(grep -v '^#' examples/station/setup) <(sed '/^go$/,$d; /^#/d' packaging/dfr/example.setup) && echo "the example's set-up is that of the station"
diff <(grep -o '^[a-z].*comtrade_[a-z_]*(' examples/embedding/comtrade.h | grep -o 'comtrade_[a-z_]*(' | tr -d '(' | sort) \
    <(sed -n 's/^ *\(comtrade_[a-z_]*\);$/\1/p' packaging/libcomtrade/comtrade.map | sort) && echo "the symbols are the calls of comtrade.h"
awk '!/^\|/ && length > 100 { print FILENAME ":" FNR ": " length " columns" }' packaging/{README.md,build,common.sh,glibc,previous,release,seen,tree,try*} \
    packaging/*/* examples/fleet/*.py examples/fleet/measure install examples/embedding/install docs/INSTALL.md examples/fleet/README.md
