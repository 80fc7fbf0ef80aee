# names of a file of 2013 in their own script, over 64 bytes, and alike in their first 64: each view has them whole, and no two become one;
# import spells them in ASCII, quotes them, and keeps them apart
folder=$(mktemp -d)
trap 'rm -r "$folder"' EXIT
cd "$folder" || exit 1
long='Ток фазы А линии 220 кВ Северная - Южная, присоединение номер'
made() { # the file's encoding
    printf 'Подстанция Северная,珠海,2013\r\n3,2A,1D\r\n1,"%s один",A,,A,1,0,0,-99,99,1,1,P\r\n2,"%s два",ABC,,кВ,1,0,0,-99,99,1,1,P\r\n1,Ключ,,,0\r\n' "$long" "$long"
    printf '50\r\n1\r\n1000,40\r\n01/02/2024,00:00:00.000000\r\n01/02/2024,00:00:00.000000\r\nASCII\r\n1\r\n0,0\r\nB,3\r\n'
}
made > a.cfg
made | iconv -f utf-8 -t utf-16 > b.cfg
made | sed '1s/珠海//' | iconv -f utf-8 -t cp1251 > c.cfg
for n in $(seq 40); do printf '%d,%d,%d,%d,%d\r\n' $n $((n * 1000 - 1000)) $((n % 9)) $((n % 7)) $((n > 20)); done > a.dat
cp a.dat b.dat
cp a.dat c.dat
for name in a b 'c --encoding windows-1251'; do
    for view in 'show --json' csv plot page measure; do
        [ "$view" = plot ] && view='plot --whole --all'
        # shellcheck disable=SC2086
        "$comtrade" $view $name 2> said > out
        status=$?
        found=
        for text in "$long один" "$long два" Ключ; do
            grep -qF "$text" out && found="$found yes" || found="$found no"
        done
        echo "$name: ${view%% *}: status $status,$found; $(sed 's/:.*//' said | tr '\n' ' ')"
    done
done
"$comtrade" csv --channels "*два" a 2> said | head -n 2
"$comtrade" events b.cfg 2> said | grep -o 'Ключ [01]\|Подстанция Северная, 珠海'
"$comtrade" csv c 2> said | head -n 1
"$comtrade" import a new | grep '^text\|^ids\|^phase\|^unit'
sed -n '1p;3,5p' new.cfg
