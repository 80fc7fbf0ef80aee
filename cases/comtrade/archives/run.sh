# archives and compressed files, made by Python's zipfile and gzip: the commands print what they print of the unpacked record
exec 2>&1
folder=$(mktemp -d)
trap 'rm -r "$folder"' EXIT
cp files/first.cfg "$folder/rec1.cfg"
cp files/first.dat "$folder/rec1.dat"
{
    printf -- '--- file type: CFG ---\r\n'
    sed '1s/1999/2013/;$s/$/\n0,0\r\nB,3\r/' files/first.cfg
    printf -- '--- file type: DAT ASCII ---\r\n'
    cat files/first.dat
} > "$folder/one.cff"
python3 - "$folder" <<'END'
import gzip, sys, warnings, zipfile
warnings.simplefilter("ignore")
folder = sys.argv[1]
cfg, dat, cff = (open(f"{folder}/{name}", "rb").read() for name in ("rec1.cfg", "rec1.dat", "one.cff"))

def put(name, content):
    open(f"{folder}/{name}", "wb").write(content)

def archive(name, method, files, remark=b""):
    with zipfile.ZipFile(f"{folder}/{name}", "w", method) as made:
        for file, content in files:
            made.writestr(file, content)
        made.comment = remark
    return bytearray(open(f"{folder}/{name}", "rb").read())

pair = [("rec1.cfg", cfg), ("rec1.dat", dat)]
stored = archive("stored.zip", zipfile.ZIP_STORED, pair)
archive("deflated.cfz", zipfile.ZIP_DEFLATED, [("storm/REC1.CFG", cfg), ("storm/readme.txt", b"x"), ("storm/REC1.DAT", dat)], b"a remark")
archive("single.zip", zipfile.ZIP_DEFLATED, [("one.cff", cff)])
archive("two.zip", zipfile.ZIP_DEFLATED, pair + [("rec2.cfg", cfg), ("rec2.dat", dat)])
archive("none.zip", zipfile.ZIP_DEFLATED, [("readme.txt", b"x")])
archive("saved.zip", zipfile.ZIP_DEFLATED, [("one.cfg", cff)])
archive("twice.zip", zipfile.ZIP_DEFLATED, pair + [("rec1.dat", dat)])
archive("nodata.zip", zipfile.ZIP_DEFLATED, [("rec1.cfg", cfg)])
archive("bzip2.zip", zipfile.ZIP_BZIP2, pair)
archive("bomb.zip", zipfile.ZIP_DEFLATED, [("rec1.cfg", cfg), ("rec1.dat", bytes(600_000_000))])
put("cut.zip", stored[:-9])
put("spoiled.zip", stored.replace(dat, dat[:5] + bytes([dat[5] ^ 1]) + dat[6:]))
entry = stored.index(b"PK\1\2")
encrypted = bytearray(stored)
encrypted[entry + 8] |= 1
put("encrypted.zip", encrypted)
deflated = archive("lies.zip", zipfile.ZIP_DEFLATED, [("rec1.cfg", cfg), ("rec1.dat", bytes(300_000))])
entry = deflated.rindex(b"PK\1\2")
deflated[entry + 24:entry + 28] = (1000).to_bytes(4, "little")
put("lies.zip", deflated)
far = bytearray(stored)
far[far.rindex(b"PK\1\2") + 42] ^= 255
put("far.zip", far)
packed = gzip.compress(dat, mtime=0)
for name, content in (
    ("gz", packed),
    ("crc", packed[:-8] + bytes([packed[-8] ^ 1]) + packed[-7:]),
    ("size", packed[:-1] + b"\1"),
    ("short", packed[:-20]),
    ("more", packed + b"x"),
    ("plain", dat),
    ("flags", packed[:3] + b"\x20" + packed[4:]),
):
    put(f"{name}.cfg", cfg)
    put(f"{name}.dat.gz", content)
put("both.cfg.gz", gzip.compress(cfg, mtime=0))
put("both.dat.gz", packed)
put("seven.zip", b"7z\xbc\xaf\x27\x1c" + bytes(40))
wide = bytearray(stored)
entry = wide.index(b"PK\1\2")
wide[entry + 24:entry + 28] = b"\xff" * 4
put("wide.zip", wide)
put("single.cff.gz", gzip.compress(cff, mtime=0))
put("saved.cfg", cff)
put("returns.cff", cff.replace(b"\r\n", b"\r"))
END
"$comtrade" csv "$folder/rec1" > "$folder/want"
for name in stored.zip deflated.cfz single.zip gz.cfg gz.dat.gz gz both both.cfg.gz both.dat.gz single.cff.gz saved.cfg saved.zip returns.cff; do
    "$comtrade" csv "$folder/$name" > "$folder/got" 2> "$folder/said"
    echo "$name: status $?"
    cmp "$folder/got" "$folder/want"
done
for name in stored.zip single.zip one.cff single.cff.gz; do
    for view in csv show "show --json" measure plot page; do
        "$comtrade" $view "$folder/$name" > "$folder/want" 2> /dev/null
        "$comtrade" $view - < "$folder/$name" 2> /dev/null | sed "s|standard input|$folder/$name|g" > "$folder/got"
        cmp "$folder/want" "$folder/got" > /dev/null || echo "$view of $name on standard input differs"
    done
done
mkdir "$folder/folder"
cp "$folder/deflated.cfz" "$folder/single.cff.gz" "$folder/both.cfg.gz" "$folder/both.dat.gz" "$folder/folder/"
"$comtrade" list "$folder/folder" 2>&1 | sed "s|$folder/||g"
"$comtrade" check "$folder/stored.zip" 2>&1 | sed "s|$folder/||g"
for name in two.zip none.zip nodata.zip twice.zip bzip2.zip bomb.zip cut.zip spoiled.zip encrypted.zip lies.zip far.zip crc.cfg size.cfg short.cfg more.cfg plain.cfg flags.cfg seven.zip wide.zip; do
    "$comtrade" show "$folder/$name" 2>&1 | sed "s|$folder/||g"
done
