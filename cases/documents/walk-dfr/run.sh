# the console blocks of the pages on dfr, on the files' layout and on dfrd print what the pages show
python3 files/walk.py ../docs/dfr.md
python3 files/walk.py ../docs/file-format.md
python3 files/walk.py ../docs/dfrd.md
