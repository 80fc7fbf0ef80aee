# records in the dialects of the field: import writes what each want.json says, or refuses the record
command -v python3 > /dev/null || { echo 'no python3' >&2; exit 77; }
python3 import/dialects/judge.py "$comtrade"
