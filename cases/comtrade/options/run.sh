# each option that the help of a command names is used by a case, with that command: an option without a case is printed
command -v python3 > /dev/null || { echo "python3 isn't here" >&2; exit 77; }
python3 comtrade/options/options.py "$comtrade" 2>&1
