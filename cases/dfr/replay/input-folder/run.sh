# standard input is a folder
"$dfr" < files
