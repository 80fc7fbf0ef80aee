# no memory for a record of 1,000,000 scans: what was answered before is written
ulimit -v 30000
{ head -n 6 dfr/replay/first/in; printf '%s\n' 'limits 0,999999,1000000,1' go 'scan 1/' 'scan 2/' trigger 'scan 3/'; } | "$dfr"
