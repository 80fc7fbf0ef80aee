# What a replay must print, worked out apart from it: reads a script, with kind as ASCII or BINARY. The script has one analogue channel,
# spells its numbers as files do, has no rule or `level 0 over T`, and its scans lie within the first day of 1970.
BEGIN { scans = record = taken = open = 0 }
function trigger(at, cause) {
    if (open) {
        last = at + post
        if (last <= first + longest - 1) return "extended " record
        last = first + longest - 1
        return "at-limit " record
    }
    if (record - taken == shelf) return "shelf-full"
    open = 1
    record++
    first = at > pre ? at - pre : 0
    last = at + post
    firsts[record] = first
    triggers[record] = at
    causes[record] = cause
    return "opened " record
}
function closing() {
    if (!open || scans < last) return ""
    open = 0
    lasts[record] = last
    return " closed " record
}
function instant(k,    us, s) {
    us = int(k * 1000000 / rate)
    s = int(us / 1000000)
    return sprintf("01/01/1970,%02d:%02d:%02d.%06d", int(s / 3600), int(s / 60) % 60, s % 60, us % 1000000)
}
function ascii_size(r,    k, size) {
    size = 1
    for (k = firsts[r]; k <= lasts[r]; k++)
        size += length(k - firsts[r] + 1) + length(int((k - firsts[r]) * 1000000 / rate)) + length(values[k]) + 4
    return size
}
function ascii(r,    k) {
    for (k = firsts[r]; k <= lasts[r]; k++)
        printf "%d,%d,%d\r\n", k - firsts[r] + 1, int((k - firsts[r]) * 1000000 / rate), values[k]
    printf "\032"
}
function binary(r,    k, n, t, v) {
    for (k = firsts[r]; k <= lasts[r]; k++) {
        n = k - firsts[r]
        t = int(n++ * 1000000 / rate)
        v = values[k] == 99999 ? 32768 : (values[k] + 65536) % 65536
        printf "%c%c%c%c%c%c%c%c%c%c", n % 256, int(n / 256) % 256, int(n / 65536) % 256, int(n / 16777216), \
            t % 256, int(t / 256) % 256, int(t / 65536) % 256, int(t / 16777216), v % 256, int(v / 256)
    }
}
function pair(r,    rows, cfg) {
    rows = lasts[r] - firsts[r] + 1
    cfg = station "," device ",1999\r\n1,1A,0D\r\n1," analog "\r\n" freq "\r\n1\r\n" rate "," rows "\r\n" \
        instant(firsts[r]) "\r\n" instant(triggers[r]) "\r\n" kind "\r\n1\r\n"
    printf "cfg %d\n%sdat %d\n", length(cfg), cfg, kind == "ASCII" ? ascii_size(r) : 10 * rows
    if (kind == "ASCII") ascii(r); else binary(r)
    print ""
}
$1 == "scan" {
    if ($2 ~ ",") { print "scan refused shape"; next }
    value = $2 == "*/" ? 99999 : $2 + 0
    if (value > 32767 && $2 != "*/") { print "scan refused range 0"; next }
    values[scans] = value
    hit = over != "" && $2 != "*/" && value >= over ? " " trigger(scans, "rule 0") : ""
    print "scan " scans hit closing()
    scans++
    next
}
$1 == "trigger" {
    hit = scans ? trigger(scans - 1, "manual") : "no-scan"
    print "trigger " (hit ~ /^[ns]/ ? "refused " : "") hit
}
$1 == "take" {
    if (taken + open == record) { print "take none"; next }
    taken++
    print "record " taken, firsts[taken], triggers[taken], lasts[taken], causes[taken]
    pair(taken)
}
$1 == "rules" {
    if (started) print "rules set"
    over = NF == 5 ? $5 + 0 : ""
}
$1 == "go" { started = 1 }
{ rest = substr($0, length($1) + 2) }
$1 == "station" { station = rest }
$1 == "device" { device = rest }
$1 == "analog" { analog = rest }
$1 == "freq" { freq = rest }
$1 == "rate" { rate = rest }
$1 == "limits" { split(rest, limits, ","); pre = limits[1]; post = limits[2]; longest = limits[3]; shelf = limits[4] }
