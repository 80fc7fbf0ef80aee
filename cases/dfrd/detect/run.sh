# detectors: a sag of one of three phases, an overcurrent, a residual current, a jump; a missing sample and lost scans; each bit of the
# record is that of the definition over all scans up to it
. files/dfrd.bash
cat > "$work/setup" <<'END'
station S
device D
analog UA,A,,kV,0.01,0,0,-32767,32767,1,1,P
analog UB,B,,kV,0.01,0,0,-32767,32767,1,1,P
analog UC,C,,kV,0.01,0,0,-32767,32767,1,1,P
analog IA,A,,A,0.5,0,0,-32767,32767,1,1,P
analog IB,B,,A,0.5,0,0,-32767,32767,1,1,P
analog IC,C,,A,0.5,0,0,-32767,32767,1,1,P
status CB,,,0
detect SAG rms under 53.975 of UA,UB,UC for 3 reset 57.155
detect OVER rms over 700.3 of 3
freq 50
rate 1000
limits 600,899,1500,1
detect RES rms over 60.1 of IA+IB+IC for 2 reset 55
rules edge 1 rise;edge 5 rise
detect STEP jump 500.2 of IA window 20
END
"$dfrd" --check "$work/setup" "$folder"
python3 files/detected.py make | "$dfrd" --quiet --start 1719829800000000 "$work/setup" "$folder" | told | grep -v ^lost
grep ,SAG "$folder"/*.cfg | tr -d '\r'
python3 files/detected.py judge "$folder"/*.dat
# the same as frames: those of the detectors are not in them
sed -i 's/^rate 1000/rate 2000/' "$work/setup"
"$dfrd" --check "$work/setup" "$folder" | grep -e frame -e STEP
