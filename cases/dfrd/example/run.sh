# eight seconds of the example's converter with two faults, judged by its own reader
../examples/station/run 8 4 | tail -1
