"$benchmarks" calls
"$benchmarks" live
"$benchmarks" detect
