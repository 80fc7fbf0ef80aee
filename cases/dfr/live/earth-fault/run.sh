# the example: the fault recorded in three threads, its files those of the replay
../examples/live/run
