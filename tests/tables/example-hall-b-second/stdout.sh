cat "$examples/hall-b-second.out"
