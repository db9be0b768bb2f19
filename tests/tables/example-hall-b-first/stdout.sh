cat "$examples/hall-b-first.out"
