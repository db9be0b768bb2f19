cat "$examples/tills.out"
