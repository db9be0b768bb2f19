cat "$examples/hall-b-first.text"
