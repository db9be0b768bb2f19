cat "$examples/hall-b-second.text"
