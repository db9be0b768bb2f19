cat "$examples/tills.text"
