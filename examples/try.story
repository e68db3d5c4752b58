# Three nodes with one vote each. The one that holds the resource is killed, and comes back.
nodes 1 2 3
up 1 2 3
run 3000
kill 1
run 15000
up 1
run 5000
