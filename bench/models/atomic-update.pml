/* CPUS add 1 to a counter ADDITIONS times each, in one step. */
int counter;

proctype add() {
    int left = ADDITIONS;
    do
    :: left > 0 ->
        counter++;
        left--
    :: else -> break
    od
}

init {
    atomic { int started; for (started : 1 .. CPUS) { run add() } };
    (_nr_pr == 1) -> printf("outcome %d\n", counter)
}
