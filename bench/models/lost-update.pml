/* CPUS add 1 to a counter ADDITIONS times each, by a load, an addition and a store. */
int counter;

proctype add() {
    int left = ADDITIONS, number;
    do
    :: left > 0 ->
        number = counter;
        number++;
        counter = number;
        left--
    :: else -> break
    od
}

init {
    atomic { int started; for (started : 1 .. CPUS) { run add() } };
    (_nr_pr == 1) -> printf("outcome %d\n", counter)
}
