/* Two CPUs write a variable each, two others read both, in opposite orders. */
byte x, y, a, b, c, d;

init {
    atomic {
        run write_x();
        run write_y();
        run read_x_first();
        run read_y_first()
    };
    (_nr_pr == 1) -> printf("outcome %d%d %d%d\n", a, b, c, d)
}

proctype write_x() { x = 1 }
proctype write_y() { y = 1 }
proctype read_x_first() { a = x; b = y }
proctype read_y_first() { c = y; d = x }
