// The greatest common divisor of two numbers that aren't 0, by taking the lesser from the greater until both are equal.
//
// A round takes a clock for the inputs, a clock for each difference, and one for the result; the comparisons take none. The
// output shows the result of the round before, and 0 in the first one.
set clock = external "P1";
interface bus_in(unsigned 8 value) left();
interface bus_in(unsigned 8 value) right();
unsigned 8 x;
unsigned 8 y;
unsigned 8 found;
interface bus_out() result(unsigned 8 value = found);
void main(void) {
  while (1) {
    par { x = left.value; y = right.value; }
    while (x != y) {
      if (x > y) x = x - y; else y = y - x;
    }
    found = x;
  }
}
