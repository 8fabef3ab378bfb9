// A serial transmitter: a start bit 0, eight bits of data, the lowest first, and a stop bit 1, each for four clocks.
//
// It waits until `start` is 1, and takes the byte in that clock: a `while` whose condition doesn't hold takes no clock. From the
// next clock on the start bit is on the line, and `sending` is 1. Forty clocks behind the one in which it took a byte it looks at
// `start` again, so that bytes can follow each other without a gap. The counter is 0 again behind the eighth bit.
set clock = external "P1";
interface bus_in(unsigned 1 now) start();
interface bus_in(unsigned 8 byte) data();
unsigned 1 line = 1;
unsigned 1 busy;
unsigned 8 rest;
unsigned 3 sent;
interface bus_out() tx(unsigned 1 value = line);
interface bus_out() sending(unsigned 1 value = busy);
macro proc hold() { delay; delay; delay; }
void main(void) {
  while (1) {
    while (!start.now) delay;
    par { line = 0; busy = 1; rest = data.byte; }
    hold();
    do {
      par { line = rest[0]; rest = rest >> 1; sent = sent + 1; }
      hold();
    } while (sent != 0);
    line = 1;
    delay;
    delay;
    busy = 0;
  }
}
