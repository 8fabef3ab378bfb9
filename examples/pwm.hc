// A pulse-width modulator. A period has 16 clocks, and the pulse is 1 in as many of them as the number at the input says.
//
// The loop takes one clock a round: both branches of the `par` take one clock, and the loop starts again in the clock in which
// its body ends. The number at the input is taken in the last clock of each period, and is kept for the next one.
set clock = external "P1";
interface bus_in(unsigned 4 clocks) high();
unsigned 4 count;
unsigned 4 duty;
interface bus_out() pulse(unsigned 1 value = count < duty);
void main(void) {
  while (1) par {
    count = count + 1;
    if (count == 15) duty = high.clocks; else delay;
  }
}
