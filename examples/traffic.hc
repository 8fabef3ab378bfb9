// A traffic light at a crossing for walkers. The lamps are red, amber and green, the highest bit first.
//
// Each round shows red for four clocks, red and amber for one, green for two clocks at least and until the button is
// pressed, and amber for two. An assignment takes a clock, and the lamps change at the edge behind it: they show red in clocks
// 0 to 4, red and amber in clock 5, and green from clock 6 on. The test of the `do` takes no clock of its own: the button is
// looked at in clock 7, behind the `delay` of clock 6, and then in each clock until it is pressed. Where that is in clock 7,
// amber shows in clocks 8 and 9, and red again from clock 10 on.
set clock = external "P1";
interface bus_in(unsigned 1 pressed) button() with {data = {"P2"}};
unsigned 3 lamps = 0b100;
interface bus_out() light(unsigned 3 value = lamps) with {data = {"P5", "P4", "P3"}};
void main(void) {
  while (1) {
    lamps = 0b100;
    delay;
    delay;
    delay;
    lamps = 0b110;
    lamps = 0b001;
    do { delay; } while (!button.pressed);
    lamps = 0b010;
    delay;
  }
}
