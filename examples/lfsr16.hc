// A 16-bit linear feedback shift register with the taps 16, 14, 13 and 11 (the polynomial x^16 + x^14 + x^13 + x^11 + 1).
//
// Clock 0 to 7: a step each. The register moves one place towards its low end, and the exclusive or of the taps enters at
// its high end. From clock 8 on it stays. The output shows the register in each clock, in clock 0 its first number.
set clock = external "P1";
unsigned 16 state = 0xACE1;
interface bus_out() random(unsigned 16 value = state);
void main(void) {
  seq (i = 0; i < 8; ++i) {
    state = (state[0] ^ state[2] ^ state[3] ^ state[5]) @ state[15:1];
  }
}
