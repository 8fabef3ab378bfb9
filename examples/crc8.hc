// The CRC-8 of two bytes, with the polynomial x^8 + x^2 + x + 1, the highest bit first, from 0 on.
//
// Clock 0: the byte at the input is added to the register. Clock 1 to 8: the register moves up by a bit each, and the
// polynomial is subtracted where a 1 moved out. Clock 9 to 17: the same for a second byte, which is read in clock 9. The
// output shows the register in each clock, so the CRC of both bytes from clock 18 on.
set clock = external "P1";
interface bus_in(unsigned 8 value) data() with {data = {"P9", "P8", "P7", "P6", "P5", "P4", "P3", "P2"}};
unsigned 8 crc;
interface bus_out() sum(unsigned 8 value = crc);
void main(void) {
  seq (byte = 0; byte < 2; ++byte) {
    crc = crc ^ data.value;
    seq (bit = 0; bit < 8; ++bit) {
      crc = (crc << 1) ^ (crc[7] ? (unsigned 8) 0x07 : 0);
    }
  }
}
