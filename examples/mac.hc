// A multiply-accumulate unit: the sum of the products of four pairs of bytes, with the products kept.
//
// Three clocks for each pair: in the first the product of the two inputs is stored, in the second it is added to the sum,
// and in the third it is put into its place of an array. The inputs are read in clocks 0, 3, 6 and 9. The output shows the
// sum in each clock, so the sum of all four products from clock 11 on.
set clock = external "P1";
interface bus_in(unsigned 8 value) left();
interface bus_in(unsigned 8 value) right();
unsigned 16 product;
unsigned 16 products[4];
unsigned 18 total;
interface bus_out() result(unsigned 18 value = total);
macro expr wide(byte) = (unsigned 8) 0 @ byte;
void main(void) {
  seq (i = 0; i < 4; ++i) {
    product = wide(left.value) * wide(right.value);
    total = total + ((unsigned 2) 0 @ product);
    products[i] = product;
  }
}
