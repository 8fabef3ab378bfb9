set clock = external "clk";
unsigned 4 x;
void main(void) { x = 5; delay; x = x + 1; }
