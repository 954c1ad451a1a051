// The metadata of a sketch: one index a row. More rows make it more accurate, and more columns too.
// The header bits of the target bound the rows: three indices of 16 bits fit 64 bits, and two fit 32.
symbolic int rows;
symbolic int cols;
assume(rows >= 1 && rows <= 3);
assume(cols <= 100);
struct meta_t {
  bit<16>[rows] idx;
}
maximize(10*rows + cols);
