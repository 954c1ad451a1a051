// A size without a bound: the rows are bounded only together with the columns, by a clause that subtracts them.
// Such a clause counts for nothing, even where another bounds what is subtracted, so `size` refuses the rows.
symbolic int rows;
symbolic int cols;
assume(cols <= 2 && rows - cols <= 3);
maximize(rows);
