// The smallest program worth a run: one size, and a utility that wants it as great as it may be.
// The assume clause bounds it, so that `size` gives 3.
symbolic int rows;
assume(rows <= 3);
maximize(rows);
