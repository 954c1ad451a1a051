// A utility that grows in steps: 50 from 8 ways on and 60 from 16 ways on, less the ways themselves.
// More than 16 ways add nothing to the table, so 16 are best.
symbolic int ways;
assume(ways <= 40);
maximize(table(ways) { 0: 0, 8: 50, 16: 60 } - ways);
