// Clauses that contradict each other: no size is at least 5 and at most 4.
// `size` says that nothing is feasible, and ends with status 3.
symbolic int ways;
assume(ways >= 5 && ways <= 4);
maximize(ways);
