// --history
const c: int;
axiom 2 <= c && c < 3;
