procedure P(a: bool) { var b: bool; b := a; assert b == a; }
