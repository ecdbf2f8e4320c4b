// No function gives both at one argument.
function f(int): bool;
axiom f(1 + 1);
axiom !f(2);
