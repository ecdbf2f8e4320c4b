// Balances of accounts are a map. That two names may stand for one account is easily forgotten.
type Account;

var balance: [Account]int;

procedure Transfer(from: Account, to: Account, amount: int)
  requires from != to;
  modifies balance;
  ensures balance[from] + balance[to] == old(balance[from] + balance[to]);
  ensures balance[from] == old(balance)[from] - amount;
{
  balance[from] := balance[from] - amount;
  balance[to] := balance[to] + amount;
}

procedure Careless(from: Account, to: Account, amount: int)
  requires amount > 0;
  modifies balance;
  ensures balance[to] == old(balance)[to] + amount;
{
  var left, more: int;
  left, more := balance[from] - amount, balance[to] + amount;
  balance[to] := more;
  balance[from] := left;
}

procedure Audit(a: Account, b: Account, other: Account)
  requires a != b;
  modifies balance;
  ensures other != a && other != b ==> balance[other] == old(balance)[other];
{
  var before: [Account]int;
  before := balance;
  call Transfer(a, b, 10);
  assume balance == before[a := before[a] - 10][b := before[b] + 10];
  call Transfer(b, a, 10);
  assume balance == before[a := balance[a]][b := balance[b]];
}
