// The second transfer may take more than the first one left.
var savings, checking: int;

procedure Transfer(amount: int);
  modifies savings, checking;
  requires 0 <= amount && amount <= savings;
  ensures savings == old(savings) - amount;
  ensures checking == old(checking) + amount;

procedure PayTwice(amount: int)
  modifies savings, checking;
  requires 0 <= amount && amount <= savings;
  ensures savings + checking == old(savings + checking);
{
  call Transfer(amount);
  call Transfer(amount);
}
