// Transfers between two accounts: what no transfer changes is inferred, what some transfer changes is dropped.
const {:existential true} no_debt, no_gain, same_sum, same_savings: bool;
var savings, checking: int;

procedure Transfer(amount: int)
  modifies savings, checking;
  requires 0 <= amount && amount <= savings;
  requires no_debt ==> 0 <= savings && 0 <= checking;
  ensures no_debt ==> 0 <= savings && 0 <= checking;
  ensures no_gain ==> checking <= old(checking);
  ensures same_sum ==> savings + checking == old(savings) + old(checking);
  ensures same_savings ==> savings == old(savings);
{
  savings := savings - amount;
  checking := checking + amount;
}

procedure Month()
  modifies savings, checking;
  requires 0 <= savings && 0 <= checking;
  ensures savings + checking == old(savings) + old(checking);
{
  var days, amount: int;
  days := 0;
  while (days < 30)
    invariant no_debt ==> 0 <= savings && 0 <= checking;
    invariant same_sum ==> savings + checking == old(savings) + old(checking);
    invariant same_savings ==> savings == old(savings);
  {
    havoc amount;
    if (0 <= amount && amount <= savings) {
      call Transfer(amount);
    }
    days := days + 1;
  }
}
