// What one account loses the other one gets.
var savings, checking: int;

procedure Transfer(amount: int)
  modifies savings, checking;
  requires 0 <= amount && amount <= savings;
  ensures savings == old(savings) - amount;
  ensures checking == old(checking) + amount;
{
  savings := savings - amount;
  checking := checking + amount;
}

procedure Empty()
  modifies savings, checking;
  requires 0 <= savings && 0 <= checking;
  ensures savings == 0;
  ensures checking == old(savings + checking);
{
  var half: int;
  havoc half;
  assume 0 <= half && half <= savings;
  call Transfer(half);
  call Transfer(savings);
}
