// Signals have a type of their own, of which three are named: that they are unique is all that is known of them.
type Signal;
type Shown = Signal;

const unique red, amber, green: Signal;

function is_named(s: Signal): bool { s == red || s == amber || s == green }

var shown: Shown;

procedure Turn()
  modifies shown;
  requires is_named(shown);
  ensures is_named(shown);
  ensures shown != old(shown);
{
  if (shown == red) {
    shown := green;
  } else if (shown == green) {
    shown := amber;
  } else {
    assert shown == amber;
    shown := red;
  }
}

procedure Stop()
  modifies shown;
  ensures shown != green && shown != amber;
{
  shown := red;
}
