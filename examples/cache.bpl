// A cache: a slot that is valid holds what its key gives. `any` stands for any slot; two keys may have one slot.
type Key;

const any: int;

function slot(k: Key): int;
function found(k: Key): int;
function is_right(valid: bool, k: Key, v: int): bool { valid ==> v == found(k) }

var valid: [int]bool;
var key: [int]Key;
var value: [int]int;

procedure Get(k: Key) returns (v: int)
  requires is_right(valid[any], key[any], value[any]);
  requires is_right(valid[slot(k)], key[slot(k)], value[slot(k)]);
  modifies valid, key, value;
  ensures v == found(k);
  ensures is_right(valid[any], key[any], value[any]);
{
  if (valid[slot(k)] && key[slot(k)] == k) {
    v := value[slot(k)];
  } else {
    v := found(k);
    valid[slot(k)], key[slot(k)], value[slot(k)] := true, k, v;
  }
}

procedure Forget(k: Key)
  requires is_right(valid[any], key[any], value[any]);
  modifies valid;
  ensures is_right(valid[any], key[any], value[any]);
  ensures !valid[slot(k)];
{
  valid[slot(k)] := false;
}

procedure GetUnasked(k: Key) returns (v: int)
  requires is_right(valid[slot(k)], key[slot(k)], value[slot(k)]);
  ensures v == found(k);
{
  v := found(k);
  if (valid[slot(k)]) {
    v := value[slot(k)];
  }
}
