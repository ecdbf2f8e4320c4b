// Rows of a grid are maps, and may be compared.
type Row = [int]int;

procedure Rows(grid: [int]Row)
{
  assert grid[0] == grid[1];
}

procedure Copied(grid: [int]Row, i: int, j: int) returns (made: [int]Row)
  ensures made[i] == made[j];
  ensures i != j ==> made[j] == grid[j];
{
  made := grid;
  made[i] := grid[j];
}

procedure Cleared(grid: [int]Row, i: int, j: int) returns (made: [int]Row)
  ensures made[i][j] == 0;
  ensures made[i][j := grid[i][j]] == grid[i];
{
  made := grid;
  made[i][j] := 0;
}
