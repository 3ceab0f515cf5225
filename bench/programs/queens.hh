# Queens: how many ways there are to put N queens on a board of N rows so that none attacks another; N is at least 3. A
# parallel loop goes over the columns of the queens in the first two rows. Each call counts the ways to go on from there
# alone, row by row, on a board of its own.
# words: run --fuel 1000000000
fn main
  set i9 11 # N
  set i2 1         # (i2, i3 and i4 are 1, 2 and 0 everywhere)
  set i3 2
  set i4 0
  set i0 0
  mul i1 i9 i9
  pfor first_rows
  out i0
end

fn first_rows      # i0: N times the first queen's column, and the second's; returns how many ways go on from there
  div i5 i0 i9
  rem i6 i0 i9
  set i0 0
  sub i7 i6 i5
  mul i7 i7 i7
  lt i7 i2 i7      # 1 if neither attacks the other: their columns differ by more than 1
  jz i7 none
  call new_board
  movr r1 r0
  set i8 0
  mov i11 i5
  call stand
  set i8 1
  mov i11 i6
  call stand
  call go_on
lab none
  nil r0
end

fn new_board       # returns a board: the columns of N queens, then 1 for each free column and diagonal: N columns,
  set i5 6         # 2 N rising diagonals, and 2 N falling ones round 5 N
  mul i5 i5 i9
  newm r0 i4 i5
  mov i6 i9
lab next
  puti r0 i6 i2
  add i6 i6 i2
  eq i7 i6 i5
  jz i7 next
end

fn stand           # puts a queen on the board r1, in the row i8 and the column i11
  puti r1 i8 i11
  add i12 i9 i11
  puti r1 i12 i4
  mul i5 i9 i3
  add i12 i8 i11
  add i12 i12 i5
  puti r1 i12 i4
  set i6 5
  mul i6 i6 i9
  sub i12 i8 i11
  add i12 i12 i6
  puti r1 i12 i4
end

fn go_on           # returns how many ways there are to fill the rows of the board r1 from the third one on
  mul i5 i9 i3     # where the rising diagonals begin
  set i6 5
  mul i6 i6 i9     # where the falling ones have their middle
  mov i8 i3        # the row
  set i11 0        # the column
  set i0 0
lab try
  add i12 i9 i11
  geti i7 r1 i12
  jz i7 next       # the column is taken
  add i13 i8 i11
  add i13 i13 i5
  geti i7 r1 i13
  jz i7 next
  sub i14 i8 i11
  add i14 i14 i6
  geti i7 r1 i14
  jz i7 next
  puti r1 i8 i11
  puti r1 i12 i4
  puti r1 i13 i4
  puti r1 i14 i4
  add i8 i8 i2     # goes on in the row below
  set i11 0
  eq i7 i8 i9
  jz i7 try
  add i0 i0 i2     # the board is full
  jmp back
lab next
  add i11 i11 i2
  eq i7 i11 i9
  jz i7 try
lab back
  sub i8 i8 i2     # takes the queen of the row above away
  lt i7 i8 i3
  jz i7 lift
  ret
lab lift
  geti i11 r1 i8
  add i12 i9 i11
  puti r1 i12 i2
  add i13 i8 i11
  add i13 i13 i5
  puti r1 i13 i2
  sub i14 i8 i11
  add i14 i14 i6
  puti r1 i14 i2
  jmp next
end
