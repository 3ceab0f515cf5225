# Queens: how many ways there are to put six queens on a board of six rows so that none attacks another. A parallel loop
# tries the columns of the first row, and each call goes on by itself. The board is a list of immutable cells, from the
# last row up: the columns of the queens that stand.
# words: run --workers 4
fn place           # r0: the queens that stand, i8: their number, i9: the size; returns how many ways go on from here
  set i2 1
  eq i7 i8 i9
  jz i7 try_columns
  set i0 1         # the board is full
  nil r0
  ret
lab try_columns
  set i10 0        # the ways so far
  set i11 0        # the column
  movr r8 r0
lab next
  mov i0 i11
  movr r0 r8
  call attacked
  eq i7 i0 i2
  jz i7 stand
  jmp skip
lab stand
  movr r0 r8
  mov i0 i11
  pack r0 1 1      # a cell: the queens above, and this one's column
  add i8 i8 i2
  call place
  sub i8 i8 i2
  add i10 i10 i0
lab skip
  add i11 i11 i2
  lt i7 i11 i9
  jz i7 tried
  jmp next
lab tried
  mov i0 i10
  nil r0
end

fn attacked        # i0: a column, r0: the queens above; returns 1 if one of them attacks it, else 0
  set i2 1
  set i3 0         # how many rows up
  set i4 0
  nil r1
lab up
  same i7 r0 r1
  eq i7 i7 i4
  jz i7 free
  add i3 i3 i2
  geti i5 r0 i4
  eq i7 i5 i0      # the same column
  jz i7 slanted
  jmp hit
lab slanted
  sub i6 i5 i0
  mul i6 i6 i6
  mul i7 i3 i3
  eq i7 i6 i7      # as many columns as rows away
  jz i7 further
  jmp hit
lab further
  getr r0 r0 i4
  jmp up
lab hit
  set i0 1
  nil r0
  ret
lab free
  set i0 0
  nil r0
end

fn first_row       # i0: the column of the first queen
  nil r0
  pack r0 1 1
  set i8 1
  call place
end

fn main
  set i9 6
  set i0 0
  mov i1 i9
  pfor first_row
  out i0           # writes 4
end
