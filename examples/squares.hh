# The program of docs/TUTORIAL.md: the squares of the numbers from 1 to 6, as a list for each half, by two tasks. Each
# task returns the sum of its squares in i0 and its list in r0, and puts the list's last cell into the board, an
# object of its parent: a down-pointer.
# words: run --report --trace
fn cell            # a helper that allocates: a cell before the list r0, with the number i0
  set i1 1
  set i4 0
  newm r1 i1 i1    # one reference, one number
  putr r1 i4 r0
  puti r1 i4 i0
  movr r0 r1
end

fn squares         # the squares of i2 up to i3 - 1; returns their sum in i0, and their list in r0
  set i1 1
  set i5 0         # the sum
  nil r0
lab next
  lt i6 i2 i3
  jz i6 done
  mul i0 i2 i2
  add i5 i5 i0
  call cell        # r0 becomes the longer list, i0 stays the square
  add i2 i2 i1
  jmp next
lab done
  mov i0 i5
end

fn first_half
  set i2 1
  set i3 4
  call squares
  set i4 0
  putr r5 i4 r0    # a down-pointer: the board is the parent's, the cell is this task's
end

fn second_half
  set i2 4
  set i3 7
  call squares
  set i4 1
  putr r5 i4 r0
end

fn main
  set i0 2
  set i1 0
  newm r5 i0 i1    # the board: two references
  par first_half second_half
  add i0 i0 i1     # the sums of both
  out i0           # writes 91
  set i4 0
  getr r2 r5 i4    # the first half's list, now the parent's own
  geti i0 r2 i4
  out i0           # writes 9: the cell that was made last
end
