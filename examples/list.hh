# A list: each cell has one reference, to the rest of the list, and one number. The list of 5, 4, 3, 2, 1 is built in r0
# from its end, and then walked along and added up.
# words: run --report
fn main
  set i1 1         # constants stand in registers: one reference, one number
  set i4 0         # field 0
  set i5 5         # how many cells
  set i6 0
lab more
  lt i7 i6 i5
  jz i7 built
  add i6 i6 i1
  newm r1 i1 i1    # a new cell
  putr r1 i4 r0    # its reference: the list so far
  puti r1 i4 i6    # its number
  movr r0 r1
  jmp more
lab built
  set i0 0
lab next
  nil r1
  same i7 r0 r1
  eq i7 i7 i4      # 1 if r0 isn't nil
  jz i7 done
  geti i6 r0 i4
  add i0 i0 i6
  getr r0 r0 i4
  jmp next
lab done
  out i0           # writes 15
end
