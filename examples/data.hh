# A program whose data are in a function of their own, `data`, which a script can replace (docs/LANGUAGE.md). It finds
# the greatest number.
# words: run
fn data            # puts each number of the data into the list r0
  set i0 3
  call push
  set i0 14
  call push
  set i0 9
  call push
end

fn push            # returns the list r0 with i0 in front
  set i1 1
  set i4 0
  newm r1 i1 i1
  putr r1 i4 r0
  puti r1 i4 i0
  movr r0 r1
end

fn main
  nil r0
  call data
  set i4 0
  geti i5 r0 i4    # the greatest so far
  nil r1
lab next
  same i7 r0 r1
  eq i7 i7 i4
  jz i7 done
  geti i6 r0 i4
  getr r0 r0 i4
  lt i7 i5 i6
  jz i7 next
  mov i5 i6
  jmp next
lab done
  out i5           # writes 14
end
