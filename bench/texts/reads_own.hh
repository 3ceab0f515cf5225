# Ten times N reads of a number of an immutable object of the task's own. Compare reads_above.
# words: run --fuel 1000000000
fn reads
  set i1 1000000 # N
  set i2 1
  lab next
  geti i0 r0 i5
  geti i0 r0 i5
  geti i0 r0 i5
  geti i0 r0 i5
  geti i0 r0 i5
  geti i0 r0 i5
  geti i0 r0 i5
  geti i0 r0 i5
  geti i0 r0 i5
  geti i0 r0 i5
  sub i1 i1 i2
  jz i1 done
  jmp next
  lab done
end
fn main
  set i0 7
  pack r0 0 1
  call reads
  out i0
end
