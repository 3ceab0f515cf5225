# Ten times N reads of a number of an immutable object of the task above, without a turn. Compare reads_own.
# words: run --fuel 1000000000
fn reads
  set i1 1000000 # N
  set i2 1
  lab next
  geti i0 r0 i5
  geti i0 r0 i5
  geti i0 r0 i5
  geti i0 r0 i5
  geti i0 r0 i5
  geti i0 r0 i5
  geti i0 r0 i5
  geti i0 r0 i5
  geti i0 r0 i5
  geti i0 r0 i5
  sub i1 i1 i2
  jz i1 done
  jmp next
  lab done
end
fn nothing
end
fn main
  set i0 7
  pack r0 0 1
  par reads nothing
  out i0
end
