# Leaf collections: 100 objects of 10 words are made and dropped, and one that stays is in r5. With a leaf limit of 256
# words the heap is collected after each 256 words or more, so a chunk or two are enough for all of it.
# words: run --leaf 256 --report
fn main
  set i0 0
  set i1 1
  newm r5 i0 i1    # stays
  set i2 77
  puti r5 i0 i2
  set i3 100
  set i4 8
lab more
  jz i3 done
  newm r1 i0 i4    # 10 words; the one before is dropped
  sub i3 i3 i1
  jmp more
lab done
  geti i2 r5 i0
  out i2           # writes 77
end
