# A leaf collection that is put off: each object of 600 words has a chunk of its own, and all of them stay. When 1,000
# words were made a collection is due, but copying 1,200 words needs 3 chunks, and of 4 only 2 are free. So it is put
# off, and the run goes on until the chunks are used up.
# words: run --chunks 4 --leaf 1000 --report --trace
fn main
  set i0 1
  set i1 597
  set i2 0
lab top
  newm r1 i0 i1
  putr r1 i2 r0    # the list in r0 keeps them all
  movr r0 r1
  jmp top
end
