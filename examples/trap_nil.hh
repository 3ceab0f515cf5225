# The trap nil: a field of nil is read. At the start of `main` all references are nil.
# words: run
fn main
  set i1 0
  geti i0 r0 i1
end
