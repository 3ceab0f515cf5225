# The trap div: a division by zero ends the run, with the task and the line.
# words: run
fn main
  set i0 7
  set i1 0
  div i2 i0 i1
  out i2
end
