# The program of README.md: two tasks put an object each into an object of their parent, which reads one of them after
# the join.
# words: run --report
fn child           # called for the numbers 0 and 1, each time in a task of its own
  newm r1 i2 i13   # a new object: no reference (i2 is 0), one number (the loop has set i13 to 1)
  puti r1 i2 i1    # its number: i1, which is the call's own number and 1
  putr r5 i0 r1    # into field i0 of the parent's object: a down-pointer
end
fn main
  set i1 2
  newm r5 i1 i2    # the parent's object: two references
  pfor child       # for the numbers from i0, which is 0, up to below i1
  getr r1 r5 i2    # field 0: since the join this object is main's own
  geti i0 r1 i2
  out i0
end
