# A parallel loop: adds what `square` returns for each number from 1 to 10. The report counts 19 tasks: the root, and
# two for each of the nine forks that cut ten numbers down to one.
# words: run --report
fn square
  mul i0 i0 i0     # finds its number in i0, and returns i0
end

fn main
  set i0 1         # the first number
  set i1 11        # one past the last one
  pfor square
  out i0           # writes 385
end
