# The trap depth: a task has at most 1,000 frames. (A fork by a task that lies below 1,000 forks traps alike.)
# words: run
fn main
  call main
end
