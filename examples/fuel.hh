# Fuel: a run ends when its steps have reached the fuel. It is checked before each entry of the journal, so an entry
# of up to 257 steps that was begun is finished.
# words: run --fuel 1000 --report
fn main
lab again
  jmp again
end
