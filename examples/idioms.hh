# Idioms, as in docs/LANGUAGE.md: tests for nil, for inequality and for order, the lesser of two numbers, a counter in
# memory, a list, an array of numbers, and two results of one call.
# words: run
fn tests           # r0: nil or not, i5 and i6: numbers; writes what the tests say
  set i4 0
  nil r1
  same i7 r0 r1    # 1 if r0 is nil
  out i7
  eq i7 i7 i4      # the opposite: 1 if r0 is an object
  out i7
  eq i7 i5 i6
  eq i7 i7 i4      # 1 if i5 and i6 differ
  out i7
  lt i7 i6 i5      # 1 if i5 is greater than i6
  out i7
  lt i7 i6 i5
  eq i7 i7 i4      # 1 if i5 is at most i6
  out i7
end

fn lesser          # returns the lesser of i5 and i6
  mov i0 i5
  lt i7 i6 i5      # 1 if i6 is less
  jz i7 found
  mov i0 i6
lab found
end

fn count           # adds 1 to the counter in r5, an object with one number
  set i1 1
  set i4 0
  geti i0 r5 i4
  add i0 i0 i1
  puti r5 i4 i0
end

fn push            # returns the list r0 with i0 in front
  set i1 1
  set i4 0
  newm r1 i1 i1    # a cell: one reference, one number
  putr r1 i4 r0    # the rest of the list
  puti r1 i4 i0    # the number
  movr r0 r1
end

fn total           # returns the sum of the list r0
  set i4 0
  set i0 0
  nil r1
lab next
  same i7 r0 r1
  eq i7 i7 i4      # 1 if there is a cell
  jz i7 done
  geti i5 r0 i4
  add i0 i0 i5
  getr r0 r0 i4    # the rest
  jmp next
lab done
end

fn squares         # returns an array of the squares of 0 to i0 - 1
  set i1 1
  set i4 0
  newm r0 i4 i0    # no reference, i0 numbers, all 0
  cnti i5 r0       # how many numbers the array has
lab more
  jz i5 filled
  sub i5 i5 i1
  mul i6 i5 i5
  puti r0 i5 i6    # the number at the place i5
  jmp more
lab filled
end

fn divide          # returns the quotient and the remainder of i5 and i6, in one immutable object
  div i0 i5 i6
  rem i1 i5 i6
  pack r0 0 2      # no reference; the numbers i0 and i1
end

fn main
  set i5 7
  set i6 4
  call tests       # writes 1, 0, 1, 1, 0
  call lesser
  out i0           # writes 4
  set i4 0
  set i8 1
  newm r5 i4 i8    # the counter
  call count
  call count
  out i0           # writes 2
  nil r0
  set i0 30
  call push
  set i0 12
  call push
  call total
  out i0           # writes 42
  set i0 10
  call squares
  set i8 9
  geti i0 r0 i8
  out i0           # writes 81
  call divide
  set i8 1
  geti i0 r0 i4
  geti i1 r0 i8
  out i0           # writes 1
  out i1           # writes 3
end
