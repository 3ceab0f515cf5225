# How many primes there are below N, by a sieve in segments of 10,000 numbers. The root finds the primes whose square is
# below N, and freezes their list. A parallel loop goes over the segments. Each call strikes the multiples of these
# primes out of an array of its own, and counts what is left.
# words: run --fuel 1000000000 --chunks 65536 --leaf 1000000 --inner 1000000
fn main
  set i9 2000000 # N
  set i10 10000    # the numbers of a segment
  set i2 1         # (i2, i3 and i4 are 1, 2 and 0 everywhere)
  set i3 2
  set i4 0
  call base_primes
  movr r7 r0
  sub i1 i9 i2
  div i1 i1 i10
  add i1 i1 i2     # how many segments there are
  set i0 0
  pfor segment
  out i0
end

fn base_primes     # returns a frozen array of the primes whose square is below N, and then one that is as great or more
  newm r1 i4 i10   # (so N is at most the square of 9,973, the last prime here)
  newm r0 i4 i10
  set i5 2         # the number at hand
  set i6 0         # how many primes there are
lab next
  geti i7 r1 i5
  eq i7 i7 i4      # 1 if it wasn't struck
  jz i7 further
  puti r0 i6 i5
  add i6 i6 i2
  mul i8 i5 i5
  lt i7 i8 i9
  jz i7 done
lab strike
  lt i7 i8 i10
  jz i7 further
  puti r1 i8 i2
  add i8 i8 i5
  jmp strike
lab further
  add i5 i5 i2
  jmp next
lab done
  freeze r0
end

fn segment         # returns how many primes the segment i0 has
  mul i5 i0 i10    # its first number
  sub i6 i9 i5
  lt i7 i10 i6
  jz i7 last
  mov i6 i10
lab last
  newm r1 i4 i6    # 1 for what is struck
  add i11 i5 i6    # where it ends
  sub i12 i6 i2    # its last place
  set i8 0         # which prime
lab prime
  geti i13 r7 i8
  mul i14 i13 i13
  lt i7 i14 i11
  jz i7 count      # the squares of this prime and of all others lie after the segment
  sub i14 i14 i5   # the place of its square,
  lt i7 i14 i4
  jz i7 first_multiple
  sub i14 i13 i2   # or else of its first multiple here
  add i7 i5 i14
  div i7 i7 i13
  mul i14 i7 i13
  sub i14 i14 i5
lab first_multiple
  lt i7 i12 i14    # 1 if no multiple lies here
  eq i7 i7 i4
  jz i7 next_prime
lab strike
  puti r1 i14 i2
  add i14 i14 i13
  lt i7 i12 i14
  jz i7 strike
lab next_prime
  add i8 i8 i2
  jmp prime
lab count
  lt i7 i5 i3      # 0 and 1 are no primes
  jz i7 rest
  puti r1 i4 i2
  lt i7 i2 i6
  jz i7 rest
  puti r1 i2 i2
lab rest
  mov i0 i6
  set i8 0
lab next
  geti i7 r1 i8
  sub i0 i0 i7
  add i8 i8 i2
  eq i7 i8 i6
  jz i7 next
end
