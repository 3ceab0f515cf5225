# N bodies in a plane that attract each other: 30 steps in integers. In a plane attraction is as 1 to the distance, so
# no square root is needed. A state is a frozen array: all x, all y, and the velocities, likewise. In each step a
# parallel loop goes over blocks of 10 bodies; each call reads the state and puts its bodies' next one into a table, a
# down-pointer, and the root lays these together. The checksum adds up the numbers of the last state, each times its
# place.
# words: run --fuel 1000000000 --chunks 65536 --leaf 1000000 --inner 1000000
fn main
  set i9 200 # N
  set i10 10       # the bodies of a block
  set i2 1         # (i2, i3 and i4 are 1, 2 and 0 everywhere)
  set i3 2
  set i4 0
  sub i11 i9 i2
  div i11 i11 i10
  add i11 i11 i2   # how many blocks there are
  call masses
  movr r8 r0
  call opening
  movr r7 r0
  set i15 30       # the steps that are left
lab step
  newm r6 i11 i4
  set i0 0
  mov i1 i11
  pfor move
  call state
  movr r7 r0
  sub i15 i15 i2
  eq i5 i15 i4
  jz i5 step
  call checksum
  out i0
end

fn masses          # returns the masses, frozen: of the body i 1 more than 48271 i i modulo 101, times 1,000,000
  set i5 48271
  set i6 101
  set i7 1000000
  newm r0 i4 i9
  set i0 0
lab next
  mul i8 i0 i0
  mul i8 i8 i5
  rem i8 i8 i6
  add i8 i8 i2
  mul i8 i8 i7
  puti r0 i0 i8
  add i0 i0 i2
  eq i8 i0 i9
  jz i8 next
  freeze r0
end

fn opening         # returns the first state: 2 N places below 1,000,000, and all is at rest
  set i5 48271
  set i6 2147483647
  set i7 1000000
  mul i12 i9 i3
  mul i8 i12 i3
  newm r0 i4 i8
  set i0 0
lab next
  mul i8 i0 i0
  mul i8 i8 i5
  rem i8 i8 i6
  rem i8 i8 i7
  puti r0 i0 i8
  add i0 i0 i2
  eq i8 i0 i12
  jz i8 next
  freeze r0
end

fn move            # puts the next state of the block i0: for each body its x, its y and both velocities
  mov i14 i0
  mul i11 i0 i10   # its first body
  sub i12 i9 i11
  lt i5 i10 i12
  jz i5 last
  mov i12 i10
lab last
  mul i5 i12 i3
  mul i5 i5 i3
  newm r1 i4 i5
  add i12 i12 i11  # the first body after it
  set i10 0        # where a body's state goes
lab body
  geti i5 r7 i11
  add i6 i11 i9
  geti i6 r7 i6
  call force
  mul i7 i9 i3     # where its velocity is
  add i7 i7 i11
  geti i8 r7 i7
  add i7 i7 i9
  geti i7 r7 i7
  geti i13 r0 i4
  add i8 i8 i13
  geti i13 r0 i2
  add i7 i7 i13
  add i5 i5 i8
  add i6 i6 i7
  puti r1 i10 i5
  add i10 i10 i2
  puti r1 i10 i6
  add i10 i10 i2
  puti r1 i10 i8
  add i10 i10 i2
  puti r1 i10 i7
  add i10 i10 i2
  add i11 i11 i2
  eq i7 i11 i12
  jz i7 body
  putr r6 i14 r1
  set i0 0
end

fn force           # returns in an object how much a body at x = i5, y = i6 is accelerated in both directions
  set i15 100000000 # added to the square of a distance, so that near bodies don't attract each other too much
  set i0 0
  set i1 0
  set i7 0         # the other body, where its x is,
  mov i8 i9        # and where its y is
lab next
  geti i10 r7 i7
  sub i10 i10 i5
  geti i11 r7 i8
  sub i11 i11 i6
  mul i12 i10 i10
  mul i13 i11 i11
  add i12 i12 i13
  add i12 i12 i15
  geti i14 r8 i7
  mul i10 i10 i14
  div i10 i10 i12
  add i0 i0 i10
  mul i11 i11 i14
  div i11 i11 i12
  add i1 i1 i11
  add i8 i8 i2
  add i7 i7 i2
  eq i12 i7 i9
  jz i12 next
  pack r0 0 2
end

fn state           # returns a state of what the blocks in r6 have
  mul i5 i9 i3
  mul i5 i5 i3
  newm r0 i4 i5
  set i5 0         # the body
  set i6 0         # its block
lab block
  getr r1 r6 i6
  cnti i12 r1
  set i7 0
lab body
  mov i8 i5
  call lay
  add i5 i5 i2
  add i7 i7 i3
  add i7 i7 i3
  eq i8 i7 i12
  jz i8 body
  add i6 i6 i2
  eq i8 i6 i11
  jz i8 block
  freeze r0
end

fn lay             # puts the four numbers of r1 from i7 on into r0, at i8, i8 + N, and so on
  geti i13 r1 i7
  puti r0 i8 i13
  add i7 i7 i2
  add i8 i8 i9
  geti i13 r1 i7
  puti r0 i8 i13
  add i7 i7 i2
  add i8 i8 i9
  geti i13 r1 i7
  puti r0 i8 i13
  add i7 i7 i2
  add i8 i8 i9
  geti i13 r1 i7
  puti r0 i8 i13
end

fn checksum        # of the state r7
  cnti i5 r7
  set i0 0
  set i6 0
lab next
  geti i7 r7 i6
  add i6 i6 i2
  mul i7 i7 i6
  add i0 i0 i7
  eq i7 i6 i5
  jz i7 next
end
