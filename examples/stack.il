// A list of numbers, made of cells that are linked. It prints the numbers 1 to 5 from the last to the first, and their sum.

.class Cell {
  .field int32 number
  .field Cell rest

  .method void .ctor(int32, Cell) {
    ldarg.0
    call instance void object::.ctor()
    ldarg.0
    ldarg.1
    stfld int32 Cell::number
    ldarg.0
    ldarg.2
    stfld Cell Cell::rest
    ret
  }
}

.class P {
  .method static Cell UpTo(int32) {
    .locals init (Cell, int32)
    br test
  next:
    ldloc.1
    ldc.i4.1
    add
    stloc.1
    ldloc.1
    ldloc.0
    newobj instance void Cell::.ctor(int32, Cell)
    stloc.0
  test:
    ldloc.1
    ldarg.0
    blt next
    ldloc.0
    ret
  }

  .method static int32 Sum(Cell) {
    .locals init (int32)
    br test
  next:
    ldarg.0
    ldfld int32 Cell::number
    call void System.Console::WriteLine(int32)
    ldloc.0
    ldarg.0
    ldfld int32 Cell::number
    add
    stloc.0
    ldarg.0
    ldfld Cell Cell::rest
    starg 0
  test:
    ldarg.0
    brtrue next
    ldloc.0
    ret
  }

  .method static void Main() {
    .entrypoint
    ldc.i4.5
    call Cell P::UpTo(int32)
    call int32 P::Sum(Cell)
    call void System.Console::WriteLine(int32)
    ret
  }
}
