// Virtual calls and calls through an interface, fields, a static field, and a cast that fails.
// It prints the areas of a square and of a cube, how many were made, whether a square is a cube, and the exception.

.class interface IArea {
  .method abstract int32 Area();
}

.class Square implements IArea {
  .field int32 side
  .field static int32 made

  .method void .ctor(int32) {
    ldarg.0
    call instance void object::.ctor()
    ldarg.0
    ldarg.1
    stfld int32 Square::side
    ldsfld int32 Square::made
    ldc.i4.1
    add
    stsfld int32 Square::made
    ret
  }

  .method newslot virtual int32 Area() {
    ldarg.0
    ldfld int32 Square::side
    dup
    mul
    ret
  }
}

.class Cube extends Square {
  .method void .ctor(int32) {
    ldarg.0
    ldarg.1
    call instance void Square::.ctor(int32)
    ret
  }

  .method virtual int32 Area() {
    ldarg.0
    call instance int32 Square::Area()
    ldc.i4.6
    mul
    ret
  }
}

.class P {
  .method static void Show(IArea) {
    ldarg.0
    callvirt instance int32 IArea::Area()
    call void System.Console::WriteLine(int32)
    ret
  }

  .method static void Main() {
    .entrypoint
    .locals init (Square)
    ldc.i4.3
    newobj instance void Square::.ctor(int32)
    stloc.0
    ldloc.0
    call void P::Show(IArea)
    ldc.i4.3
    newobj instance void Cube::.ctor(int32)
    call void P::Show(IArea)
    ldsfld int32 Square::made
    call void System.Console::WriteLine(int32)
    ldloc.0
    isinst Cube
    ldnull
    cgt.un
    call void System.Console::WriteLine(int32)
    ldloc.0
    castclass Cube
    pop
    ret
  }
}
