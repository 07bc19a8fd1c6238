// Boxes: an int32 and a struct as objects. It prints the number, what the struct's method prints through its interface,
// and the exception where a box is taken for one of another type.

.class interface IShow {
  .method abstract void Show();
}

.class struct Degrees implements IShow {
  .field int32 count

  .method virtual void Show() {
    ldarg.0
    ldfld int32 Degrees::count
    call void System.Console::WriteLine(int32)
    ret
  }
}

.class P {
  .method static void Main() {
    .entrypoint
    .locals init (object, Degrees)
    ldc.i4 42
    box int32
    stloc.0
    ldloc.0
    unbox.any int32
    call void System.Console::WriteLine(int32)
    ldloca 1
    ldc.i4 90
    stfld int32 Degrees::count
    ldloc.1
    box Degrees
    castclass IShow
    callvirt instance void IShow::Show()
    ldloc.0
    unbox.any int64
    call void System.Console::WriteLine(int64)
    ret
  }
}
