// Structs by value and by pointer. It prints both fields of a pair, those of a copy that was swapped, and of the first
// pair again, which is as it was; and then what a pair of zeros holds.

.class struct Pair {
  .field int32 first
  .field int64 second

  .method void .ctor(int32, int64) {
    ldarg.0
    ldarg.1
    stfld int32 Pair::first
    ldarg.0
    ldarg.2
    stfld int64 Pair::second
    ret
  }

  .method void Swap() {
    .locals init (int32)
    ldarg.0
    ldfld int32 Pair::first
    stloc.0
    ldarg.0
    ldarg.0
    ldfld int64 Pair::second
    conv.i4
    stfld int32 Pair::first
    ldarg.0
    ldloc.0
    conv.i8
    stfld int64 Pair::second
    ret
  }
}

.class P {
  .method static void Show(Pair) {
    ldarg.0
    ldfld int32 Pair::first
    call void System.Console::WriteLine(int32)
    ldarg.0
    ldfld int64 Pair::second
    call void System.Console::WriteLine(int64)
    ret
  }

  .method static Pair Swapped(Pair) {
    ldarga 0
    call instance void Pair::Swap()
    ldarg.0
    ret
  }

  .method static void Main() {
    .entrypoint
    .locals init (Pair)
    ldc.i4.7
    ldc.i8 8
    newobj instance void Pair::.ctor(int32, int64)
    stloc.0
    ldloc.0
    call void P::Show(Pair)
    ldloc.0
    call Pair P::Swapped(Pair)
    call void P::Show(Pair)
    ldloc.0
    call void P::Show(Pair)
    ldloca 0
    initobj Pair
    ldloc.0
    call void P::Show(Pair)
    ret
  }
}
