// Exchange, Add and CompareExchange on a static field and on a local. Exchange and CompareExchange give the old word, Add
// the new one.

.class P {
  .field static int32 total

  .method static void Main() {
    .entrypoint
    .locals init (int32)
    ldsflda int32 P::total
    ldc.i4 4
    call int32 System.Threading.Interlocked::Exchange(int32&, int32)
    call void System.Console::WriteLine(int32)
    ldsflda int32 P::total
    ldc.i4 3
    call int32 System.Threading.Interlocked::Add(int32&, int32)
    call void System.Console::WriteLine(int32)
    ldloca 0
    ldc.i4 9
    ldc.i4 0
    call int32 System.Threading.Interlocked::CompareExchange(int32&, int32, int32)
    call void System.Console::WriteLine(int32)
    ldloca 0
    ldc.i4 5
    ldc.i4 8
    call int32 System.Threading.Interlocked::CompareExchange(int32&, int32, int32)
    call void System.Console::WriteLine(int32)
    ldloc.0
    call void System.Console::WriteLine(int32)
    ldsfld int32 P::total
    call void System.Console::WriteLine(int32)
    ret
  }
}
