.class Countdown {
  .method static void Main() {
    .entrypoint
    ldc.i4 3
    call void System.Console::WriteLine(int32)
    ldc.i4 3
    ldc.i4 -1
    add
    call void System.Console::WriteLine(int32)
    ldc.i4 3
    ldc.i4 -1
    add
    ldc.i4 -1
    add
    call void System.Console::WriteLine(int32)
    ldc.i4 1
    ldc.i4 2
    ldc.i4 -3
    add
    add
    call void System.Console::WriteLine(int32)
    ret
  }
}
