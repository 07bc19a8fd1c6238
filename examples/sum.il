.class P {
  .method static void Main() {
    .entrypoint
    ldc.i4 2
    ldc.i4 3
    add
    call void System.Console::WriteLine(int32)
    ret
  }
}
