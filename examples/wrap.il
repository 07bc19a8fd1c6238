.class Wrap {
  .method static void Main() {
    .entrypoint
    ldc.i4 2147483647
    call void System.Console::WriteLine(int32)
    ldc.i4 2147483647
    ldc.i4 1
    add
    call void System.Console::WriteLine(int32)
    ret
  }
}
