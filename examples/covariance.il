// An array of strings that is held as one of objects: what is stored into it has to be a string.

.class P {
  .method static void Put(object[], object) {
    ldarg.0
    ldc.i4.0
    ldarg.1
    stelem object
    ret
  }

  .method static void Main() {
    .entrypoint
    .locals init (string[])
    ldc.i4.1
    newarr string
    stloc.0
    ldloc.0
    ldstr "stored"
    call void P::Put(object[], object)
    ldloc.0
    ldc.i4.0
    ldelem string
    call void System.Console::WriteLine(string)
    ldloc.0
    newobj instance void object::.ctor()
    call void P::Put(object[], object)
    ret
  }
}
