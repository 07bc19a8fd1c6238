// A list that grows, an order behind an interface, and threads that count together.
// It prints the sum of 1 to 100, the greatest of them, how many strings a list of strings holds, and what eight
// threads have counted.

.class interface IOrder<T> {
  .method abstract bool Before(!0, !0);
}

.class Ascending implements IOrder<int32> {
  .method void .ctor() {
    ldarg.0
    call instance void object::.ctor()
    ret
  }

  .method virtual bool Before(int32, int32) {
    ldarg.1
    ldarg.2
    clt
    ret
  }
}

.class List<T> {
  .field !0[] items
  .field int32 count

  .method void .ctor() {
    ldarg.0
    call instance void object::.ctor()
    ldarg.0
    ldc.i4.4
    newarr !0
    stfld !0[] List<!0>::items
    ret
  }

  .method void Add(!0) {
    .locals init (!0[], int32)
    ldarg.0
    ldfld int32 List<!0>::count
    ldarg.0
    ldfld !0[] List<!0>::items
    ldlen
    conv.i4
    bne.un room

    // The array is full: one of twice its length takes its place.
    ldarg.0
    ldfld int32 List<!0>::count
    ldc.i4.2
    mul
    newarr !0
    stloc.0
    br test
  copy:
    ldloc.0
    ldloc.1
    ldarg.0
    ldfld !0[] List<!0>::items
    ldloc.1
    ldelem !0
    stelem !0
    ldloc.1
    ldc.i4.1
    add
    stloc.1
  test:
    ldloc.1
    ldarg.0
    ldfld int32 List<!0>::count
    blt copy
    ldarg.0
    ldloc.0
    stfld !0[] List<!0>::items

  room:
    ldarg.0
    ldfld !0[] List<!0>::items
    ldarg.0
    ldfld int32 List<!0>::count
    ldarg.1
    stelem !0
    ldarg.0
    ldarg.0
    ldfld int32 List<!0>::count
    ldc.i4.1
    add
    stfld int32 List<!0>::count
    ret
  }

  .method int32 Count() {
    ldarg.0
    ldfld int32 List<!0>::count
    ret
  }

  .method !0 At(int32) {
    ldarg.0
    ldfld !0[] List<!0>::items
    ldarg.1
    ldelem !0
    ret
  }
}

.class Greatest {
  .method static !!0 Of<T>(List<!!0>, IOrder<!!0>) {
    .locals init (!!0, int32)
    ldarg.0
    ldc.i4.0
    call instance !0 List<!!0>::At(int32)
    stloc.0
    ldc.i4.1
    stloc.1
    br test
  next:
    ldarg.1
    ldloc.0
    ldarg.0
    ldloc.1
    call instance !0 List<!!0>::At(int32)
    callvirt instance bool IOrder<!!0>::Before(!0, !0)
    brfalse skip
    ldarg.0
    ldloc.1
    call instance !0 List<!!0>::At(int32)
    stloc.0
  skip:
    ldloc.1
    ldc.i4.1
    add
    stloc.1
  test:
    ldloc.1
    ldarg.0
    call instance int32 List<!!0>::Count()
    blt next
    ldloc.0
    ret
  }
}

.class Adder implements Rt.IRun {
  .field static int32 total

  .method void .ctor() {
    ldarg.0
    call instance void object::.ctor()
    ret
  }

  .method virtual void Run() {
    .locals init (int32)
    br test
  again:
    ldsflda int32 Adder::total
    ldc.i4.1
    call int32 System.Threading.Interlocked::Add(int32&, int32)
    pop
    ldloc.0
    ldc.i4.1
    add
    stloc.0
  test:
    ldloc.0
    ldc.i4.s 100
    blt again
    ret
  }
}

.class P {
  .method static int32 Sum(List<int32>) {
    .locals init (int32, int32)
    br test
  next:
    ldloc.0
    ldarg.0
    ldloc.1
    call instance !0 List<int32>::At(int32)
    add
    stloc.0
    ldloc.1
    ldc.i4.1
    add
    stloc.1
  test:
    ldloc.1
    ldarg.0
    call instance int32 List<int32>::Count()
    blt next
    ldloc.0
    ret
  }

  .method static List<int32> UpTo(int32) {
    .locals init (List<int32>, int32)
    newobj instance void List<int32>::.ctor()
    stloc.0
    ldc.i4.1
    stloc.1
    br test
  next:
    ldloc.0
    ldloc.1
    call instance void List<int32>::Add(!0)
    ldloc.1
    ldc.i4.1
    add
    stloc.1
  test:
    ldloc.1
    ldarg.0
    ble next
    ldloc.0
    ret
  }

  .method static void Threads() {
    .locals init (int32[], int32)
    ldc.i4.8
    newarr int32
    stloc.0
    br test
  start:
    ldloc.0
    ldloc.1
    newobj instance void Adder::.ctor()
    call int32 Rt.Threads::Start(Rt.IRun)
    stelem int32
    ldloc.1
    ldc.i4.1
    add
    stloc.1
  test:
    ldloc.1
    ldc.i4.8
    blt start
    ldc.i4.0
    stloc.1
  join:
    ldloc.0
    ldloc.1
    ldelem int32
    call void Rt.Threads::Join(int32)
    ldloc.1
    ldc.i4.1
    add
    stloc.1
    ldloc.1
    ldc.i4.8
    blt join
    ret
  }

  .method static void Main() {
    .entrypoint
    .locals init (List<int32>, List<string>)
    ldc.i4.s 100
    call List<int32> P::UpTo(int32)
    stloc.0
    ldloc.0
    call int32 P::Sum(List<int32>)
    call void System.Console::WriteLine(int32)
    ldloc.0
    newobj instance void Ascending::.ctor()
    call !!0 Greatest::Of<int32>(List<!!0>, IOrder<!!0>)
    call void System.Console::WriteLine(int32)
    newobj instance void List<string>::.ctor()
    stloc.1
    ldloc.1
    ldstr "one"
    call instance void List<string>::Add(!0)
    ldloc.1
    ldstr "two"
    call instance void List<string>::Add(!0)
    ldloc.1
    ldstr "three"
    call instance void List<string>::Add(!0)
    ldloc.1
    call instance int32 List<string>::Count()
    call void System.Console::WriteLine(int32)
    call void P::Threads()
    ldsfld int32 Adder::total
    call void System.Console::WriteLine(int32)
    ret
  }
}
