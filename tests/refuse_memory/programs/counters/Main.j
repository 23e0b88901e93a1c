; Three counters, each under a monitor: of the class, of an object by a synchronized method, and of an object that a handler leaves too.
.class public Main
.field static lock LMain;
.field static calls I
.field static turns I
.field count I

.method static <clinit>()V
.limit stack 1
new Main
putstatic Main/lock LMain;
return
.end method

.method static synchronized call()V
.limit stack 2
getstatic Main/calls I
iconst_1
iadd
putstatic Main/calls I
return
.end method

.method synchronized add()V
.limit stack 3
.limit locals 1
aload_0
dup
getfield Main/count I
iconst_1
iadd
putfield Main/count I
return
.end method

.method static turn(LMain;)V
.limit stack 2
.limit locals 1
.catch all from A to B using B
aload_0
monitorenter
A: getstatic Main/turns I
iconst_1
iadd
putstatic Main/turns I
aload_0
monitorexit
return
B: aload_0
monitorexit
athrow
.end method

.method public static main([Ljava/lang/String;)V
.limit stack 4
.limit locals 2
iconst_3
istore_1
Again: invokestatic Main/call()V
getstatic Main/lock LMain;
dup
invokevirtual Main/add()V
invokestatic Main/turn(LMain;)V
iinc 1 -1
iload_1
ifne Again
getstatic java/lang/System/out Ljava/io/PrintStream;
dup
dup
getstatic Main/calls I
invokevirtual java/io/PrintStream/println(I)V
getstatic Main/lock LMain;
getfield Main/count I
invokevirtual java/io/PrintStream/println(I)V
getstatic Main/turns I
invokevirtual java/io/PrintStream/println(I)V
return
.end method
