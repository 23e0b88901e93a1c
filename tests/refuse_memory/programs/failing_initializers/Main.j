; Uses a class three times whose initializer counts under the monitor of Main and then throws; each thread counts there what it caught.
.class public Main
.field static begun I
.field static caught I

.method static synchronized begin()V
.limit stack 2
getstatic Main/begun I
iconst_1
iadd
putstatic Main/begun I
return
.end method

.method static synchronized caught()V
.limit stack 2
getstatic Main/caught I
iconst_1
iadd
putstatic Main/caught I
return
.end method

.method public static main([Ljava/lang/String;)V
.limit stack 3
.limit locals 2
.catch java/lang/LinkageError from A to B using Caught
iconst_3
istore_1
A: getstatic Fails/x I
B: return
Caught: pop
invokestatic Main/caught()V
iinc 1 -1
iload_1
ifne A
getstatic java/lang/System/out Ljava/io/PrintStream;
dup
getstatic Main/begun I
invokevirtual java/io/PrintStream/println(I)V
getstatic Main/caught I
invokevirtual java/io/PrintStream/println(I)V
return
.end method
