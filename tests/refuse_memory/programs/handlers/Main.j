; Throws within frames and handlers, and catches by class and by catch-all rows; what the machine makes for each is an object.
.class public Main
.field static caught I

.method static divide(I)I
.limit stack 2
.limit locals 1
sipush 1000
iload_0
idiv
ireturn
.end method

.method static missing()V
.limit stack 1
.catch java/lang/ArithmeticException from A to B using H
A: getstatic Gone/x I
B: pop
return
H: pop
return
.end method

.method static count()V
.limit stack 2
getstatic Main/caught I
iconst_1
iadd
putstatic Main/caught I
return
.end method

.method public static main([Ljava/lang/String;)V
.limit stack 2
.limit locals 1
.catch java/lang/ArithmeticException from A to B using H
.catch java/lang/NullPointerException from H to I using J
.catch java/lang/LinkageError from J to K using L
.catch all from L to M using N
A: iconst_0
invokestatic Main/divide(I)I
B: pop
return
H: pop
invokestatic Main/count()V
aconst_null
iconst_1
invokevirtual java/io/PrintStream/println(I)V
I: return
J: pop
invokestatic Main/count()V
invokestatic Main/missing()V
K: return
L: invokestatic Main/count()V
pop
pop
M: return
N: pop
invokestatic Main/count()V
getstatic java/lang/System/out Ljava/io/PrintStream;
getstatic Main/caught I
invokevirtual java/io/PrintStream/println(I)V
return
.end method
