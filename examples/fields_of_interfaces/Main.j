; Implements the lowest of three interfaces, and reads a field of the middle one by the name of the lowest: Lower.mid.
.class public Main
.super java/lang/Object
.implements Lower

.method public static main([Ljava/lang/String;)V
.limit stack 2
.limit locals 1
getstatic java/lang/System/out Ljava/io/PrintStream;
getstatic Lower/mid I
invokevirtual java/io/PrintStream/println(I)V
return
.end method

.method static shown(Ljava/lang/String;I)I
.limit stack 2
.limit locals 2
getstatic java/lang/System/out Ljava/io/PrintStream;
aload_0
invokevirtual java/io/PrintStream/println(Ljava/lang/String;)V
iload_1
ireturn
.end method
