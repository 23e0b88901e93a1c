; Calls itself to a depth of some frames, with results on the way back, and prints in the deepest frame and at the end.
.class public Main

.method static sum(I)I
.limit stack 3
.limit locals 1
iload_0
ifeq Deepest
iload_0
iload_0
iconst_1
isub
invokestatic Main/sum(I)I
iadd
ireturn
Deepest: getstatic java/lang/System/out Ljava/io/PrintStream;
iconst_0
invokevirtual java/io/PrintStream/println(I)V
iconst_0
ireturn
.end method

.method public static main([Ljava/lang/String;)V
.limit stack 2
getstatic java/lang/System/out Ljava/io/PrintStream;
bipush 30
invokestatic Main/sum(I)I
invokevirtual java/io/PrintStream/println(I)V
return
.end method
