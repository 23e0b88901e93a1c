; Reads the field by the name of the subclass: Derived.number.
.class public Main
.super java/lang/Object

.method public static main([Ljava/lang/String;)V
.limit stack 2
.limit locals 1
getstatic java/lang/System/out Ljava/io/PrintStream;
getstatic Derived/number I
invokevirtual java/io/PrintStream/println(I)V
return
.end method
