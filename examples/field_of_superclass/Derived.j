; Inherits the field. Its initializer would print, and never runs.
.class public Derived
.super Base

.method static <clinit>()V
.limit stack 2
.limit locals 0
getstatic java/lang/System/out Ljava/io/PrintStream;
ldc "Derived"
invokevirtual java/io/PrintStream/println(Ljava/lang/String;)V
return
.end method
