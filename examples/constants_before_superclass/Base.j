; Its initializer looks at two fields of the class that extends it, before that class's initializer has run.
.class public Base
.super java/lang/Object

.method static <clinit>()V
.limit stack 2
getstatic java/lang/System/out Ljava/io/PrintStream;
getstatic Derived/limit I
invokevirtual java/io/PrintStream/println(I)V
getstatic java/lang/System/out Ljava/io/PrintStream;
getstatic Derived/count I
invokevirtual java/io/PrintStream/println(I)V
return
.end method
