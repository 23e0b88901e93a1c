; Its initializer reads a field of Left.
.class public Right
.super java/lang/Object
.field static own I

.method static <clinit>()V
.limit stack 2
.limit locals 0
getstatic Left/own I
iconst_1
iadd
putstatic Right/own I
return
.end method
