; Its initializer reads a field of Right.
.class public Left
.super java/lang/Object
.field static own I

.method static <clinit>()V
.limit stack 2
.limit locals 0
getstatic Right/own I
iconst_1
iadd
putstatic Left/own I
return
.end method
