; Declares a field, and gives it a value in its initializer.
.class public Base
.super java/lang/Object
.field static number I

.method static <clinit>()V
.limit stack 1
.limit locals 0
bipush 17
putstatic Base/number I
return
.end method
