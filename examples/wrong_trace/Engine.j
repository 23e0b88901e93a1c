; Has a field that its initializer sets.
.class public Engine
.super java/lang/Object
.field static power I

.method static <clinit>()V
.limit stack 1
.limit locals 0
bipush 90
putstatic Engine/power I
return
.end method
