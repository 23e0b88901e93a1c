.class public Third
.field static x I

.method static <clinit>()V
.limit stack 2
iconst_1
iconst_0
idiv
putstatic Third/x I
return
.end method
