.class public Second
.field static x I

.method static <clinit>()V
.limit stack 2
iconst_1
iconst_0
idiv
putstatic Second/x I
return
.end method
