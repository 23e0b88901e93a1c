.class public First
.field static x I

.method static <clinit>()V
.limit stack 2
iconst_1
iconst_0
idiv
putstatic First/x I
return
.end method
