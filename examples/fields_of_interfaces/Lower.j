; An interface with one field, which its initializer sets to what Main.shown answers.
.interface Lower
.implements Middle
.field public static final low I

.method static <clinit>()V
.limit stack 2
.limit locals 0
ldc "Lower"
iconst_3
invokestatic Main/shown(Ljava/lang/String;I)I
putstatic Lower/low I
return
.end method
