; An interface with one field, which its initializer sets to what Main.shown answers.
.interface Upper
.field public static final up I

.method static <clinit>()V
.limit stack 2
.limit locals 0
ldc "Upper"
iconst_1
invokestatic Main/shown(Ljava/lang/String;I)I
putstatic Upper/up I
return
.end method
