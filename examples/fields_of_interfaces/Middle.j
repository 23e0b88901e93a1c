; An interface with one field, which its initializer sets to what Main.shown answers.
.interface Middle
.implements Upper
.field public static final mid I

.method static <clinit>()V
.limit stack 2
.limit locals 0
ldc "Middle"
iconst_2
invokestatic Main/shown(Ljava/lang/String;I)I
putstatic Middle/mid I
return
.end method
