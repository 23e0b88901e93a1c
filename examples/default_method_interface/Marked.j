; Declares an abstract method alone, so only a use of its own initializes it.
.interface public Marked
.field public static number I

.method static <clinit>()V
.limit stack 2
bipush 7
putstatic Marked/number I
getstatic java/lang/System/out Ljava/io/PrintStream;
ldc "Marked"
invokevirtual java/io/PrintStream/println(Ljava/lang/String;)V
return
.end method

.method public abstract mark()V
.end method
