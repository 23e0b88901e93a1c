; Declares a default method: edition 8 initializes it before a class that implements it, edition 7 doesn't.
.interface public Loud
.field public static volume I

.method static <clinit>()V
.limit stack 2
getstatic java/lang/System/out Ljava/io/PrintStream;
ldc "Loud"
invokevirtual java/io/PrintStream/println(Ljava/lang/String;)V
bipush 3
putstatic Loud/volume I
return
.end method

.method public isLoud()I
.limit stack 1
.limit locals 1
iconst_1
ireturn
.end method
